// A preload script may use Electron's module; its globals are its own.
const {contextBridge, ipcRenderer} = require("electron");
window.secret = "of the preload";
console.log(typeof contextBridge, typeof ipcRenderer, secret);
