// a script
const twice = (x) => x * 2;
console.log(twice(21));
