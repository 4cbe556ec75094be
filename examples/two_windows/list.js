// A page has no `require`, and doesn't see what its preload script put on its own window.
console.log(typeof require, typeof secret, window === globalThis);
const total = {sum: 0, get double() { return this.sum * 2; }};
for (let i = 1; i <= 4; i++) {
  total.sum += i;
}
console.log(total.sum, total.double);
missing();
