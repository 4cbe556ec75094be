// The main process keeps a store that checks what is put into it.
function Item(name, count) {
  if (typeof name !== "string") {
    throw new TypeError("an item has a name");
  }
  this.name = name;
  this.count = count;
}
Item.prototype.label = function () {
  return `${this.count} x ${this.name}`;
};

const items = [];
const add = (name, count = 1) => {
  items[items.length] = new Item(name, count);
};

add("apple", 3);
add("pear");
try {
  add(7);
} catch (error) {
  console.warn(error.name, error.message);
} finally {
  console.info("items", items.length);
}
for (const item of items) {
  console.log(item.label());
}
