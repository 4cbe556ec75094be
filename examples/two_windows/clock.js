// This page never ends by itself: the limit of steps in the manifest stops its world.
let ticks = 0;
while (true) {
  ticks += 1;
}
