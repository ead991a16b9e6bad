.target neon
.image a u8 0 255
.tap a 0 0
.out u8
.scratch 192
.lifted out u8 = a[0,0]
.cost 0
// Copies each row by 16 pixels at a time, and forgets that a row may end within them: where the
// last row does, the vector load reaches past the image.
ldr x1, [x0, #24]     // how many pixels the row has
mov x3, #0
block:
ldr x5, [x0, #0]      // where the tap's pixels of this row begin
add x5, x5, x3
ldr q0, [x5, #0]
ldr x5, [x0, #8]      // where the output's row begins
add x5, x5, x3
str q0, [x5, #0]
add x3, x3, #16
cmp x3, x1
b.lo block
ret
