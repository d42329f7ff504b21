//! --stage exec
// The same operators while a shader runs.
const r1 = (-2147483647i - 1i) / -1i; // i32 = -2147483648i
const r2 = (-2147483647i - 1i) % -1i; // i32 = 0i
const r3 = 7i % 0i; // i32 = 0i
const r5 = vec2(7, 7) / 0i; // vec2<i32> = vec2(7i, 7i)
const r6 = 3000000000u << 1u; // u32 = 1705032704u
const r7 = 8u >> 32u; // u32 = 8u
const r8 = 9223372036854775807 + 1; // error: the sum is out of range
const r9 = (-9223372036854775807 - 1) / -1; // AbstractInt = -9223372036854775808
const r10 = clamp(5, 9, 1); // AbstractInt = 1
const r11 = extractBits(1u, 40, 5); // u32 = 0u
const r12 = 1i << 33u; // i32 = 2i
const r13 = 1i << 31u; // i32 = -2147483648i
override count = 3; // i32 = 3i
override width: u32 = 4; // u32 = 4u
override height: u32; // not evaluated: needs an override, `height`
const area = width * 2; // u32 = 8u
