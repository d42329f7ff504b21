//! --strict
// The same, where what the standard refuses is a fault.
const r1 = false < true; // error: the standard orders no bools
const r2 = sign(5u); // error: the standard has no sign of u32
const r3 = clamp(5, 9, 1); // error: the standard refuses low above high
const r4 = extractBits(1u, 40, 5); // error: the standard refuses offset + count past 32
const r5 = insertBits(255u, 0u, 4, 32); // error: the standard refuses offset + count past 32
const r6 = 1i << 33u; // error: the standard shifts by less than the width
const r7 = 1 << 64; // error: the standard shifts by less than the width
const r8 = false && (1u << 32u == 1u); // bool = false
const r9 = bitcast<u32>(-1); // u32 = 4294967295u
const r10 = sign(5); // AbstractInt = 1
const r11 = 1 < 2; // bool = true
const r12 = clamp(5, 1, 9); // AbstractInt = 5
