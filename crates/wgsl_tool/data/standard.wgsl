// What the standard refuses and the library answers, and the other way round.
const r1 = false < true; // bool = true; warning: the standard orders no bools
const r2 = true <= false; // bool = false; warning: the standard orders no bools
const r3 = true > false; // bool = true; warning: the standard orders no bools
const r4 = true >= true; // bool = true; warning: the standard orders no bools
const r5 = vec2(false, true) < vec2(true, true); // vec2<bool> = vec2(true, false); warning: the standard orders no bools
const r6 = sign(5u); // u32 = 1u; warning: the standard has no sign of u32
const r7 = sign(vec2(0u, 9u)); // vec2<u32> = vec2(0u, 1u); warning: the standard has no sign of u32
const r8 = clamp(5, 9, 1); // AbstractInt = 1; warning: the standard refuses low above high
const r9 = clamp(vec2(5, 5), vec2(0, 9), vec2(9, 8)); // vec2<AbstractInt> = vec2(5, 8); warning: the standard refuses low above high
const r10 = extractBits(4294967295u, 28, 10); // u32 = 15u; warning: the standard refuses offset + count past 32
const r11 = extractBits(1u, 40, 5); // u32 = 0u; warning: the standard refuses offset + count past 32
const r12 = extractBits(1u, 16, 16); // u32 = 0u
const r13 = insertBits(255u, 0u, 4, 32); // u32 = 15u; warning: the standard refuses offset + count past 32
const r14 = 1i << 33u; // i32 = 2i; warning: the standard shifts by less than the width
const r15 = 1u << 32u; // u32 = 1u; warning: the standard shifts by less than the width
const r17 = vec2(1u, 1u) << vec2(1u, 33u); // vec2<u32> = vec2(2u, 2u); warning: the standard shifts by less than the width
const r18 = 1 << 64; // AbstractInt = 0; warning: the standard shifts by less than the width
const r19 = 0 << 64; // AbstractInt = 0
const r20 = countLeadingZeros(1); // i32 = 31i
const r21 = countOneBits(7); // i32 = 3i
const r22 = bitcast<u32>(-1); // u32 = 4294967295u
