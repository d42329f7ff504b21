//! --dialect crate
// What the Rust crate has and WGSL has not: integers of 64 bits, matrices of integers, and abstract integers in functions.
// Numbers of 64 bits.
const c1 = 5li; // i64 = 5li
const c2 = 9223372036854775807li; // i64 = 9223372036854775807li
const c3 = 9223372036854775808li; // error: 9223372036854775808li is no i64
const c4 = 18446744073709551615lu; // u64 = 18446744073709551615lu
const c5 = 18446744073709551616lu; // error: 18446744073709551616lu is no u64
const c6 = 7li + 5li; // i64 = 12li
const c7 = 7lu + 5lu; // u64 = 12lu
const c8 = 7li + 5i; // error: no operator + for i64 and i32
const c9 = 7lu + 5li; // error: no operator + for u64 and i64
const c10 = 9223372036854775807li + 1li; // i64 = -9223372036854775808li
const c11 = 18446744073709551615lu + 1lu; // u64 = 0lu
const c12 = 5li - 7li; // i64 = -2li
const c13 = 5lu - 7lu; // u64 = 18446744073709551614lu
const c14 = 6 * 7lu; // error: no operator * for AbstractInt and u64
const c15 = 7li / 2li; // i64 = 3li
const c16 = 7lu / 2lu; // u64 = 3lu
const c17 = 1li / 0li; // error: division by zero: 1li / 0li
const c18 = (-9223372036854775807li - 1li) / -1li; // i64 = -9223372036854775808li
const c19 = 7li % 4li; // i64 = 3li
const c20 = ~5li; // i64 = -6li
const c21 = ~0lu; // u64 = 18446744073709551615lu
const c22 = 0xFli | 0x10li; // i64 = 31li
const c23 = 1li << 40u; // i64 = 1099511627776li
const c24 = 1li << 64u; // i64 = 1li; warning: the standard shifts by less than the width
const c25 = 1li < 2li; // bool = true
const c26 = 1lu >= 2lu; // bool = false
const c27 = min(5li, 7li); // i64 = 5li
const c28 = max(5lu, 7lu); // u64 = 7lu
const c29 = u32(1li); // error: 1li is no u32
const c30 = bitcast<vec2<u32>>(-1li); // vec2<u32> = vec2(4294967295u, 4294967295u)
alias Longs = vec2<i64>; // ok
const c31 = Longs(); // vec2<i64> = vec2(0li, 0li)
alias Long = u64; // ok
const c32 = Long(); // u64 = 0lu
struct Wide { a: i64, b: array<u64, 2> } // ok
const c33 = Wide(1li, array(2lu, 3lu)); // Wide = Wide(1li, array(2lu, 3lu))
// Matrices of integers.
const c34 = mat2x2<u32>(); // mat2x2<u32> = mat2x2(vec2(0u, 0u), vec2(0u, 0u))
const c35 = mat2x2<i32>(1, 2, 3, 4); // mat2x2<i32> = mat2x2(vec2(1i, 2i), vec2(3i, 4i))
const c36 = mat2x3(1u, 2, 3, 4, 5, 6); // mat2x3<u32> = mat2x3(vec3(1u, 2u, 3u), vec3(4u, 5u, 6u))
const c37 = mat2x2(1, 2, 3, 4); // mat2x2<AbstractInt> = mat2x2(vec2(1, 2), vec2(3, 4))
const c38 = mat2x2(vec2(1u, 2u), 3, 4); // error: a matrix is made of its columns or of its scalars
const c39 = mat2x2(1, 2, 3); // error: a matrix is made of its columns or of its scalars
const c40 = mat2x3(1u, 2, 3, 4, 5, 6)[1]; // vec3<u32> = vec3(4u, 5u, 6u)
const c41 = mat2x3(1u, 2, 3, 4, 5, 6)[1][2]; // u32 = 6u
const c42 = transpose(mat2x3<u32>(1u, 2u, 3u, 4u, 5u, 6u)); // mat3x2<u32> = mat3x2(vec2(1u, 4u), vec2(2u, 5u), vec2(3u, 6u))
const c43 = transpose(mat2x3(vec3(1u, 2u, 3u), vec3(4u, 5u, 6u))); // mat3x2<u32> = mat3x2(vec2(1u, 4u), vec2(2u, 5u), vec2(3u, 6u))
const c44 = mat2x2<u32>() + mat2x2<u32>(); // error: no operator + for mat2x2<u32> and mat2x2<u32>
alias Square = mat2x2<i32>; // ok
struct Squares { a: mat3x3<u32> } // ok
// Abstract integers, which have 64 bits.
const c45 = countLeadingZeros(1); // AbstractInt = 63; warning: the standard takes this as an i32 first
const c46 = countLeadingZeros(0); // AbstractInt = 64; warning: the standard takes this as an i32 first
const c47 = countOneBits(7); // AbstractInt = 3; warning: the standard takes this as an i32 first
const c48 = countOneBits(-1); // AbstractInt = 64; warning: the standard takes this as an i32 first
const c49 = countTrailingZeros(0); // AbstractInt = 64; warning: the standard takes this as an i32 first
const c50 = countTrailingZeros(vec2(8, 4294967296)); // vec2<AbstractInt> = vec2(3, 32); warning: the standard takes this as an i32 first
const c51 = firstLeadingBit(8); // error: an i32 or a u32 is expected
const c52 = firstTrailingBit(8); // error: an i32 or a u32 is expected
const c53 = extractBits(240, 4, 4); // error: an i32 or a u32 is expected
const c54 = extractBits(240u, -1, 4); // error: an argument does not convert
const c55 = bitcast<i32>(-1); // i32 = -1i
const c56 = bitcast<i32>(4294967295); // error: 4294967295 is no i32
const c57 = bitcast<u32>(4294967295); // u32 = 4294967295u
const c58 = bitcast<u32>(-1); // error: -1 is no u32
