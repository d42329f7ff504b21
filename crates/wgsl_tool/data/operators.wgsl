// Operators on each pair of kinds, in constant expressions.
// Sums, differences and products: abstract ones are refused out of range, others wrap.
const r1 = 7 + 5; // AbstractInt = 12
const r2 = 7i + 5; // i32 = 12i
const r3 = 7 + 5i; // i32 = 12i
const r4 = 7u + 5; // u32 = 12u
const r5 = 7 + 5u; // u32 = 12u
const r6 = 7i + 5i; // i32 = 12i
const r7 = 7u + 5u; // u32 = 12u
const r10 = 7i + 5u; // error: no operator + for i32 and u32
const r11 = 7u + 5i; // error: no operator + for u32 and i32
const r14 = true + 1; // error: no operator + for bool and AbstractInt
const r15 = 1 + true; // error: no operator + for AbstractInt and bool
const r16 = true + false; // error: no operator + for bool and bool
const r17 = 9223372036854775807 + 1; // error: the sum is out of range: 9223372036854775807 + 1
const r18 = 4294967295 + 1i; // error: an operand of + is no i32: 4294967295 + 1i
const r19 = -1 + 1u; // error: an operand of + is no u32: -1 + 1u
const r20 = 2147483647i + 1i; // i32 = -2147483648i
const r21 = 4294967295u + 1u; // u32 = 0u
const r24 = 0u - 1u; // u32 = 4294967295u
const r25 = 5 - 7; // AbstractInt = -2
const r26 = 5i - 7i; // i32 = -2i
const r27 = 5u - 7u; // u32 = 4294967294u
const r30 = -9223372036854775807 - 2; // error: the difference is out of range: -9223372036854775807 - 2
const r31 = 5i - 7u; // error: no operator - for i32 and u32
const r32 = 6 * 7; // AbstractInt = 42
const r33 = 6i * 7i; // i32 = 42i
const r34 = 6u * 7; // u32 = 42u
const r36 = 65536u * 65536u; // u32 = 0u
const r37 = 65536i * 32768i; // i32 = -2147483648i
const r38 = 4294967296 * 4294967296; // error: the product is out of range: 4294967296 * 4294967296
const r39 = 3037000500 * 3037000500; // error: the product is out of range
const r40 = -3 * 5; // AbstractInt = -15
// Quotients are cut towards 0, and remainders have the sign of the dividend.
const r41 = 7 / 2; // AbstractInt = 3
const r42 = -7 / 2; // AbstractInt = -3
const r43 = 7 / -2; // AbstractInt = -3
const r44 = -7 / -2; // AbstractInt = 3
const r45 = 7i / 2i; // i32 = 3i
const r46 = -7i / 2i; // i32 = -3i
const r47 = 7u / 2u; // u32 = 3u
const r50 = 7 / 2u; // u32 = 3u
const r51 = 7i / 0i; // error: division by zero: 7i / 0i
const r52 = 7u / 0u; // error: division by zero: 7u / 0u
const r53 = 7 / 0; // error: division by zero: 7 / 0
const r55 = (-2147483647i - 1i) / -1i; // error: the quotient is out of range: -2147483648i / -1i
const r56 = (-9223372036854775807 - 1) / -1; // error: the quotient is out of range: -9223372036854775808 / -1
const r58 = true / true; // error: no operator / for bool and bool
const r59 = 7 % 3; // AbstractInt = 1
const r60 = -7 % 3; // AbstractInt = -1
const r61 = 7 % -3; // AbstractInt = 1
const r62 = -7 % -3; // AbstractInt = -1
const r63 = -7i % 2i; // i32 = -1i
const r64 = 7u % 4u; // u32 = 3u
const r66 = 7i % 0i; // error: division by zero: 7i % 0i
const r67 = 7u % 0; // error: division by zero: 7u % 0
const r68 = (-2147483647i - 1i) % -1i; // error: the quotient is out of range
// Negation, complement, not.
const r69 = -5; // AbstractInt = -5
const r70 = -5i; // i32 = -5i
const r71 = -(-2147483647i - 1i); // i32 = -2147483648i
const r72 = -7u; // error: no operator - for u32: -7u
const r73 = -true; // error: no operator - for bool: -true
const r74 = - -5i; // i32 = 5i
const r75 = ~0i; // i32 = -1i
const r76 = ~0u; // u32 = 4294967295u
const r77 = ~0; // AbstractInt = -1
const r80 = ~true; // error: no operator ~ for bool: ~true
const r81 = !true; // bool = false
const r82 = !false; // bool = true
const r83 = !1; // error: no operator ! for AbstractInt: !1
const r84 = !1u; // error: no operator ! for u32: !1u
const r85 = !vec2(true, false); // vec2<bool> = vec2(false, true)
const r86 = -vec2(1, -2); // vec2<AbstractInt> = vec2(-1, 2)
const r87 = ~vec3(0u, 1u, 2u); // vec3<u32> = vec3(4294967295u, 4294967294u, 4294967293u)
// Bits.
const r88 = 12 & 10; // AbstractInt = 8
const r89 = 12 | 10; // AbstractInt = 14
const r90 = 12 ^ 10; // AbstractInt = 6
const r91 = 12u & 10u; // u32 = 8u
const r92 = 12i | 10i; // i32 = 14i
const r93 = 12u ^ 10; // u32 = 6u
const r94 = 12i & 10u; // error: no operator & for i32 and u32
const r95 = -1 & 255; // AbstractInt = 255
const r96 = -1i & 255i; // i32 = 255i
const r97 = true & false; // bool = false
const r98 = true | false; // bool = true
const r99 = true ^ false; // error: no operator ^ for bool and bool: true ^ false
const r100 = true & 1; // error: no operator & for bool and AbstractInt
const r101 = 0xFFu & 0x18u; // u32 = 24u
const r103 = vec2(12u, 3u) & vec2(10u, 1u); // vec2<u32> = vec2(8u, 1u)
const r104 = vec2(true, false) | vec2(false, false); // vec2<bool> = vec2(true, false)
const r105 = vec2(1u, 2u) | vec3(1u, 2u, 3u); // error: vec2<u32> and vec3<u32> have unequal sizes: vec2(1u, 2u) | vec3(1u, 2u, 3u)
const r106 = vec2(1u, 2u) & 1u; // error: no operator & for vec2<u32> and u32
// Shifts.
const r107 = 1 << 4; // AbstractInt = 16
const r108 = 1u << 31u; // u32 = 2147483648u
const r109 = 1i << 30u; // i32 = 1073741824i
const r110 = 1i << 31u; // error: bits are shifted out: 1i << 31u
const r111 = -1i << 31u; // i32 = -2147483648i
const r112 = -1 << 63; // AbstractInt = -9223372036854775808
const r113 = 1 << 63; // error: bits are shifted out: 1 << 63
const r114 = 3000000000u << 1u; // error: bits are shifted out: 3000000000u << 1u
const r115 = 1u << 1i; // error: no operator << for u32 and i32
const r116 = 1u << 1; // u32 = 2u
const r117 = 1 << 1u; // AbstractInt = 2
const r119 = 8 >> 1; // AbstractInt = 4
const r120 = 8u >> 3u; // u32 = 1u
const r121 = -8i >> 1u; // i32 = -4i
const r122 = -1i >> 31u; // i32 = -1i
const r123 = -1 >> 70u; // AbstractInt = -1
const r124 = 8u >> 32u; // error: 8u has no 32 bits: 8u >> 32u
const r125 = vec2(1i, -1i) << vec2(1u, 31u); // vec2<i32> = vec2(2i, -2147483648i)
const r126 = vec2(1i, 2i) << vec2(0u, 31u); // error: bits are shifted out
const r127 = vec2(8u, 16u) >> vec2(3u, 1u); // vec2<u32> = vec2(1u, 8u)
const r128 = vec2(1u, 2u) << vec3(1u, 1u, 1u); // error: vec2<u32> and vec3<u32> have unequal sizes
const r129 = true << 1u; // error: no operator << for bool and u32
// Comparisons.
const r130 = 1 == 1; // bool = true
const r131 = 1 == 1u; // bool = true
const r132 = 1u == 2u; // bool = false
const r133 = 1i == 1u; // error: no operator == for i32 and u32
const r134 = true == true; // bool = true
const r135 = true != true; // bool = false
const r136 = 1 != 2; // bool = true
const r137 = 1 < 2; // bool = true
const r138 = 2 < 1; // bool = false
const r139 = 2i < 2i; // bool = false
const r140 = 2i <= 2i; // bool = true
const r141 = 3u > 2u; // bool = true
const r142 = 2u > 3u; // bool = false
const r143 = 2u >= 3u; // bool = false
const r144 = 3 >= 3; // bool = true
const r145 = -1 < 0; // bool = true
const r146 = -1i < 0i; // bool = true
const r147 = 4294967295u > 0u; // bool = true
const r148 = -1 < 0u; // error: an operand of < is no u32: -1 < 0u
const r151 = 1 == true; // error: no operator == for AbstractInt and bool
const r152 = vec2(1u, 2u) < vec2(2u, 2u); // vec2<bool> = vec2(true, false)
const r153 = vec2(1, 2) == vec2(1, 3); // vec2<bool> = vec2(true, false)
const r154 = vec3(1, 2, 3) != vec3(1u, 2u, 4u); // vec3<bool> = vec3(false, false, true)
const r155 = vec2(1, 2) == vec3(1, 2, 3); // error: no operator == for vec2<AbstractInt> and vec3<AbstractInt>
const r156 = array(1, 2) == array(1, 2); // error: no operator == for array<AbstractInt, 2> and array<AbstractInt, 2>
// Logical operators.
const r157 = true && true; // bool = true
const r158 = true && false; // bool = false
const r159 = false && true; // bool = false
const r160 = true || false; // bool = true
const r161 = false || false; // bool = false
const r162 = true && 1; // error: no operator && for bool and AbstractInt
const r163 = 1 && true; // error: no operator && for AbstractInt and bool
const r164 = false && 1; // error: no operator && for bool and AbstractInt
const r165 = vec2(true, true) && vec2(true, true); // error: no operator && for vec2<bool> and vec2<bool>
// An operand that is not evaluated may have a fault of numbers, and none of types.
const r166 = false && (1 / 0 == 1); // bool = false
const r167 = true || (1 / 0 == 1); // bool = true
const r168 = true && (1 / 0 == 1); // error: division by zero: 1 / 0
const r169 = false || (1 / 0 == 1); // error: division by zero: 1 / 0
const r170 = (5 > 10) && (10 < i32(5 * 1000 * 1000 * 1000)); // bool = false
const r171 = (5 < 10) && (10 < i32(5 * 1000 * 1000 * 1000)); // error: 5000000000 is no i32
const r172 = false && (1u + 1i == 2); // error: no operator + for u32 and i32
const r173 = false && nothing; // error: nothing is named nothing
const r174 = false && (array(1, 2)[5] == 1); // bool = false
// Vectors, and vectors with scalars.
const r175 = vec2(1, 2) + vec2(10, 20); // vec2<AbstractInt> = vec2(11, 22)
const r176 = vec2(1, 2) + vec2(10u, 20u); // vec2<u32> = vec2(11u, 22u)
const r177 = vec2(1, 2) + 3u; // vec2<u32> = vec2(4u, 5u)
const r178 = 3u + vec2(1, 2); // vec2<u32> = vec2(4u, 5u)
const r179 = 10 - vec3(1, 2, 3); // vec3<AbstractInt> = vec3(9, 8, 7)
const r180 = vec3(1, 2, 3) - 1; // vec3<AbstractInt> = vec3(0, 1, 2)
const r181 = vec2(3i, 4i) * 2; // vec2<i32> = vec2(6i, 8i)
const r182 = 2i * vec2(3, 4); // vec2<i32> = vec2(6i, 8i)
const r183 = vec2(7, 7) / 2i; // vec2<i32> = vec2(3i, 3i)
const r184 = vec2(7i, 7i) / 0i; // error: division by zero
const r185 = 7i / vec2(2i, 0i); // error: division by zero
const r186 = 100u / vec2(3u, 7u); // vec2<u32> = vec2(33u, 14u)
const r187 = vec4(7u, 8u, 9u, 10u) % 4u; // vec4<u32> = vec4(3u, 0u, 1u, 2u)
const r188 = vec2(7i, 8i) / 2u; // error: no operator / for i32 and u32
const r189 = vec2(1u, 2u) + vec3(1u, 2u, 3u); // error: no operator + for vec2<u32> and vec3<u32>
const r190 = 2u + vec2(1i, 2i); // error: no operator + for vec2<i32> and u32
const r191 = 2u - vec2(1i, 2i); // error: no operator - for u32 and vec2<i32>
const r192 = vec2(9223372036854775807, 1) + 1; // error: the sum is out of range
const r193 = vec2(true, false) + vec2(true, false); // error: no operator + for bool and bool
const r195 = array(1) + array(1); // error: no operator + for array<AbstractInt, 1> and array<AbstractInt, 1>
const r196 = -array(1); // error: no operator - for array<AbstractInt, 1>
