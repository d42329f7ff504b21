// Precedence, brackets, and the mixes of operators that need them.
const r1 = 1 + 2 * 3; // AbstractInt = 7
const r2 = (1 + 2) * 3; // AbstractInt = 9
const r3 = 2 * 3 + 1; // AbstractInt = 7
const r4 = 10 - 4 - 3; // AbstractInt = 3
const r5 = 10 - (4 - 3); // AbstractInt = 9
const r6 = 100 / 10 / 5; // AbstractInt = 2
const r7 = 100 / (10 / 5); // AbstractInt = 50
const r8 = 7 % 4 * 2; // AbstractInt = 6
const r9 = 2 * 7 % 4; // AbstractInt = 2
const r10 = -2 * -3; // AbstractInt = 6
const r11 = -7 / 2 * 2; // AbstractInt = -6
const r12 = 1 - -1; // AbstractInt = 2
const r13 = ~1 + 1; // AbstractInt = -1
const r14 = -~0; // AbstractInt = 1
const r15 = !!true; // bool = true
const r16 = 1 + 2 < 4; // bool = true
const r17 = 4 > 1 + 2; // bool = true
const r18 = 1 + 1 == 2; // bool = true
const r19 = 1 << 2 < 5; // bool = true
const r20 = 16 >> 2 == 4; // bool = true
const r21 = -1 << 2; // AbstractInt = -4
const r22 = 1 < 2 && 3 < 4; // bool = true
const r23 = 1 < 2 && 3 > 4; // bool = false
const r24 = 1 == 2 || 3 == 3; // bool = true
const r25 = true && true && false; // bool = false
const r26 = false || false || true; // bool = true
const r27 = 1 & 3 & 5; // AbstractInt = 1
const r28 = 1 | 2 | 4; // AbstractInt = 7
const r29 = 1 ^ 3 ^ 7; // AbstractInt = 5
const r30 = (1 & 3) == 1; // bool = true
const r31 = 1 + (2 << 3); // AbstractInt = 17
const r32 = (1 + 2) << 3; // AbstractInt = 24
const r33 = (1 << 4) | 3; // AbstractInt = 19
const r34 = (1 & 3) | 4; // AbstractInt = 5
const r35 = true || (false && true); // bool = true
const r36 = ((((1)))); // AbstractInt = 1
const r37 = (1 < 2) == true; // bool = true
const r38 = -(1); // AbstractInt = -1
const r39 = +1; // error: expected a type or a value
const r40 = 1 +; // error: expected a type or a value
const r41 = 1 2; // error: expected `;`
const r42 = (); // error: expected a type or a value
const r43 = (1; // error: expected `)`
const r44 = 1 & 3 == 1; // error: this operator and the one before it need brackets
const r45 = 1 == 3 & 1; // error: this operator and the one before it need brackets
const r46 = 1 + 2 << 3; // error: this operator and the one before it need brackets
const r47 = 1 << 2 + 3; // error: this operator and the one before it need brackets
const r48 = 1 << 2 << 3; // error: this operator and the one before it need brackets
const r49 = 1 << 2 >> 3; // error: this operator and the one before it need brackets
const r50 = 1 << 4 | 3; // error: this operator and the one before it need brackets
const r51 = 1 | 2 & 3; // error: this operator and the one before it need brackets
const r52 = 1 ^ 2 | 3; // error: this operator and the one before it need brackets
const r53 = 1 + 2 & 3; // error: this operator and the one before it need brackets
const r54 = 1 & 2 + 3; // error: this operator and the one before it need brackets
const r55 = 1 * 2 << 1; // error: this operator and the one before it need brackets
const r56 = true || false && true; // error: this operator and the one before it need brackets
const r57 = true && false || true; // error: this operator and the one before it need brackets
const r58 = true && 1 < 2 || true; // error: this operator and the one before it need brackets
const r59 = true & false && true; // error: this operator and the one before it need brackets
const r60 = 1 < 2 < 3; // error: this operator and the one before it need brackets
const r61 = 1 == 2 == true; // error: this operator and the one before it need brackets
const r62 = 1 < 2 == true; // error: this operator and the one before it need brackets
const r63 = 1 < 2 + 3 < 4; // error: this operator and the one before it need brackets
const r64 = min(1 & 3, 4 | 1); // AbstractInt = 1
const r65 = array(1 << 2, 3)[1 - 1]; // AbstractInt = 4
const r66 = --1; // error: two of these beside each other are no operators here
const r67 = 1--1; // error: two of these beside each other are no operators here
const r68 = 1 - - 1; // AbstractInt = 2
const r69 = &1; // error: no operator & for AbstractInt
// Numbers.
const r70 = 0; // AbstractInt = 0
const r71 = 007; // error: 007 is no number
const r72 = 0x1F; // AbstractInt = 31
const r73 = 0X1fu; // u32 = 31u
const r74 = 0xFFFFFFFFu; // u32 = 4294967295u
const r75 = 0x100000000u; // error: 0x100000000u is no u32
const r76 = 0x7FFFFFFFFFFFFFFF; // AbstractInt = 9223372036854775807
const r77 = 0x8000000000000000; // error: 0x8000000000000000 is no AbstractInt
const r78 = 2147483647i; // i32 = 2147483647i
const r79 = 2147483648i; // error: 2147483648i is no i32
const r80 = -2147483648i; // error: 2147483648i is no i32
const r81 = 4294967295u; // u32 = 4294967295u
const r82 = 4294967296u; // error: 4294967296u is no u32
const r83 = 9223372036854775808; // error: 9223372036854775808 is no AbstractInt
const r86 = 1.5; // not evaluated: needs floats, `1.5`
const r87 = 1f; // not evaluated: needs floats, `1f`
const r88 = 1e3; // not evaluated: needs floats, `1e3`
const r89 = 1 + 1.0; // not evaluated: needs floats, `1.0`
const r90 = 1.0 / 0.0; // not evaluated: needs floats, `1.0`
const r91 = 1_000; // error: expected `;`
// Comments and blanks.
const r92 = 1 /* one */ + /* /* two */ */ 2; // AbstractInt = 3
const r93 = true; // bool = true
