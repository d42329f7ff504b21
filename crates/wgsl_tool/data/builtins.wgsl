// Builtin functions of integers and bools, in constant expressions.
const r1 = abs(-3); // AbstractInt = 3
const r2 = abs(3); // AbstractInt = 3
const r3 = abs(-3i); // i32 = 3i
const r4 = abs(3u); // u32 = 3u
const r5 = abs(-2147483647i - 1i); // i32 = -2147483648i
const r6 = abs(vec2(-3i, -2147483647i - 1i)); // vec2<i32> = vec2(3i, -2147483648i)
const r7 = abs(true); // error: a number is expected: abs(true)
const r8 = abs(1, 2); // error: abs takes 1 values, and 2 are given
const r9 = abs(); // error: abs takes 1 values, and 0 are given
const r10 = sign(-5); // AbstractInt = -1
const r11 = sign(0i); // i32 = 0i
const r12 = sign(7i); // i32 = 1i
const r13 = sign(vec3(-2, 0, 9)); // vec3<AbstractInt> = vec3(-1, 0, 1)
const r14 = min(1, 2); // AbstractInt = 1
const r15 = min(1i, 2); // i32 = 1i
const r16 = min(2, 1u); // u32 = 1u
const r17 = min(1i, 1u); // error: the arguments have no common type: min(1i, 1u)
const r18 = min(4294967295, 1i); // error: the arguments have no common type: min(4294967295, 1i)
const r19 = min(vec2(1, 5), vec2(3, 2)); // vec2<AbstractInt> = vec2(1, 2)
const r20 = min(true, false); // error: a number is expected
const r22 = max(1, 2); // AbstractInt = 2
const r23 = max(-1i, -2i); // i32 = -1i
const r24 = max(1u, 4294967295u); // u32 = 4294967295u
const r25 = max(vec2(1u, 5u), vec2(3, 2)); // vec2<u32> = vec2(3u, 5u)
const r27 = clamp(300, 0i, 255i); // i32 = 255i
const r28 = clamp(-1, 0, 255); // AbstractInt = 0
const r29 = clamp(7u, 0u, 255u); // u32 = 7u
const r30 = clamp(vec2(-5, 500), vec2(0, 0), vec2(9, 9)); // vec2<AbstractInt> = vec2(0, 9)
const r31 = clamp(1, 2); // error: clamp takes 3 values, and 2 are given
const r32 = select(1, 2u, false); // u32 = 1u
const r33 = select(1, 2u, true); // u32 = 2u
const r34 = select(vec2(1i, 2i), vec2(3i, 4i), vec2(true, false)); // vec2<i32> = vec2(3i, 2i)
const r35 = select(vec2(1i, 2i), vec2(3i, 4i), true); // vec2<i32> = vec2(3i, 4i)
const r36 = select(true, false, false); // bool = true
const r37 = select(1i, 2u, true); // error: the arguments have no common type
const r38 = select(1, 2, 1); // error: a bool is expected
const r39 = all(true); // bool = true
const r40 = all(false); // bool = false
const r41 = all(vec3(true, true, true)); // bool = true
const r42 = all(vec3(true, false, true)); // bool = false
const r43 = any(vec3(false, false, true)); // bool = true
const r44 = any(vec2(false, false)); // bool = false
const r45 = any(false); // bool = false
const r46 = all(1); // error: a bool is expected: all(1)
const r47 = countLeadingZeros(1u); // u32 = 31u
const r48 = countLeadingZeros(0u); // u32 = 32u
const r49 = countLeadingZeros(-1i); // i32 = 0i
const r50 = countLeadingZeros(vec2(1u, 256u)); // vec2<u32> = vec2(31u, 23u)
const r51 = countTrailingZeros(0u); // u32 = 32u
const r52 = countTrailingZeros(8u); // u32 = 3u
const r53 = countTrailingZeros(-2147483647i - 1i); // i32 = 31i
const r54 = countOneBits(-1i); // i32 = 32i
const r55 = countOneBits(0u); // u32 = 0u
const r56 = countOneBits(255u); // u32 = 8u
const r57 = countOneBits(true); // error: a number is expected
const r58 = extractBits(240u, 4, 4); // u32 = 15u
const r59 = extractBits(240i, 4, 4); // i32 = -1i
const r60 = extractBits(112i, 4u, 4u); // i32 = 7i
const r61 = extractBits(240u, 0u, 32u); // u32 = 240u
const r62 = extractBits(240u, 4u, 0u); // u32 = 0u
const r63 = extractBits(vec2(240u, 31u), 4u, 4u); // vec2<u32> = vec2(15u, 1u)
const r64 = extractBits(240, 4, 4); // i32 = -1i
const r65 = extractBits(240u, -1, 4); // error: -1 is no u32
const r66 = extractBits(240u, 1i, 4u); // error: an argument does not convert
const r67 = insertBits(0u, 5u, 3, 2); // u32 = 8u
const r68 = insertBits(0i, -1, 31, 1); // i32 = -2147483648i
const r69 = insertBits(7u, 0u, 2, 0); // u32 = 7u
const r70 = insertBits(255u, 0u, 0u, 4u); // u32 = 240u
const r71 = insertBits(vec2(0u, 255u), vec2(15u, 0u), 4u, 4u); // vec2<u32> = vec2(240u, 15u)
const r72 = insertBits(0u, 1i, 0u, 1u); // error: the arguments have no common type
const r73 = firstLeadingBit(0u); // u32 = 4294967295u
const r74 = firstLeadingBit(8u); // u32 = 3u
const r75 = firstLeadingBit(-1i); // i32 = -1i
const r76 = firstLeadingBit(-2i); // i32 = 0i
const r77 = firstLeadingBit(-2147483647i - 1i); // i32 = 30i
const r78 = firstLeadingBit(8); // i32 = 3i
const r79 = firstTrailingBit(8u); // u32 = 3u
const r80 = firstTrailingBit(0i); // i32 = -1i
const r81 = firstTrailingBit(-2147483647i - 1i); // i32 = 31i
const r82 = reverseBits(1u); // u32 = 2147483648u
const r83 = reverseBits(1i); // i32 = -2147483648i
const r84 = reverseBits(vec2(1u, 2u)); // vec2<u32> = vec2(2147483648u, 1073741824u)
const r85 = dot(vec2(3i, 4i), vec2(5i, 6i)); // i32 = 39i
const r86 = dot(vec3(1, 2, 3), vec3(4u, 5u, 6u)); // u32 = 32u
const r87 = dot(vec2(1, 2), vec3(1, 2, 3)); // error: the arguments have no common type
const r88 = dot(1, 2); // error: a vector is expected
const r89 = dot4U8Packed(67305985u, 16843009u); // u32 = 10u
const r90 = dot4U8Packed(4294967295u, 4294967295u); // u32 = 260100u
const r91 = dot4I8Packed(4294967295u, 4294967295u); // i32 = 4i
const r92 = dot4I8Packed(128u, 128u); // i32 = 16384i
const r93 = pack4xI8Clamp(vec4(-200i, 200i, -1i, 5i)); // u32 = 100630400u
const r94 = pack4xU8(vec4(1u, 2u, 3u, 4u)); // u32 = 67305985u
const r95 = pack4xU8Clamp(vec4(300u, 255u, 0u, 1u)); // u32 = 16842751u
const r96 = pack4xI8(vec4(-1i, 2i, 3i, 4i)); // u32 = 67306239u
const r97 = pack4xU8(vec4(256u, 2u, 3u, 4u)); // u32 = 67305984u
const r98 = unpack4xI8(4294967295u); // vec4<i32> = vec4(-1i, -1i, -1i, -1i)
const r99 = unpack4xU8(67305985u); // vec4<u32> = vec4(1u, 2u, 3u, 4u)
const r100 = unpack4xU8(4294967295u); // vec4<u32> = vec4(255u, 255u, 255u, 255u)
const r101 = unpack4xU8(pack4xU8(vec4(9u, 8u, 7u, 6u))); // vec4<u32> = vec4(9u, 8u, 7u, 6u)
const r104 = transpose(vec2(1, 2)); // error: a matrix is expected
const r105 = bitcast<u32>(-1i); // u32 = 4294967295u
const r106 = bitcast<i32>(4294967295u); // i32 = -1i
const r107 = bitcast<i32>(5); // i32 = 5i
const r108 = bitcast<u32>(vec2(1u, 2u)); // error: the arguments have unequal sizes
const r109 = bitcast<i32>(vec2(1u, 2u)); // error: the arguments have unequal sizes
const r111 = bitcast<vec2<i32>>(vec2(4294967295u, 1u)); // vec2<i32> = vec2(-1i, 1i)
const r112 = bitcast<vec2i>(vec2(4294967295u, 1u)); // vec2<i32> = vec2(-1i, 1i)
const r113 = bitcast<i32>(4294967295); // error: 4294967295 is no i32
const r114 = bitcast<bool>(1u); // error: an i32 or a u32 is expected
const r115 = bitcast<f32>(1u); // not evaluated: needs floats, `bitcast`
const r116 = bitcast<u32>(true); // error: a number is expected
const r117 = bitcast<u32>(); // error: bitcast takes 1 values, and 0 are given
// Functions of floats, and functions that are not constant.
const r118 = sqrt(4); // not evaluated: needs floats, `sqrt`
const r119 = floor(1.5); // not evaluated: needs floats, `floor`
const r120 = pow(2, 3); // not evaluated: needs floats, `pow`
const r121 = arrayLength(1); // not evaluated: needs what is known at run time, `arrayLength`
const r122 = atomicAdd(1, 2); // not evaluated: needs what is known at run time, `atomicAdd`
const r123 = foo(1); // error: nothing is named foo
const r124 = abs(min(-4, -2)) + max(1, 2); // AbstractInt = 6
