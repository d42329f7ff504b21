// Values that are made of others, and parts of values.
struct Pair { a: u32, b: vec3<u32> }
struct Nest { p: Pair, k: i32 }
struct Odd { a: bool, b: array<i32, 2> }
alias V = vec3<u32>;
alias Row = array<i32, 3>;

// Scalars, whose conversions are written out.
const r1 = u32(); // u32 = 0u
const r2 = i32(); // i32 = 0i
const r3 = bool(); // bool = false
const r4 = u32(7); // u32 = 7u
const r5 = u32(7i); // u32 = 7u
const r6 = u32(-1i); // u32 = 4294967295u
const r7 = u32(true); // u32 = 1u
const r8 = u32(false); // u32 = 0u
const r9 = u32(7u); // u32 = 7u
const r10 = u32(-1); // error: -1 is no u32
const r11 = u32(4294967296); // error: 4294967296 is no u32
const r12 = u32(4294967295); // u32 = 4294967295u
const r13 = i32(4294967295u); // i32 = -1i
const r14 = i32(2147483648); // error: 2147483648 is no i32
const r15 = i32(-2147483648); // i32 = -2147483648i
const r16 = i32(true); // i32 = 1i
const r17 = bool(0); // bool = false
const r18 = bool(7); // bool = true
const r19 = bool(0u); // bool = false
const r20 = bool(-1i); // bool = true
const r21 = bool(true); // bool = true
const r22 = u32(1, 2); // error: u32 takes 1 values, and 2 are given
const r23 = u32(vec2(1, 2)); // error: vec2(1, 2) is no u32
const r25 = f32(1); // not evaluated: needs floats, `f32`
const r26 = u32(1.0); // not evaluated: needs floats, `1.0`
// Vectors.
const r27 = vec2(1, 2); // vec2<AbstractInt> = vec2(1, 2)
const r28 = vec3(1, 2u, 3); // vec3<u32> = vec3(1u, 2u, 3u)
const r29 = vec4(1i, 2, 3, 4); // vec4<i32> = vec4(1i, 2i, 3i, 4i)
const r30 = vec2(1i, 2u); // error: the values have no common type
const r31 = vec2(true, 1); // error: the values have no common type
const r32 = vec2(true, false); // vec2<bool> = vec2(true, false)
const r33 = vec3(5); // vec3<AbstractInt> = vec3(5, 5, 5)
const r34 = vec3(5u); // vec3<u32> = vec3(5u, 5u, 5u)
const r35 = vec3(); // vec3<AbstractInt> = vec3(0, 0, 0)
const r36 = vec3u(); // vec3<u32> = vec3(0u, 0u, 0u)
const r37 = vec2<bool>(); // vec2<bool> = vec2(false, false)
const r38 = vec3<u32>(1, 2, 3); // vec3<u32> = vec3(1u, 2u, 3u)
const r39 = vec3u(1, 2, 3); // vec3<u32> = vec3(1u, 2u, 3u)
const r40 = vec2i(1, -2); // vec2<i32> = vec2(1i, -2i)
const r41 = vec3<u32>(1i, 2i, 3i); // error: 1i is no u32
const r42 = vec3<u32>(-1, 2, 3); // error: -1 is no u32
const r43 = vec3<u32>(7); // vec3<u32> = vec3(7u, 7u, 7u)
const r44 = vec3<u32>(7i); // error: 7i is no u32
const r45 = vec3<u32>(1, 2); // error: vec3 takes 3 values, and 2 are given
const r46 = vec3<u32>(1, 2, 3, 4); // error: vec3 takes 3 values, and 4 are given
const r47 = vec4(vec2(1, 2), 3, 4); // vec4<AbstractInt> = vec4(1, 2, 3, 4)
const r48 = vec4(1, vec2(2u, 3u), 4); // vec4<u32> = vec4(1u, 2u, 3u, 4u)
const r49 = vec4(vec2(1, 2), vec2(3, 4)); // vec4<AbstractInt> = vec4(1, 2, 3, 4)
const r50 = vec4<u32>(vec3(1, 2, 3), 4u); // vec4<u32> = vec4(1u, 2u, 3u, 4u)
const r51 = vec4(vec3(1, 2, 3), vec2(4, 5)); // error: vec4 takes 4 values, and 5 are given
const r52 = vec3<u32>(vec3(-1i, 2i, 3i)); // vec3<u32> = vec3(4294967295u, 2u, 3u)
const r53 = vec3<i32>(vec3(4294967295u, 2u, 3u)); // vec3<i32> = vec3(-1i, 2i, 3i)
const r54 = vec2<bool>(vec2(0, 5)); // vec2<bool> = vec2(false, true)
const r55 = vec2<u32>(vec2(true, false)); // vec2<u32> = vec2(1u, 0u)
const r56 = vec2<u32>(vec2(-1, 0)); // error: -1 is no u32
const r57 = vec2(vec2(1u, 2u)); // vec2<u32> = vec2(1u, 2u)
const r58 = vec2(vec3(1u, 2u, 3u)); // error: vec2 takes 2 values, and 3 are given
const r59 = vec2(array(1, 2)); // error: a vector is made of scalars and vectors
const r60 = vec2<f32>(1, 2); // not evaluated: needs floats, `vec2`
const r61 = vec2f(1, 2); // not evaluated: needs floats, `vec2f`
const r62 = vec2(1.0, 2); // not evaluated: needs floats, `1.0`
const r63 = V(1, 2, 3); // vec3<u32> = vec3(1u, 2u, 3u)
const r64 = vec2<array<u32, 2>>(1, 2); // error: this is no type of a component here
const r65 = vec5(1); // error: nothing is named vec5
const r66 = vec3; // error: this type takes a template list
const r67 = vec3<3>(1); // error: this is no type
const r68 = vec3<u32>; // error: a type stands where a value belongs
const r69 = u32; // error: a type stands where a value belongs
const r70 = 1 + u32; // error: a type stands where a value belongs
// Arrays.
const r71 = array(1, 2, 3); // array<AbstractInt, 3> = array(1, 2, 3)
const r72 = array(1, 2u); // array<u32, 2> = array(1u, 2u)
const r73 = array(1i, 2u); // error: the values have no common type
const r74 = array<u32, 2>(1, 2); // array<u32, 2> = array(1u, 2u)
const r75 = array<u32, 2>(1, 2, 3); // error: array takes 2 values, and 3 are given
const r76 = array<u32, 2>(1, -2); // error: -2 is no u32
const r77 = array<u32, 3>(); // array<u32, 3> = array(0u, 0u, 0u)
const r78 = array<u32, 1 + 1>(1, 2); // array<u32, 2> = array(1u, 2u)
const r79 = array<bool, 2>(); // array<bool, 2> = array(false, false)
const r80 = array<vec2<i32>, 2>(); // array<vec2<i32>, 2> = array(vec2(0i, 0i), vec2(0i, 0i))
const r81 = array(vec2(1, 2), vec2(3u, 4u)); // array<vec2<u32>, 2> = array(vec2(1u, 2u), vec2(3u, 4u))
const r82 = array(array(1, 2), array(3, 4)); // array<array<AbstractInt, 2>, 2> = array(array(1, 2), array(3, 4))
const r83 = array(array(1, 2), array(3u, 4u)); // array<array<u32, 2>, 2> = array(array(1u, 2u), array(3u, 4u))
const r84 = array(array(1, 2), array(3, 4, 5)); // error: the values have no common type
const r85 = array(); // error: an array has elements
const r86 = array<u32>(1, 2); // error: no value of array<u32> is made so
const r87 = array<u32, 0>(); // error: a count is from 1 to 4294967295
const r88 = array<u32, -1>(); // error: a count is from 1 to 4294967295
const r89 = array<u32, true>(); // error: a count is from 1 to 4294967295
const r90 = array<u32, 2i>(); // array<u32, 2> = array(0u, 0u)
const r91 = Row(1, 2, 3); // array<i32, 3> = array(1i, 2i, 3i)
const r92 = Row(); // array<i32, 3> = array(0i, 0i, 0i)
const r93 = array<f32, 2>(); // not evaluated: needs floats, `array`
const r94 = array<u32, 100000>(); // error: this has too many parts to be evaluated
const r95 = atomic<u32>(1); // error: no value of atomic<u32> is made so
// Structures.
const r96 = Pair(1, vec3(2, 3, 4)); // Pair = Pair(1u, vec3(2u, 3u, 4u))
const r97 = Pair(); // Pair = Pair(0u, vec3(0u, 0u, 0u))
const r98 = Pair(1); // error: Pair takes 2 values, and 1 are given
const r99 = Pair(1i, vec3(2, 3, 4)); // error: 1i is no u32
const r100 = Pair(1, 2); // error: 2 is no vec3<u32>
const r101 = Nest(Pair(1, vec3(2, 3, 4)), -5); // Nest = Nest(Pair(1u, vec3(2u, 3u, 4u)), -5i)
const r102 = Nest(); // Nest = Nest(Pair(0u, vec3(0u, 0u, 0u)), 0i)
const r103 = Odd(true, array(1, 2)); // Odd = Odd(true, array(1i, 2i))
const r104 = Odd(); // Odd = Odd(false, array(0i, 0i))
// Matrices.
const r110 = mat2x2<f32>(1, 2, 3, 4); // not evaluated: needs floats, `mat2x2`
const r111 = mat2x2f(); // not evaluated: needs floats, `mat2x2f`
// Elements.
const r112 = array(10, 20, 30)[1]; // AbstractInt = 20
const r113 = array(10, 20, 30)[2u]; // AbstractInt = 30
const r114 = array(10, 20, 30)[3]; // error: no element 3 in array<AbstractInt, 3>, which has 3
const r115 = array(10, 20, 30)[-1]; // error: no element -1
const r116 = array(10, 20, 30)[true]; // error: an index is an integer
const r117 = array(10, 20, 30)[1 + 1]; // AbstractInt = 30
const r118 = vec3(1u, 2u, 3u)[0]; // u32 = 1u
const r119 = vec3(1u, 2u, 3u)[3i]; // error: no element 3 in vec3<u32>, which has 3
const r122 = array(array(1, 2), array(3, 4))[1][0]; // AbstractInt = 3
const r123 = 1[0]; // error: AbstractInt has no elements
const r124 = Pair()[0]; // error: Pair has no elements
// Members and swizzles.
const r125 = Pair(1, vec3(2, 3, 4)).a; // u32 = 1u
const r126 = Pair(1, vec3(2, 3, 4)).b.y; // u32 = 3u
const r127 = Pair(1, vec3(2, 3, 4)).c; // error: Pair has no member c
const r128 = Nest(Pair(1, vec3(2, 3, 4)), 5).p.b.zx; // vec2<u32> = vec2(4u, 2u)
const r129 = Odd(true, array(1, 2)).b[1]; // i32 = 2i
const r130 = vec4(1, 2, 3, 4).x; // AbstractInt = 1
const r131 = vec4(1, 2, 3, 4).w; // AbstractInt = 4
const r132 = vec4(1, 2, 3, 4).wzyx; // vec4<AbstractInt> = vec4(4, 3, 2, 1)
const r133 = vec4(1, 2, 3, 4).rgba; // vec4<AbstractInt> = vec4(1, 2, 3, 4)
const r134 = vec4(1, 2, 3, 4).a; // AbstractInt = 4
const r135 = vec2(1u, 2u).xxyy; // vec4<u32> = vec4(1u, 1u, 2u, 2u)
const r136 = vec2(1u, 2u).yx.x; // u32 = 2u
const r137 = vec2(1u, 2u).z; // error: no z of a vector of 2 components
const r138 = vec2(1u, 2u).xg; // error: components are named by xyzw or by rgba
const r139 = vec2(1u, 2u).xyxyx; // error: components are named by xyzw or by rgba
const r140 = vec2(1u, 2u).foo; // error: components are named by xyzw or by rgba
const r141 = u32(1).x; // error: u32 has no member x
const r142 = array(1, 2).x; // error: array<AbstractInt, 2> has no member x
const r143 = -vec2(1, 2).x; // AbstractInt = -1
const r144 = vec2(vec2(1, 2) + 1).y; // AbstractInt = 3
