// As many parts as may be made, 4,194,304, and none left: a value counts when it is made and each time it is named, with its
// parts, and a structure with the types in its own; a type that is copied counts as four for each type in it.
// S: 6 values and 5 types, 11; a copy of the type is 20. m: 1 + 3 * (1 + 2), 10. n: 1 + 2 * (1 + 3), 9. v: 1 + 3, 4.
// To make them: 20 + 11 + 10 + 9 + 4, 54.
struct S { a: i32, b: vec2<i32>, c: i32 }
const s = S(); // S = S(0i, vec2(0i, 0i), 0i)
const m = mat3x2<i32>(); // mat3x2<i32> = mat3x2(vec2(0i, 0i), vec2(0i, 0i), vec2(0i, 0i)); warning: WGSL has no matrices of integers
const n = array<array<i32, 3>, 2>(); // array<array<i32, 3>, 2> = array(array(0i, 0i, 0i), array(0i, 0i, 0i))
const v = vec3<i32>(); // vec3<i32> = vec3(0i, 0i, 0i)
const one = 1u; // u32 = 1u
// An element of 65,535 that are made for it: 65,536 and 1. Nine in a line, 63 of them: 4,128,831.
const filler_1 = array<u32, 65535>()[0] + array<u32, 65535>()[0] + array<u32, 65535>()[0] + array<u32, 65535>()[0] + array<u32, 65535>()[0] + array<u32, 65535>()[0] + array<u32, 65535>()[0] + array<u32, 65535>()[0] + array<u32, 65535>()[0]; // u32 = 0u
const filler_2 = array<u32, 65535>()[0] + array<u32, 65535>()[0] + array<u32, 65535>()[0] + array<u32, 65535>()[0] + array<u32, 65535>()[0] + array<u32, 65535>()[0] + array<u32, 65535>()[0] + array<u32, 65535>()[0] + array<u32, 65535>()[0]; // u32 = 0u
const filler_3 = array<u32, 65535>()[0] + array<u32, 65535>()[0] + array<u32, 65535>()[0] + array<u32, 65535>()[0] + array<u32, 65535>()[0] + array<u32, 65535>()[0] + array<u32, 65535>()[0] + array<u32, 65535>()[0] + array<u32, 65535>()[0]; // u32 = 0u
const filler_4 = array<u32, 65535>()[0] + array<u32, 65535>()[0] + array<u32, 65535>()[0] + array<u32, 65535>()[0] + array<u32, 65535>()[0] + array<u32, 65535>()[0] + array<u32, 65535>()[0] + array<u32, 65535>()[0] + array<u32, 65535>()[0]; // u32 = 0u
const filler_5 = array<u32, 65535>()[0] + array<u32, 65535>()[0] + array<u32, 65535>()[0] + array<u32, 65535>()[0] + array<u32, 65535>()[0] + array<u32, 65535>()[0] + array<u32, 65535>()[0] + array<u32, 65535>()[0] + array<u32, 65535>()[0]; // u32 = 0u
const filler_6 = array<u32, 65535>()[0] + array<u32, 65535>()[0] + array<u32, 65535>()[0] + array<u32, 65535>()[0] + array<u32, 65535>()[0] + array<u32, 65535>()[0] + array<u32, 65535>()[0] + array<u32, 65535>()[0] + array<u32, 65535>()[0]; // u32 = 0u
const filler_7 = array<u32, 65535>()[0] + array<u32, 65535>()[0] + array<u32, 65535>()[0] + array<u32, 65535>()[0] + array<u32, 65535>()[0] + array<u32, 65535>()[0] + array<u32, 65535>()[0] + array<u32, 65535>()[0] + array<u32, 65535>()[0]; // u32 = 0u
// What is left, 65,419, but for 103.
const filler_8 = array<u32, 65314>()[0]; // u32 = 0u
// They are named: 11, 10, 9 and 4.
const named_s = s; // S = S(0i, vec2(0i, 0i), 0i)
const named_m = m; // mat3x2<i32> = mat3x2(vec2(0i, 0i), vec2(0i, 0i), vec2(0i, 0i))
const named_n = n; // array<array<i32, 3>, 2> = array(array(0i, 0i, 0i), array(0i, 0i, 0i))
const named_v = v; // vec3<i32> = vec3(0i, 0i, 0i)
// Parts of what is named count too, as their share of the whole, a member as all of it: 11 + 11, 10 + 3, 9 + 4, 4 + 1; the
// components that a word names are free: 4.
const member = s.a; // i32 = 0i
const column = m[1]; // vec2<i32> = vec2(0i, 0i)
const element = n[1]; // array<i32, 3> = array(0i, 0i, 0i)
const component = v[1]; // i32 = 0i
const components = v.zx; // vec2<i32> = vec2(0i, 0i)
// What operators make counts as well when it is named: 4 + 4 and 4.
const added_v = v + v; // vec3<i32> = vec3(0i, 0i, 0i)
const named_added_v = added_v; // vec3<i32> = vec3(0i, 0i, 0i)
// Nothing is left, not for a number that is named.
const again = one; // error: this has too many parts to be evaluated
const made = 1u + 1u; // u32 = 2u
