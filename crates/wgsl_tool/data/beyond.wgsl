// One part less than a value has is left as it is named; limit.wgsl says what counts. To make them: 54.
struct S { a: i32, b: vec2<i32>, c: i32 }
const s = S(); // S = S(0i, vec2(0i, 0i), 0i)
const m = mat3x2<i32>(); // mat3x2<i32> = mat3x2(vec2(0i, 0i), vec2(0i, 0i), vec2(0i, 0i)); warning: WGSL has no matrices of integers
const n = array<array<i32, 3>, 2>(); // array<array<i32, 3>, 2> = array(array(0i, 0i, 0i), array(0i, 0i, 0i))
const v = vec3<i32>(); // vec3<i32> = vec3(0i, 0i, 0i)
const one = 1u; // u32 = 1u
// 63 elements: 4,128,831; then all but 10 of the 65,419 that are left.
const filler_1 = array<u32, 65535>()[0] + array<u32, 65535>()[0] + array<u32, 65535>()[0] + array<u32, 65535>()[0] + array<u32, 65535>()[0] + array<u32, 65535>()[0] + array<u32, 65535>()[0] + array<u32, 65535>()[0] + array<u32, 65535>()[0]; // u32 = 0u
const filler_2 = array<u32, 65535>()[0] + array<u32, 65535>()[0] + array<u32, 65535>()[0] + array<u32, 65535>()[0] + array<u32, 65535>()[0] + array<u32, 65535>()[0] + array<u32, 65535>()[0] + array<u32, 65535>()[0] + array<u32, 65535>()[0]; // u32 = 0u
const filler_3 = array<u32, 65535>()[0] + array<u32, 65535>()[0] + array<u32, 65535>()[0] + array<u32, 65535>()[0] + array<u32, 65535>()[0] + array<u32, 65535>()[0] + array<u32, 65535>()[0] + array<u32, 65535>()[0] + array<u32, 65535>()[0]; // u32 = 0u
const filler_4 = array<u32, 65535>()[0] + array<u32, 65535>()[0] + array<u32, 65535>()[0] + array<u32, 65535>()[0] + array<u32, 65535>()[0] + array<u32, 65535>()[0] + array<u32, 65535>()[0] + array<u32, 65535>()[0] + array<u32, 65535>()[0]; // u32 = 0u
const filler_5 = array<u32, 65535>()[0] + array<u32, 65535>()[0] + array<u32, 65535>()[0] + array<u32, 65535>()[0] + array<u32, 65535>()[0] + array<u32, 65535>()[0] + array<u32, 65535>()[0] + array<u32, 65535>()[0] + array<u32, 65535>()[0]; // u32 = 0u
const filler_6 = array<u32, 65535>()[0] + array<u32, 65535>()[0] + array<u32, 65535>()[0] + array<u32, 65535>()[0] + array<u32, 65535>()[0] + array<u32, 65535>()[0] + array<u32, 65535>()[0] + array<u32, 65535>()[0] + array<u32, 65535>()[0]; // u32 = 0u
const filler_7 = array<u32, 65535>()[0] + array<u32, 65535>()[0] + array<u32, 65535>()[0] + array<u32, 65535>()[0] + array<u32, 65535>()[0] + array<u32, 65535>()[0] + array<u32, 65535>()[0] + array<u32, 65535>()[0] + array<u32, 65535>()[0]; // u32 = 0u
const filler_8 = array<u32, 65407>()[0]; // u32 = 0u
const named_s = s; // error: this has too many parts to be evaluated
const nine_left = one; // u32 = 1u
const named_m = m; // error: this has too many parts to be evaluated
const eight_left = one; // u32 = 1u
const named_n = n; // error: this has too many parts to be evaluated
const three_left = array<u32, 3>()[0]; // u32 = 0u
const named_v = v; // error: this has too many parts to be evaluated
const two_left = one; // u32 = 1u
const one_left = one; // u32 = 1u
const none_left = one; // u32 = 1u
const again = one; // error: this has too many parts to be evaluated
