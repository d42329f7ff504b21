// Types that WGSL has not and the Rust crate has, and what is chosen of: values with warnings.
// Integers of 64 bits, which WGSL has not.
const long = 1li; // i64 = 1li; warning: WGSL has no 64-bit integers
const long_unsigned = 18446744073709551615lu; // u64 = 18446744073709551615lu; warning: WGSL has no 64-bit integers
const long_negative = -5li; // i64 = -5li; warning: WGSL has no 64-bit integers
const long_sum = 7li + 5li; // i64 = 12li; warning: WGSL has no 64-bit integers
const long_shifted = 1li << 64u; // i64 = 1li; warning: WGSL has no 64-bit integers; warning: the standard shifts by less than the width
const long_unlike = 7li + 5i; // error: no operator + for i64 and i32; warning: WGSL has no 64-bit integers
const long_made = i64(); // i64 = 0li; warning: WGSL has no 64-bit integers
const long_unsigned_made = u64(); // u64 = 0lu; warning: WGSL has no 64-bit integers
const long_written = i64(5); // error: 5 is no i64; warning: WGSL has no 64-bit integers
const long_typed: i64 = 5li; // i64 = 5li; warning: WGSL has no 64-bit integers
const long_vector = vec2<i64>(); // vec2<i64> = vec2(0li, 0li); warning: WGSL has no 64-bit integers
const long_array = array<u64, 2>(); // array<u64, 2> = array(0lu, 0lu); warning: WGSL has no 64-bit integers
const long_bits = bitcast<vec2<u32>>(-1li); // vec2<u32> = vec2(4294967295u, 4294967295u); warning: WGSL has no 64-bit integers
alias Long = i64; // ok; warning: WGSL has no 64-bit integers
alias Longs = vec2<u64>; // ok; warning: WGSL has no 64-bit integers
const long_by_alias = Long(); // i64 = 0li
struct Wide { a: i64, b: u32 } // ok; warning: WGSL has no 64-bit integers
const wide = Wide(); // Wide = Wide(0li, 0u)
var<private> long_variable: u64; // ok; warning: WGSL has no 64-bit integers
const long_guarded = false && (1li < 2li); // bool = false; warning: WGSL has no 64-bit integers
// Matrices of integers, which WGSL has not either; abstract ones are of floats.
const matrix = mat2x2<u32>(); // mat2x2<u32> = mat2x2(vec2(0u, 0u), vec2(0u, 0u)); warning: WGSL has no matrices of integers
const matrix_i32 = mat2x2<i32>(1, 2, 3, 4); // mat2x2<i32> = mat2x2(vec2(1i, 2i), vec2(3i, 4i)); warning: WGSL has no matrices of integers
const matrix_shown = mat2x3(1u, 2, 3, 4, 5, 6); // mat2x3<u32> = mat2x3(vec3(1u, 2u, 3u), vec3(4u, 5u, 6u)); warning: WGSL has no matrices of integers
const matrix_of_columns = mat2x2(vec2(1i, 2), vec2(3, 4)); // mat2x2<i32> = mat2x2(vec2(1i, 2i), vec2(3i, 4i)); warning: WGSL has no matrices of integers
const matrix_column = mat2x3(1u, 2, 3, 4, 5, 6)[1]; // vec3<u32> = vec3(4u, 5u, 6u); warning: WGSL has no matrices of integers
const matrix_turned = transpose(mat2x3<u32>(1u, 2u, 3u, 4u, 5u, 6u)); // mat3x2<u32> = mat3x2(vec2(1u, 4u), vec2(2u, 5u), vec2(3u, 6u)); warning: WGSL has no matrices of integers
const matrix_named = matrix_i32[0]; // vec2<i32> = vec2(1i, 2i)
const matrix_abstract = mat2x2(1, 2, 3, 4); // not evaluated: needs floats, `mat2x2`
const matrix_abstract_columns = mat2x2(vec2(1, 2), vec2(3, 4)); // not evaluated: needs floats, `mat2x2`
const matrix_floats = mat2x2<f32>(); // not evaluated: needs floats, `mat2x2`
alias Square = mat2x2<i32>; // ok; warning: WGSL has no matrices of integers
struct Squares { a: mat3x3<u32>, b: mat2x2<i32> } // ok; warning: WGSL has no matrices of integers
var<private> matrix_variable: mat4x4<u32>; // ok; warning: WGSL has no matrices of integers
// What is chosen of.
const chosen_array = select(array(1, 2), array(3, 4), true); // array<AbstractInt, 2> = array(3, 4); warning: the standard selects scalars and vectors alone
const chosen_nested = select(array(vec2(1, 2)), array(vec2(3u, 4)), false); // array<vec2<u32>, 1> = array(vec2(1u, 2u)); warning: the standard selects scalars and vectors alone
struct Pair { a: u32, b: vec2<i32> } // ok
const chosen_structure = select(Pair(1, vec2(2, 3)), Pair(4, vec2(5, 6)), true); // Pair = Pair(4u, vec2(5i, 6i)); warning: the standard selects scalars and vectors alone
const chosen_matrix = select(mat2x2(1u, 2, 3, 4), mat2x2(5u, 6, 7, 8), true); // mat2x2<u32> = mat2x2(vec2(5u, 6u), vec2(7u, 8u)); warning: WGSL has no matrices of integers; warning: the standard selects scalars and vectors alone
const chosen_scalar = select(1, 2, true); // AbstractInt = 2
const chosen_vector = select(vec2(1, 2), vec2(3, 4), vec2(true, false)); // vec2<AbstractInt> = vec2(3, 2)
