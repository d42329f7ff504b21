//! --strict
// What WGSL has not, where that is a fault.
const long = 1li; // error: WGSL has no 64-bit integers
const long_unsigned = 18446744073709551615lu; // error: WGSL has no 64-bit integers
const long_negative = -5li; // error: WGSL has no 64-bit integers
const long_made = i64(); // error: WGSL has no 64-bit integers
const long_unsigned_made = u64(); // error: WGSL has no 64-bit integers
const long_written = i64(5); // error: WGSL has no 64-bit integers
const long_typed: i64 = 5li; // error: WGSL has no 64-bit integers
const long_vector = vec2<i64>(); // error: WGSL has no 64-bit integers
const long_array = array<u64, 2>(); // error: WGSL has no 64-bit integers
alias Long = i64; // error: WGSL has no 64-bit integers
alias Longs = vec2<u64>; // error: WGSL has no 64-bit integers
struct Wide { a: i64, b: u32 } // error: WGSL has no 64-bit integers
var<private> long_variable: u64; // error: WGSL has no 64-bit integers
const of_long = long; // nothing
const long_guarded = false && (1li < 2li); // error: WGSL has no 64-bit integers
const matrix = mat2x2<u32>(); // error: WGSL has no matrices of integers
const matrix_i32 = mat2x2<i32>(1, 2, 3, 4); // error: WGSL has no matrices of integers
const matrix_shown = mat2x3(1u, 2, 3, 4, 5, 6); // error: WGSL has no matrices of integers
const matrix_of_columns = mat2x2(vec2(1i, 2), vec2(3, 4)); // error: WGSL has no matrices of integers
alias Square = mat2x2<i32>; // error: WGSL has no matrices of integers
struct Squares { a: mat3x3<u32> } // error: WGSL has no matrices of integers
var<private> matrix_variable: mat4x4<u32>; // error: WGSL has no matrices of integers
const matrix_abstract = mat2x2(1, 2, 3, 4); // error: this is not evaluated: `mat2x2` needs a float
const chosen_array = select(array(1, 2), array(3, 4), true); // error: the standard selects scalars and vectors alone
struct Pair { a: u32, b: vec2<i32> } // ok
const chosen_structure = select(Pair(1, vec2(2, 3)), Pair(4, vec2(5, 6)), true); // error: the standard selects scalars and vectors alone
const chosen_guarded = false && (select(array(1), array(2), true)[0] == 2); // bool = false
const chosen_vector = select(vec2(1, 2), vec2(3, 4), true); // vec2<AbstractInt> = vec2(3, 4)
const leading = countLeadingZeros(1); // i32 = 31i
const bits_of_negative = bitcast<u32>(-1); // u32 = 4294967295u
const field_of_last = extractBits(240u, 0, 4294967295); // error: the standard refuses offset + count past 32
