// Fields of bits in a word: what `wgsl_tool eval examples/fields.wgsl` prints stands behind each constant.

const WIDTH = 5u; // u32 = 5u
const MASK = (1u << WIDTH) - 1u; // u32 = 31u
const STARTS = vec3(0, 1, 2) * WIDTH; // vec3<u32> = vec3(0u, 5u, 10u)
const WORD = insertBits(0u, 21u, STARTS.y, WIDTH); // u32 = 672u
const FIELD: i32 = 1 - extractBits(-32i, 5u, WIDTH); // i32 = 2i

const_assert countOneBits(MASK) == WIDTH; // ok
const_assert extractBits(WORD, STARTS.y, WIDTH) == 21; // ok
