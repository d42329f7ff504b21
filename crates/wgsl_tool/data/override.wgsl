//! --stage override
// The same operators while a pipeline is made.
const r1 = 7i % 0i; // i32 = 0i
const r2 = 7i / 0i; // error: division by zero: 7i / 0i
const r3 = (-2147483647i - 1i) / -1i; // error: the quotient is out of range
const r4 = (-2147483647i - 1i) % -1i; // i32 = 0i
const r5 = 3000000000u << 1u; // error: bits are shifted out: 3000000000u << 1u
const r6 = 8u >> 32u; // error: 8u has no 32 bits: 8u >> 32u
override below: u32 = -1; // error: -1 is no u32
