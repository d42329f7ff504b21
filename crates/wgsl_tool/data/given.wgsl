//! -D size=8 -D 7=3 -D wide=0x10u -D is_fast=true -D low=-5 -D spelled=4*4 -D large=4294967296 -D tiny=-1 -D half=2i -D truth=1 -D scale=2 -D 9=12
// Overrides that a host gives values: these are converted to the type of each, and stand in every stage.
override size: u32 = 3; // u32 = 8u
@id(7)
override by_number: i32 = 1; // i32 = 3i
override wide: u32; // u32 = 16u
override is_fast = false; // bool = true
override low = 1; // i32 = -5i
override spelled: u32; // u32 = 16u
override large: u32 = 0; // error: 4294967296 is no u32
override tiny: u32; // error: -1 is no u32
override half: u32 = 1; // error: 2i is no u32
override truth: bool; // error: 1 is no bool
override other: u32 = 2 * size; // nothing
override unset: u32; // nothing
@id(9)
override of_both: u32 = 2; // u32 = 12u
override scale: f32 = 1.5; // not evaluated: needs floats, `scale`

const twice = size * 2; // u32 = 16u
const_assert size == 8u; // ok
const_assert by_number == 3; // ok
