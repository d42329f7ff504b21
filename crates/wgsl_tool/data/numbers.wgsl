// The numbers that a host goes by: sizes of workgroups, ids, groups and bindings.
const LANES = 64; // AbstractInt = 64
@compute @workgroup_size(0) fn empty() {} // error: the size of a workgroup is 1 or more
@compute @workgroup_size(LANES, 1 / 0) fn divided() {} // error: division by zero: 1 / 0
@compute @workgroup_size(LANES, 2 * LANES) fn sound() {} // ok
@id(65536) override past: u32; // error: an id is from 0 to 65535
@id(LANES) override within: u32; // none
@group(0) @binding(LANES - 65) var image: texture_2d<f32>; // error: an attribute is from 0 to 4294967295
@group(1.5) @binding(0) var linear: sampler; // error: an attribute is an integer
@group(0) @binding(LANES - 65) var<uniform> buffer: u32; // error: an attribute is from 0 to 4294967295
@group(0) @binding(LANES) var<uniform> sound_buffer: u32; // ok
