// Sums of all numbers before each, by blocks: the pipeline gives the size of a block.

override block: u32 = 256u;
override lanes: u32 = block / 2u;
const LEVELS = 10;

var<workgroup> sums: array<u32, 2 * block>;
var<workgroup> totals: array<u32, LEVELS>;

struct Range { first: u32, count: u32, }
struct Blocks { ranges: array<Range, LEVELS>, @size(32) depth: u32, ends: array<u32>, }

@group(0) @binding(0) var<storage, read> numbers: array<u32>;
@group(0) @binding(1) var<storage, read_write> before: array<u32>;
@group(0) @binding(2) var<storage, read_write> blocks: Blocks;

const_assert LEVELS <= 16;
const_assert block <= 1024u;

@compute @workgroup_size(lanes)
fn sum(@builtin(local_invocation_index) lane: u32) {
    sums[lane] = numbers[lane];
    workgroupBarrier();
    before[lane] = sums[lane];
}
