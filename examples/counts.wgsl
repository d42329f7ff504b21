// Counts of elements and attributes that are constant expressions.

struct Sizes { few: u32, many: u32 }

const N = 2;
const VECTOR = vec3(2, 3, 4);
const TABLE = array(5, 6, 7);
const SIZES = Sizes(8, 9);
const IS_LARGE = N > 1;

struct Counts {
    by_function: array<u32, max(2, 3)>,
    by_swizzle: array<u32, VECTOR.z>,
    by_two_swizzles: array<u32, VECTOR.zy.y>,
    by_index: array<u32, VECTOR[1]>,
    by_element: array<u32, TABLE[N]>,
    by_select: array<u32, select(2, 5, IS_LARGE)>,
    by_bits: array<u32, countOneBits(7u)>,
    by_member: array<u32, SIZES.many>,
}

struct Attributes {
    @size(4 * 5) sized: u32,
    @align(1u << 4u) aligned: u32,
    @align(SIZES.few) @size(VECTOR.z * 4) both: vec2<f32>,
}

@group(min(1, 2)) @binding(N + 1) var<storage> attributes: Attributes;

alias Row = array<f32, N + 2>;
alias Rows = array<Row, VECTOR.x>;
alias Grid = Rows;

@group(1) @binding(N * N) var<storage, read_write> grid: Grid;
