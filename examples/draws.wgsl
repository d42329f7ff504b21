// Indirect draws that a compute shader writes.

struct DrawArguments {
    vertex_count: u32,
    instance_count: atomic<u32>,
    first_vertex: u32,
    first_instance: u32,
}

struct Draws {
    count: atomic<u32>,
    overflow: atomic<i32>,
    @align(16) arguments: array<DrawArguments>,
}

struct Counter { total: u64, bounds: vec2<i64>, last: i32 }

@group(0) @binding(0) var<storage, read_write> draws: Draws;
@group(0) @binding(1) var<storage> visible: array<vec2<u32>>;
@group(0) @binding(2) var<storage, read_write> counter: Counter;
