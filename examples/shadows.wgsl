// The depth of a scene as each light sees it, and how a surface looks into those depths.

enable f16;

alias Matrix = mat4x4<f32>;
const CASCADES = 4;
const ROWS: u32 = CASCADES * 2 + 1;

struct Cascade {
    world_to_light: Matrix,
    texel: vec2<f32>,
    near: f32,
    far: f32,
}

struct Shadows {
    cascades: array<Cascade, CASCADES>,
    bias: vec3<f32>,
    @align(16) count: u32,
    rows: array<vec4<u32>, ROWS>,
}

struct Vertex {
    @location(0) position: vec3<f32>,
    @location(1) normal: vec3<f16>,
    @location(2) flags: u32,
}

@group(0) @binding(0) var<uniform> shadows: Shadows;
@group(0) @binding(1) var<storage, read> models: array<mat4x3<f32>>;
@group(1) @binding(0) var depths: texture_depth_2d_array;
@group(1) @binding(1) var compare: sampler_comparison;

@vertex
fn cast_shadow(vertex: Vertex, @builtin(instance_index) instance: u32) -> @builtin(position) vec4<f32> {
    let world = models[instance] * vec4<f32>(vertex.position, 1.0);
    return shadows.cascades[0].world_to_light * vec4<f32>(world, 1.0);
}
