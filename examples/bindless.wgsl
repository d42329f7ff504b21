// Draws that take their textures by numbers, from arrays of bindings.

@group(0) @binding(0) var textures: binding_array<texture_2d<f32>, 16>;
@group(0) @binding(1) var samplers: binding_array<sampler>;

struct Draw {
    texture: u32,
    sampler_number: u32,
    @size(8) scale: f32,
    tint: vec3<f32>,
}

struct Draws { count: u32, list: array<Draw>, }

@group(1) @binding(0) var<storage, read> draws: Draws;

@fragment
fn shade(@location(0) @interpolate(flat) number: u32, @location(1) uv: vec2<f32>) -> @location(0) vec4<f32> {
    let draw = draws.list[number];
    return textureSample(textures[draw.texture], samplers[draw.sampler_number], uv * draw.scale);
}
