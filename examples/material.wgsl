// A material with its textures.

enable f16;

/* The camera
   /* of each frame */ */
struct Camera {
    view: mat4x4f,
    projection: mat4x4f,
    position: vec3f,
    @size(16) exposure: f32,
};

struct Material {
    base_color: vec4f,
    metallic: f32,
    roughness: f32,
    uv_transform: mat3x2<f32>,
    emissive: vec3h,
    flags: u32,
}

struct Fragment {
    @builtin(position) position: vec4f,
    @location(0) uv: vec2f,
}

alias Sampled = texture_2d<f32>;

@group(0) @binding(0) var<uniform> camera: Camera;
@group(1) @binding(0) var<uniform> material: Material;
@group(1) @binding(1) var base_color: Sampled;
@group(1) @binding(2) var linear: sampler;

@fragment
fn shade(fragment: Fragment) -> @location(0) vec4f {
    return material.base_color * textureSample(base_color, linear, fragment.uv);
}
