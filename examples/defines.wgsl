// A material of an engine, before a preprocessor has put its texts in.
#import engine::view

struct Material {
    base_color: vec4<f32>,
#ifdef EMISSIVE
    emissive: vec4<f32>,
#endif
    roughness: f32,
}

@group(#{MATERIAL_GROUP}) @binding(0) var<uniform> material: Material;
@group(1) @binding(#{FIRST_TEXTURE}) var base_color: texture_2d<f32>;
@group(0) @binding(0) var<storage, read> lights: array<vec4<f32>, #{LIGHTS}>;
@group(0) @binding(1) var<uniform> exposure: vec4<f32>;

@fragment
fn shade(@location(0) uv: vec2<f32>) -> @location(0) vec4<f32> {
#ifdef EMISSIVE
    return material.emissive;
#else
    return material.base_color * exposure.x;
#endif
}
