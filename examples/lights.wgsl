// Lights in clusters, with arrays inside arrays.

override clusters: u32 = 16;

const CASCADES = 4;
const TILES = 2 * (CASCADES + 4);

struct Spot {
    direction: vec3f,
    angle: f32,
}

struct Light {
    @align(32) position: vec3f,
    kind: u32,
    color: vec3f,
    spots: array<Spot, 2>,
}

struct Shadows {
    cascades: array<mat4x4f, CASCADES>,
    splits: array<f32, CASCADES>,
    tiles: array<array<vec2u, TILES>, 2>,
}

struct Lights {
    ambient: vec3f,
    count: atomic<u32>,
    shadows: Shadows,
    lights: array<Light>,
}

@group(0) @binding(0) var<storage, read_write> lights: Lights;
@group(0) @binding(1) var<uniform> splits: array<f32, 4>;

fn nearest(position: vec3f) -> u32 {
    for (var i = 0u; i < arrayLength(&lights.lights) && i < (1u << 8u); i++) {
        if (distance(lights.lights[i].position, position) < 1.0) { return i; }
    }
    return 0u;
}
