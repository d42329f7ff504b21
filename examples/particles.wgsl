// A compute shader that moves particles.

const WORKGROUP_SIZE = 64u;
const MAX_FORCES: u32 = 4;

struct Particle {
    position: vec3<f32>,
    mass: f32,
    velocity: vec3<f32>,
    age: u32,
}

struct Forces {
    count: u32,
    directions: array<vec3f, MAX_FORCES>,
    strengths: array<vec4f, 1 + MAX_FORCES / 4>,
}

struct Step {
    time: f32,
    forces: Forces,
}

@group(0) @binding(0) var<uniform> step: Step;
@group(0) @binding(1) var<storage, read_write> particles: array<Particle>;

@compute @workgroup_size(WORKGROUP_SIZE)
fn main(@builtin(global_invocation_id) id: vec3<u32>) {
    if (id.x >= arrayLength(&particles)) { return; }
    let particle = particles[id.x];
    particles[id.x].position = particle.position + particle.velocity * step.time;
}
