#include <assert.h>
#include <stddef.h>
#include <stdint.h>

typedef struct Particle {
    float position[3];
    float mass;
    float velocity[3];
    uint32_t age;
} Particle;
static_assert(offsetof(Particle, position) == 0, "Particle.position");
static_assert(offsetof(Particle, mass) == 12, "Particle.mass");
static_assert(offsetof(Particle, velocity) == 16, "Particle.velocity");
static_assert(offsetof(Particle, age) == 28, "Particle.age");
static_assert(sizeof(Particle) == 32, "Particle");

typedef struct Forces {
    uint32_t count;
    uint8_t _padding0[12];
    float directions[4][4];
    float strengths[2][4];
} Forces;
static_assert(offsetof(Forces, count) == 0, "Forces.count");
static_assert(offsetof(Forces, directions) == 16, "Forces.directions");
static_assert(offsetof(Forces, strengths) == 80, "Forces.strengths");
static_assert(sizeof(Forces) == 112, "Forces");

typedef struct Step {
    float time;
    uint8_t _padding0[12];
    Forces forces;
} Step;
static_assert(offsetof(Step, time) == 0, "Step.time");
static_assert(offsetof(Step, forces) == 16, "Step.forces");
static_assert(sizeof(Step) == 128, "Step");
