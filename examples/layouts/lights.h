#include <assert.h>
#include <stddef.h>
#include <stdint.h>

typedef struct Spot {
    float direction[3];
    float angle;
} Spot;
static_assert(offsetof(Spot, direction) == 0, "Spot.direction");
static_assert(offsetof(Spot, angle) == 12, "Spot.angle");
static_assert(sizeof(Spot) == 16, "Spot");

typedef struct Light {
    float position[3];
    uint32_t kind;
    float color[3];
    uint8_t _padding2[4];
    Spot spots[2];
} Light;
static_assert(offsetof(Light, position) == 0, "Light.position");
static_assert(offsetof(Light, kind) == 12, "Light.kind");
static_assert(offsetof(Light, color) == 16, "Light.color");
static_assert(offsetof(Light, spots) == 32, "Light.spots");
static_assert(sizeof(Light) == 64, "Light");

typedef struct Shadows {
    float cascades[4][4][4];
    float splits[4];
    uint32_t tiles[2][16][2];
} Shadows;
static_assert(offsetof(Shadows, cascades) == 0, "Shadows.cascades");
static_assert(offsetof(Shadows, splits) == 256, "Shadows.splits");
static_assert(offsetof(Shadows, tiles) == 272, "Shadows.tiles");
static_assert(sizeof(Shadows) == 528, "Shadows");

// with n elements at its end: size 544 + 64 * n
typedef struct Lights {
    float ambient[3];
    uint32_t count;
    Shadows shadows;
    Light lights[1]; // the first of its elements
} Lights;
static_assert(offsetof(Lights, ambient) == 0, "Lights.ambient");
static_assert(offsetof(Lights, count) == 12, "Lights.count");
static_assert(offsetof(Lights, shadows) == 16, "Lights.shadows");
static_assert(offsetof(Lights, lights) == 544, "Lights.lights");
