#include <assert.h>
#include <stddef.h>
#include <stdint.h>

typedef struct Cascade {
    float world_to_light[4][4];
    float texel[2];
    float near;
    float far;
} Cascade;
static_assert(offsetof(Cascade, world_to_light) == 0, "Cascade.world_to_light");
static_assert(offsetof(Cascade, texel) == 64, "Cascade.texel");
static_assert(offsetof(Cascade, near) == 72, "Cascade.near");
static_assert(offsetof(Cascade, far) == 76, "Cascade.far");
static_assert(sizeof(Cascade) == 80, "Cascade");

typedef struct Shadows {
    Cascade cascades[4];
    float bias[3];
    uint8_t _padding1[4];
    uint32_t count;
    uint8_t _padding2[12];
    uint32_t rows[9][4];
} Shadows;
static_assert(offsetof(Shadows, cascades) == 0, "Shadows.cascades");
static_assert(offsetof(Shadows, bias) == 320, "Shadows.bias");
static_assert(offsetof(Shadows, count) == 336, "Shadows.count");
static_assert(offsetof(Shadows, rows) == 352, "Shadows.rows");
static_assert(sizeof(Shadows) == 496, "Shadows");

typedef struct Vertex {
    float position[3];
    uint8_t _padding0[4];
    uint16_t normal[3];
    uint8_t _padding1[2];
    uint32_t flags;
    uint8_t _padding2[4];
} Vertex;
static_assert(offsetof(Vertex, position) == 0, "Vertex.position");
static_assert(offsetof(Vertex, normal) == 16, "Vertex.normal");
static_assert(offsetof(Vertex, flags) == 24, "Vertex.flags");
static_assert(sizeof(Vertex) == 32, "Vertex");
