#include <assert.h>
#include <stddef.h>
#include <stdint.h>

typedef struct Draw {
    uint32_t texture;
    uint32_t sampler_number;
    float scale;
    uint8_t _padding2[4];
    float tint[3];
    uint8_t _padding3[4];
} Draw;
static_assert(offsetof(Draw, texture) == 0, "Draw.texture");
static_assert(offsetof(Draw, sampler_number) == 4, "Draw.sampler_number");
static_assert(offsetof(Draw, scale) == 8, "Draw.scale");
static_assert(offsetof(Draw, tint) == 16, "Draw.tint");
static_assert(sizeof(Draw) == 32, "Draw");

// with n elements at its end: size 16 + 32 * n
typedef struct Draws {
    uint32_t count;
    uint8_t _padding0[12];
    Draw list[1]; // the first of its elements
} Draws;
static_assert(offsetof(Draws, count) == 0, "Draws.count");
static_assert(offsetof(Draws, list) == 16, "Draws.list");
