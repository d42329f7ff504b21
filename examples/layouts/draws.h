#include <assert.h>
#include <stddef.h>
#include <stdint.h>

typedef struct DrawArguments {
    uint32_t vertex_count;
    uint32_t instance_count;
    uint32_t first_vertex;
    uint32_t first_instance;
} DrawArguments;
static_assert(offsetof(DrawArguments, vertex_count) == 0, "DrawArguments.vertex_count");
static_assert(offsetof(DrawArguments, instance_count) == 4, "DrawArguments.instance_count");
static_assert(offsetof(DrawArguments, first_vertex) == 8, "DrawArguments.first_vertex");
static_assert(offsetof(DrawArguments, first_instance) == 12, "DrawArguments.first_instance");
static_assert(sizeof(DrawArguments) == 16, "DrawArguments");

// with n elements at its end: size 16 + 16 * n
typedef struct Draws {
    uint32_t count;
    int32_t overflow;
    uint8_t _padding1[8];
    DrawArguments arguments[1]; // the first of its elements
} Draws;
static_assert(offsetof(Draws, count) == 0, "Draws.count");
static_assert(offsetof(Draws, overflow) == 4, "Draws.overflow");
static_assert(offsetof(Draws, arguments) == 16, "Draws.arguments");

typedef struct Counter {
    uint64_t total;
    uint8_t _padding0[8];
    int64_t bounds[2];
    int32_t last;
    uint8_t _padding2[12];
} Counter;
static_assert(offsetof(Counter, total) == 0, "Counter.total");
static_assert(offsetof(Counter, bounds) == 16, "Counter.bounds");
static_assert(offsetof(Counter, last) == 32, "Counter.last");
static_assert(sizeof(Counter) == 48, "Counter");
