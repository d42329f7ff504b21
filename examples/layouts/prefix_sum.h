#include <assert.h>
#include <stddef.h>
#include <stdint.h>

typedef struct Range {
    uint32_t first;
    uint32_t count;
} Range;
static_assert(offsetof(Range, first) == 0, "Range.first");
static_assert(offsetof(Range, count) == 4, "Range.count");
static_assert(sizeof(Range) == 8, "Range");

// with n elements at its end: size 112 + 4 * n
typedef struct Blocks {
    Range ranges[10];
    uint32_t depth;
    uint8_t _padding1[28];
    uint32_t ends[1]; // the first of its elements
} Blocks;
static_assert(offsetof(Blocks, ranges) == 0, "Blocks.ranges");
static_assert(offsetof(Blocks, depth) == 80, "Blocks.depth");
static_assert(offsetof(Blocks, ends) == 112, "Blocks.ends");
