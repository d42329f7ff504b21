/* The time of places through C, beside loops by hand.
 *
 *   cc -std=c11 -O2 places.c -I FOLDER FOLDER/libwgsl.a -o places && ./places
 *
 * Prints nanoseconds for each call, the median of eleven turns; the sums are compared, so that nothing is left out. */
#define _POSIX_C_SOURCE 200809L
#include <stdint.h>
#include <stdio.h>
#include <stdlib.h>
#include <string.h>
#include <time.h>

#include "wgsl.h"

enum { TURNS = 11, ELEMENTS = 4096, STRIDE = 32, CALLS = 1000000 };

static const char SHADER[] =
    "struct Particle { at: vec3<f32>, mass: f32, speed: vec3<f32>, cell: u32 }\n"
    "@group(0) @binding(0) var<storage, read_write> particles: array<Particle>;\n";

static uint8_t bytes[ELEMENTS * STRIDE];

static double now(void) {
    struct timespec at;
    clock_gettime(CLOCK_MONOTONIC, &at);
    return (double)at.tv_sec * 1e9 + (double)at.tv_nsec;
}

static int order(const void *a, const void *b) {
    double x = *(const double *)a, y = *(const double *)b;
    return (x > y) - (x < y);
}

static double median(double (*turn)(void)) {
    double times[TURNS];
    for (int number = 0; number < TURNS; number++) times[number] = turn();
    qsort(times, TURNS, sizeof *times, order);
    return times[TURNS / 2];
}

static wgsl_node nodes[64];
static size_t nodes_count;
static wgsl_place cells[ELEMENTS], speeds[ELEMENTS];
static volatile uint64_t sum;

static double load_by_hand(void) {
    uint64_t found = 0;
    double start = now();
    for (int call = 0; call < CALLS; call++) {
        uint32_t number;
        memcpy(&number, bytes + (size_t)(call % ELEMENTS) * STRIDE + 28, 4);
        found += number;
    }
    double time = now() - start;
    sum = found;
    return time / CALLS;
}

static double load_by_place(void) {
    uint64_t found = 0;
    double start = now();
    for (int call = 0; call < CALLS; call++) found += wgsl_load(bytes, sizeof bytes, cells[call % ELEMENTS]).bits;
    double time = now() - start;
    sum = found;
    return time / CALLS;
}

static double store_by_hand(void) {
    double start = now();
    for (int call = 0; call < CALLS; call++) {
        uint32_t number = (uint32_t)call;
        memcpy(bytes + (size_t)(call % ELEMENTS) * STRIDE + 28, &number, 4);
    }
    return (now() - start) / CALLS;
}

static double store_by_place(void) {
    double start = now();
    for (int call = 0; call < CALLS; call++) wgsl_store(bytes, sizeof bytes, cells[call % ELEMENTS], (uint32_t)call);
    return (now() - start) / CALLS;
}

static double vector_by_place(void) {
    uint64_t out[3], found = 0;
    double start = now();
    for (int call = 0; call < CALLS; call++) {
        wgsl_load_vector(bytes, sizeof bytes, speeds[call % ELEMENTS], out, 3);
        found += out[0] + out[2];
    }
    double time = now() - start;
    sum = found;
    return time / CALLS;
}

static double part_of_element(void) {
    wgsl_place whole = wgsl_whole(nodes, nodes_count);
    uint64_t found = 0;
    double start = now();
    for (int call = 0; call < CALLS; call++)
        found += wgsl_part(nodes, nodes_count, whole, (uint64_t)(call % ELEMENTS), sizeof bytes).offset;
    double time = now() - start;
    sum = found;
    return time / CALLS;
}

static double place_of_path(void) {
    static const char PATH[] = "[4000].speed.y";
    uint64_t found = 0;
    double start = now();
    for (int call = 0; call < CALLS; call++)
        found += wgsl_place_of(nodes, nodes_count, SHADER, sizeof SHADER - 1, sizeof bytes, PATH, sizeof PATH - 1).offset;
    double time = now() - start;
    sum = found;
    return time / CALLS;
}

/* A structure of 64 members: its table made, with the text read. */
static double table_of_64(void) {
    char text[4096];
    int length = snprintf(text, sizeof text, "struct Wide {\n");
    for (int number = 0; number < 64; number++)
        length += snprintf(text + length, sizeof text - (size_t)length, "    member%d: vec%d<f32>,\n", number, 2 + number % 3);
    length += snprintf(text + length, sizeof text - (size_t)length, "}\n");
    wgsl_node wide[256];
    double start = now();
    for (int call = 0; call < 200; call++) {
        wgsl_answer answer = wgsl_layout(text, (size_t)length, "Wide", 4, NULL, 0, WGSL_STAGE_CONST, 0, wide, 256);
        if (answer.status != WGSL_OK) exit(1);
    }
    return (now() - start) / 200;
}

int main(void) {
    wgsl_answer made = wgsl_layout(SHADER, sizeof SHADER - 1, "particles", 9, NULL, 0, WGSL_STAGE_CONST, 0, nodes, 64);
    if (made.status != WGSL_OK) return 1;
    nodes_count = made.length;
    wgsl_place whole = wgsl_whole(nodes, nodes_count);
    for (uint64_t number = 0; number < ELEMENTS; number++) {
        wgsl_place element = wgsl_part(nodes, nodes_count, whole, number, sizeof bytes);
        speeds[number] = wgsl_part(nodes, nodes_count, element, 2, sizeof bytes);
        cells[number] = wgsl_part(nodes, nodes_count, element, 3, sizeof bytes);
        uint32_t value = (uint32_t)number;
        memcpy(bytes + number * STRIDE + 28, &value, 4);
    }
    printf("load by hand          %8.1f\n", median(load_by_hand));
    uint64_t by_hand = sum;
    printf("load by a place       %8.1f\n", median(load_by_place));
    if (by_hand != sum) return 1;
    printf("store by hand         %8.1f\n", median(store_by_hand));
    printf("store by a place      %8.1f\n", median(store_by_place));
    printf("load of a vec3        %8.1f\n", median(vector_by_place));
    printf("part of an array      %8.1f\n", median(part_of_element));
    printf("place of a path       %8.1f\n", median(place_of_path));
    printf("table of 64 members   %8.1f\n", median(table_of_64));
    return 0;
}
