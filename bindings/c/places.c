/* Writes into a host's buffer what a shader has at a path: cc places.c -I FOLDER FOLDER/libwgsl.a -o places && ./places */
#include <stdio.h>
#include <string.h>

#include "wgsl.h"

static const char SHADER[] =
    "struct Light { at: vec3<f32>, power: f32 }\n"
    "@group(0) @binding(0) var<storage> lights: array<Light>;\n";

int main(void) {
    wgsl_node lights[16];
    wgsl_answer made = wgsl_layout(
        SHADER, strlen(SHADER), "lights", strlen("lights"), NULL, 0, WGSL_STAGE_CONST, 0, lights, 16);
    if (made.status != WGSL_OK) return 1;
    uint8_t buffer[4 * 16] = {0};
    const char *path = "[3].power";
    wgsl_place power =
        wgsl_place_of(lights, made.length, SHADER, strlen(SHADER), sizeof buffer, path, strlen(path));
    float half = 0.5f;
    uint32_t bits;
    memcpy(&bits, &half, sizeof bits);
    if (!wgsl_store(buffer, sizeof buffer, power, bits)) return 1;
    printf("lights%s stands at byte %u of %zu\n", path, (unsigned)power.offset, sizeof buffer);
    return 0;
}
