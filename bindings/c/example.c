/* Prints the layouts of a shader, and what is told of it:
 *
 *     cc -std=c11 example.c -I FOLDER FOLDER/libwgsl.a -o example
 *     ./example ../../examples/particles.wgsl */
#include "wgsl.h"

#include <stdio.h>
#include <stdlib.h>
#include <string.h>

/* A text of the heap; its bytes are NULL where there is none. */
struct text {
    char *bytes;
    size_t length;
};

static struct text read_file(const char *path) {
    struct text text = {NULL, 0};
    FILE *file = fopen(path, "rb");
    if (file == NULL) {
        return text;
    }
    if (fseek(file, 0, SEEK_END) == 0) {
        long size = ftell(file);
        rewind(file);
        if (size >= 0) {
            text.bytes = (char *)malloc((size_t)size + 1);
        }
        if (text.bytes != NULL) {
            text.length = fread(text.bytes, 1, (size_t)size, file);
        }
    }
    fclose(file);
    return text;
}

/* Prints the table of the shader. */
static int print_layout(struct text source) {
    const char *names = "step\nparticles";
    char *out = NULL;
    /* With room for nothing it answers how much is needed. */
    wgsl_answer answer = wgsl_layout_text(
        source.bytes, source.length, names, strlen(names), NULL, 0, WGSL_FORMAT_TABLE, WGSL_STAGE_CONST, 0, NULL, 0);
    if (answer.status == WGSL_ROOM) {
        size_t room = answer.length;
        out = (char *)malloc(room);
        if (out == NULL) {
            return EXIT_FAILURE;
        }
        answer = wgsl_layout_text(
            source.bytes, source.length, names, strlen(names), NULL, 0, WGSL_FORMAT_TABLE, WGSL_STAGE_CONST, 0, out,
            room);
    }
    if (answer.status == WGSL_OK || answer.status == WGSL_FAULT) {
        fwrite(out, 1, answer.length, stdout);
    }
    free(out);
    return answer.status == WGSL_OK ? EXIT_SUCCESS : EXIT_FAILURE;
}

/* Prints what is told, with its places. */
static void print_faults(const char *path, struct text source) {
    wgsl_fault faults[64];
    wgsl_answer answer = wgsl_faults(source.bytes, source.length, NULL, 0, WGSL_STAGE_CONST, 0, faults, 64);
    if (answer.status > WGSL_FAULT) {
        return;
    }
    for (size_t number = 0; number < answer.length; number++) {
        char said[512];
        wgsl_answer of = wgsl_fault_text(
            source.bytes, source.length, NULL, 0, WGSL_STAGE_CONST, 0, number, said, sizeof said);
        int length = of.status == WGSL_OK ? (int)of.length : 0;
        fprintf(stderr, "%s:%zu:%zu: %.*s\n", path, faults[number].line, faults[number].column, length, said);
    }
}

int main(int count, char **words) {
    if (count != 2) {
        fprintf(stderr, "usage: example FILE\n");
        return EXIT_FAILURE;
    }
    struct text source = read_file(words[1]);
    if (source.bytes == NULL) {
        fprintf(stderr, "example: %s cannot be read\n", words[1]);
        return EXIT_FAILURE;
    }
    int end = print_layout(source);
    print_faults(words[1], source);
    free(source.bytes);
    return end;
}
