/* Preloaded into a program, refuses growths of its memory: the one whose number, from 1, REFUSE_GROWTH gives, or,
   where REFUSE_FROM gives a number, that growth and each after it. Where REFUSE_REPORT names a file, the number of
   growths that were asked for is written there; while the program runs, it reads in REFUSE_ASKED how many were asked
   for so far, in 20 digits. */
#define _GNU_SOURCE
#include <dlfcn.h>
#include <errno.h>
#include <stddef.h>
#include <stdio.h>
#include <stdlib.h>

static long asked;

/* Growths for what is told of the others are none of the program's. */
static int reporting;

#define NAME "REFUSE_ASKED="
#define DIGITS 20
static char shown[] = NAME "00000000000000000000";

__attribute__((constructor)) static void begin(void) {
    reporting = 1;
    putenv(shown);
    reporting = 0;
}

static void show(void) {
    long rest = asked;
    for (int i = DIGITS - 1; i >= 0; i--) {
        shown[sizeof NAME - 1 + i] = '0' + rest % 10;
        rest /= 10;
    }
}

/* The number that the variable gives; 0 where it gives none. */
static long number_of(const char *name) {
    const char *text = getenv(name);
    return text ? atol(text) : 0;
}

static int is_refused(void) {
    static long one = -1, first;
    if (reporting)
        return 0;
    if (one < 0) {
        first = number_of("REFUSE_FROM");
        one = number_of("REFUSE_GROWTH");
    }
    asked += 1;
    show();
    if (asked != one && (first == 0 || asked < first))
        return 0;
    errno = ENOMEM;
    return 1;
}

void *malloc(size_t size) {
    static void *(*real)(size_t);
    if (!real)
        real = (void *(*)(size_t))dlsym(RTLD_NEXT, "malloc");
    return is_refused() ? NULL : real(size);
}

void *realloc(void *block, size_t size) {
    static void *(*real)(void *, size_t);
    if (!real)
        real = (void *(*)(void *, size_t))dlsym(RTLD_NEXT, "realloc");
    return is_refused() ? NULL : real(block, size);
}

void *aligned_alloc(size_t alignment, size_t size) {
    static void *(*real)(size_t, size_t);
    if (!real)
        real = (void *(*)(size_t, size_t))dlsym(RTLD_NEXT, "aligned_alloc");
    return is_refused() ? NULL : real(alignment, size);
}

__attribute__((destructor)) static void report(void) {
    const char *name = getenv("REFUSE_REPORT");
    reporting = 1;
    FILE *file = name ? fopen(name, "w") : NULL;
    if (file) {
        fprintf(file, "%ld\n", asked);
        fclose(file);
    }
}
