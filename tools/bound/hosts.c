/* What a host may do with the library, tried on each of its functions: room for nothing, for a byte less than is needed and
 * for just as much, texts that are no UTF-8, each growth of memory refused in turn, records and paths that are mangled,
 * and eight threads at once. The last line is 'N passed, M failed'.
 *
 *   cc -std=c11 hosts.c -I FOLDER FOLDER/libwgsl.a -Wl,--wrap=malloc,--wrap=realloc,--wrap=free -lpthread
 *
 * What the library is given ends where a page ends that may be touched, so a byte further ends the program. */
#define _GNU_SOURCE
#include <pthread.h>
#include <stdatomic.h>
#include <stdbool.h>
#include <stdint.h>
#include <stdio.h>
#include <stdlib.h>
#include <string.h>
#include <sys/mman.h>
#include <unistd.h>

#include "wgsl.h"

/* ---- Memory that is counted and refused ---- */

void *__real_malloc(size_t size);
void *__real_realloc(void *block, size_t size);
void __real_free(void *block);

static atomic_long blocks;
/* How many growths are granted before one is refused; none is where it is negative. */
static long granted = -1;
static bool was_refused;

static bool refuses(void) {
    if (granted < 0) return false;
    if (granted == 0) was_refused = true;
    granted--;
    return was_refused && granted == -1;
}

void *__wrap_malloc(size_t size) {
    if (refuses()) return NULL;
    void *block = __real_malloc(size);
    if (block) atomic_fetch_add(&blocks, 1);
    return block;
}

void *__wrap_realloc(void *block, size_t size) {
    if (refuses()) return NULL;
    void *grown = __real_realloc(block, size);
    if (grown && !block) atomic_fetch_add(&blocks, 1);
    return grown;
}

void __wrap_free(void *block) {
    if (block) atomic_fetch_sub(&blocks, 1);
    __real_free(block);
}

/* ---- Counts ---- */

static long passed, failed;

static void count(bool holds, const char *name, const char *what) {
    if (holds) {
        passed++;
    } else {
        failed++;
        if (failed < 20) printf("%s: %s\n", name, what);
    }
}

/* ---- Memory that ends where a page ends ---- */

static uint8_t *pages;
static size_t page_bytes;

static void make_pages(void) {
    size_t page = (size_t)sysconf(_SC_PAGESIZE);
    page_bytes = 64 * page;
    pages = mmap(NULL, page_bytes + page, PROT_READ | PROT_WRITE, MAP_PRIVATE | MAP_ANONYMOUS, -1, 0);
    if (pages == MAP_FAILED || mprotect(pages + page_bytes, page, PROT_NONE)) exit(2);
}

/* So many bytes, of this value each, with the last one before the page that nothing may touch. */
static uint8_t *at_the_end(size_t size, int value) {
    if (size > page_bytes) exit(2);
    memset(pages, value, page_bytes);
    return pages + page_bytes - size;
}

static bool are_all(const uint8_t *from, const uint8_t *to, int value) {
    for (; from < to; from++)
        if (*from != value) return false;
    return true;
}

/* ---- The calls that write ---- */

#define TEXT(literal) literal, sizeof(literal) - 1

static const char SHADER[] =
    "struct Light { at: vec3<f32>, power: f32, color: vec4<f16>, tags: array<vec2<u32>, 3> }\n"
    "struct Lights { count: atomic<u32>, all: array<Light> }\n"
    "@group(0) @binding(0) var<storage, read_write> lights: Lights;\n"
    "override block: u32 = 64;\n"
    "const WIDTH = 5u;\n"
    "const STARTS = vec3(0u, WIDTH, 2u * WIDTH);\n"
    "const wrong: i32 = missing;\n";

static const char SCRIPT[] =
    "struct S a:u32 b:vec3<u32>\n"
    "new S storage read_write 0100000000000000000000000000000002000000030000000400000000000000\n"
    "member &0 b\nindex &1 2\nwrite &2 09000000\nread &1\ndump &0\nread &9\n";

typedef struct call {
    const char *name;
    wgsl_answer (*make)(const char *spoiled, void *out, size_t room);
    /* How many bytes one of what it writes takes. */
    size_t unit;
    /* How many of its arguments are texts; the first of them is argument 1. */
    unsigned texts;
    /* Whether want of memory may be told in the answer, as in the line of a script that wanted it. */
    bool tells_inside;
} call;

/* `spoiled` takes the place of the text of the number of its first byte. */
static const char *text_of(const char *spoiled, unsigned argument, const char *text) {
    return spoiled && (unsigned)spoiled[0] == argument ? spoiled + 1 : text;
}

static size_t length_of(const char *text) {
    return text ? strlen(text) : 0;
}

#define ARGUMENT(number, text) text_of(spoiled, number, text), length_of(text_of(spoiled, number, text))

static wgsl_answer lays_out(const char *spoiled, void *out, size_t room, uint32_t format) {
    return wgsl_layout_text(ARGUMENT(1, SHADER), ARGUMENT(2, ""), ARGUMENT(3, "block=8"), format, WGSL_STAGE_OVERRIDE, 0, out, room);
}
static wgsl_answer table(const char *s, void *out, size_t room) { return lays_out(s, out, room, WGSL_FORMAT_TABLE); }
static wgsl_answer drawn(const char *s, void *out, size_t room) { return lays_out(s, out, room, WGSL_FORMAT_BYTES); }
static wgsl_answer json(const char *s, void *out, size_t room) { return lays_out(s, out, room, WGSL_FORMAT_JSON); }
static wgsl_answer in_rust(const char *s, void *out, size_t room) { return lays_out(s, out, room, WGSL_FORMAT_RUST); }
static wgsl_answer in_c(const char *s, void *out, size_t room) { return lays_out(s, out, room, WGSL_FORMAT_C); }
static wgsl_answer values(const char *spoiled, void *out, size_t room) {
    return wgsl_eval_text(ARGUMENT(1, SHADER), ARGUMENT(2, "block=8"), WGSL_FORMAT_TABLE, WGSL_STAGE_CONST, 0, out, room);
}
static wgsl_answer values_json(const char *spoiled, void *out, size_t room) {
    return wgsl_eval_text(ARGUMENT(1, SHADER), ARGUMENT(2, ""), WGSL_FORMAT_JSON, WGSL_STAGE_CONST, WGSL_STRICT, out, room);
}
static wgsl_answer type_of(const char *spoiled, void *out, size_t room) {
    return wgsl_expression_type(ARGUMENT(1, SHADER), ARGUMENT(2, "STARTS * block"), ARGUMENT(3, "block=8"), WGSL_STAGE_CONST, 0, out, room);
}
static wgsl_answer value_of(const char *spoiled, void *out, size_t room) {
    return wgsl_expression_value(ARGUMENT(1, SHADER), ARGUMENT(2, "STARTS * block"), ARGUMENT(3, "block=8"), WGSL_STAGE_CONST, 0, out, room);
}
static wgsl_answer bytes_of(const char *spoiled, void *out, size_t room) {
    return wgsl_expression_bytes(ARGUMENT(1, SHADER), ARGUMENT(2, "STARTS * block"), ARGUMENT(3, "block=8"), WGSL_STAGE_CONST, 0, out, room);
}
static wgsl_answer faults(const char *spoiled, void *out, size_t room) {
    return wgsl_faults(ARGUMENT(1, SHADER), ARGUMENT(2, "block=8"), WGSL_STAGE_CONST, 0, out, room);
}
static wgsl_answer fault_text(const char *spoiled, void *out, size_t room) {
    return wgsl_fault_text(ARGUMENT(1, SHADER), ARGUMENT(2, "block=8"), WGSL_STAGE_CONST, 0, 0, out, room);
}
static wgsl_answer code(const char *spoiled, void *out, size_t room) {
    (void)spoiled;
    return wgsl_code_text(WGSL_CODE_EVALUATION, out, room);
}
static wgsl_answer script(const char *spoiled, void *out, size_t room) {
    (void)spoiled;
    return wgsl_script(TEXT(SCRIPT), out, room);
}
static wgsl_answer version(const char *spoiled, void *out, size_t room) {
    (void)spoiled;
    return wgsl_version(out, room);
}
static wgsl_answer nodes(const char *spoiled, void *out, size_t room) {
    return wgsl_layout(ARGUMENT(1, SHADER), ARGUMENT(2, "lights"), ARGUMENT(3, "block=8"), WGSL_STAGE_CONST, 0, out, room);
}

static const call CALLS[] = {
    {"wgsl_layout_text, table", table, 1, 3, false},
    {"wgsl_layout_text, bytes", drawn, 1, 3, false},
    {"wgsl_layout_text, JSON", json, 1, 3, false},
    {"wgsl_layout_text, Rust", in_rust, 1, 3, false},
    {"wgsl_layout_text, C", in_c, 1, 3, false},
    {"wgsl_eval_text, table", values, 1, 2, false},
    {"wgsl_eval_text, JSON", values_json, 1, 2, false},
    {"wgsl_expression_type", type_of, 1, 3, false},
    {"wgsl_expression_value", value_of, 1, 3, false},
    {"wgsl_expression_bytes", bytes_of, 1, 3, false},
    {"wgsl_faults", faults, sizeof(wgsl_fault), 2, false},
    {"wgsl_fault_text", fault_text, 1, 2, false},
    {"wgsl_code_text", code, 1, 0, false},
    {"wgsl_script", script, 1, 0, true},
    {"wgsl_version", version, 1, 0, false},
    {"wgsl_layout", nodes, sizeof(wgsl_node), 3, false},
};

static bool is_answered(wgsl_answer answer) {
    return answer.status == WGSL_OK || answer.status == WGSL_FAULT;
}

/* Room for nothing, for one less, for just as much and for more. */
static void try_rooms(const call *one) {
    wgsl_answer needs = one->make(NULL, NULL, 0);
    count(needs.status == WGSL_ROOM && needs.length > 0, one->name, "room for nothing is not told as such");
    size_t size = needs.length * one->unit;
    uint8_t *out = at_the_end(size, 0xA5);
    wgsl_answer whole = one->make(NULL, out, needs.length);
    count(is_answered(whole) && whole.length == needs.length, one->name, "what is needed is not enough");
    count(are_all(pages, out, 0xA5), one->name, "bytes before the room are written");
    uint8_t *kept = malloc(size);
    if (!kept) exit(2);
    memcpy(kept, out, size);
    out = at_the_end(size - one->unit, 0xA5);
    wgsl_answer less = one->make(NULL, out, needs.length - 1);
    count(less.status == WGSL_ROOM && less.length == needs.length, one->name, "one less is enough, or needs something else");
    count(are_all(pages, pages + page_bytes, 0xA5), one->name, "too little room is written to");
    out = at_the_end(size + 64 * one->unit, 0xA5);
    wgsl_answer more = one->make(NULL, out, needs.length + 64);
    count(is_answered(more) && more.length == needs.length && !memcmp(kept, out, size), one->name, "more room gives another answer");
    count(are_all(out + size, pages + page_bytes, 0xA5), one->name, "bytes behind the answer are written");
    free(kept);
}

/* Each text of the call that is no UTF-8. */
static void try_texts(const call *one) {
    for (unsigned argument = 1; argument <= one->texts; argument++) {
        char spoiled[] = {(char)argument, 'a', (char)0xC3, (char)0x28, 0};
        uint8_t *out = at_the_end(4096 * one->unit, 0xA5);
        wgsl_answer answer = one->make(spoiled, out, 4096);
        count(answer.status == WGSL_MISUSE && answer.number == argument && answer.length == 0, one->name, "no UTF-8 is no misuse");
        count(are_all(pages, pages + page_bytes, 0xA5), one->name, "a misuse is written to");
    }
}

/* Each growth of memory refused in turn, which has to be told and to leave all as before. */
static void try_growths(const call *one) {
    size_t needed = one->make(NULL, NULL, 0).length;
    long before = atomic_load(&blocks);
    bool is_told = true, is_kept = true, gives_back = true;
    for (long turn = 0;; turn++) {
        uint8_t *out = at_the_end(needed * one->unit, 0xA5);
        granted = turn;
        was_refused = false;
        wgsl_answer answer = one->make(NULL, out, needed);
        granted = -1;
        gives_back = gives_back && atomic_load(&blocks) == before;
        if (!was_refused) {
            count(is_answered(answer), one->name, "no answer though all growths are granted");
            break;
        }
        bool is_inside = one->tells_inside && is_answered(answer);
        bool has_no_room = one->tells_inside && answer.status == WGSL_ROOM;
        is_told = is_told && (is_inside || has_no_room || (answer.status == WGSL_MEMORY && answer.length == 0));
        is_kept = is_kept && (is_inside || are_all(pages, pages + page_bytes, 0xA5));
    }
    count(is_told, one->name, "a refused growth is not told");
    count(is_kept, one->name, "a refused growth leaves something written");
    count(gives_back, one->name, "memory is not given back");
}

/* ---- Numbers that this header does not have ---- */

static void try_numbers(void) {
    char out[64];
    const char *name = "numbers";
    wgsl_answer answer = wgsl_layout_text(TEXT(SHADER), NULL, 0, NULL, 0, 6, 0, 0, out, sizeof out);
    count(answer.status == WGSL_MISUSE && answer.number == 4, name, "a format");
    answer = wgsl_layout_text(TEXT(SHADER), NULL, 0, NULL, 0, 0, 3, 0, out, sizeof out);
    count(answer.status == WGSL_MISUSE && answer.number == 5, name, "a stage");
    answer = wgsl_layout_text(TEXT(SHADER), NULL, 0, NULL, 0, 0, 0, 4, out, sizeof out);
    count(answer.status == WGSL_MISUSE && answer.number == 6, name, "a flag");
    answer = wgsl_eval_text(TEXT(SHADER), NULL, 0, WGSL_FORMAT_C, 0, 0, out, sizeof out);
    count(answer.status == WGSL_MISUSE && answer.number == 3, name, "a format of values");
    answer = wgsl_fault_text(TEXT(SHADER), NULL, 0, 0, 0, 100, out, sizeof out);
    count(answer.status == WGSL_REFUSED && answer.number == WGSL_NO_SUCH_FAULT, name, "a fault that is not there");
    answer = wgsl_expression_value(NULL, 0, TEXT("1.5"), NULL, 0, 0, 0, out, sizeof out);
    count(answer.status == WGSL_REFUSED && answer.number == WGSL_NEEDS_FLOAT, name, "a float");
    answer = wgsl_expression_bytes(NULL, 0, TEXT("true"), NULL, 0, 0, 0, (uint8_t *)out, sizeof out);
    count(answer.status == WGSL_REFUSED && answer.number == WGSL_NO_BYTES, name, "a bool has bytes");
    answer = wgsl_layout_text(NULL, 0, NULL, 0, NULL, 0, 0, 0, 0, NULL, 0);
    count(answer.status == WGSL_OK && answer.length == 0, name, "the empty source");
    answer = wgsl_script(NULL, 0, NULL, 0);
    count(answer.status == WGSL_OK && answer.length == 0, name, "the empty script");
}

/* ---- Records and paths that are mangled ---- */

static uint64_t state = 0x9E3779B97F4A7C15u;

static uint32_t drawn_below(uint32_t bound) {
    state ^= state << 13;
    state ^= state >> 7;
    state ^= state << 17;
    return (uint32_t)((state >> 32) % bound);
}

static uint32_t odd_number(uint32_t nodes_count) {
    static const uint32_t ODD[] = {0, 1, 2, 3, 4, 5, 16, 255, 256, 257, 0x7FFFFFFF, 0x80000000, 0xFFFFFFFE, 0xFFFFFFFF};
    return drawn_below(2) ? ODD[drawn_below(sizeof ODD / sizeof *ODD)] : drawn_below(nodes_count + 2);
}

static const char *const PATHS[] = {
    "", ".", "[", "]", "count", ".all", "all[", "all[0", "all[0]", "all[0].at.x", "all[1].color.a", "all[2].tags[2].y",
    "all[18446744073709551615].power", "all[18446744073709551616]", "all[-1]", "all[0].q", "all[0]..at", "all[0].at.xy",
    "[0][0][0][0]", "all[0].tags[3]", "all [0]", "all[00]", "x", "\xC3\x28",
};

static void walk(const wgsl_node *nodes, size_t nodes_count, uint8_t *bytes, size_t length) {
    wgsl_place place = wgsl_whole(nodes, nodes_count);
    for (unsigned step = 0; step < 6; step++) {
        uint64_t numbers[4] = {0, 0, 0, 0};
        wgsl_number found = wgsl_load(bytes, length, place);
        if (found.is_there) wgsl_store(bytes, length, place, found.bits);
        if (wgsl_load_vector(bytes, length, place, numbers, place.count <= 4 ? place.count : 4))
            wgsl_store_vector(bytes, length, place, numbers, place.count <= 4 ? place.count : 4);
        place = wgsl_part(nodes, nodes_count, place, odd_number(4), length);
    }
    wgsl_place made = {odd_number(9), odd_number(9), odd_number(9), odd_number(9), 0};
    if (drawn_below(2)) made.offset = (uint64_t)0 - drawn_below(40);
    wgsl_load(bytes, length, made);
    wgsl_store(bytes, length, made, 1);
    wgsl_part(nodes, nodes_count, made, odd_number(9), length);
    wgsl_size_with(nodes, nodes_count, odd_number((uint32_t)nodes_count), odd_number(9));
    wgsl_count_in(nodes, nodes_count, odd_number((uint32_t)nodes_count), odd_number(9));
    wgsl_is_table(nodes, nodes_count);
}

/* The calls end, and touch nothing but what they are given: the page behind it ends the program else. */
static void try_mangled(unsigned turns) {
    wgsl_answer needs = nodes(NULL, NULL, 0);
    size_t nodes_count = needs.length;
    wgsl_node *sound = malloc(nodes_count * sizeof *sound);
    if (!sound || !is_answered(nodes(NULL, sound, nodes_count))) exit(2);
    count(wgsl_is_table(sound, nodes_count), "wgsl_is_table", "our own table is none");
    count(!wgsl_is_table(NULL, 0), "wgsl_is_table", "no records are a table");
    uint8_t bytes[200];
    for (unsigned turn = 0; turn < turns; turn++) {
        size_t left = drawn_below(8) ? nodes_count : drawn_below((uint32_t)nodes_count + 1);
        uint8_t *lent = at_the_end(left * sizeof *sound, 0);
        memcpy(lent, sound, left * sizeof *sound);
        wgsl_node *mangled = (wgsl_node *)(void *)lent;
        for (uint32_t change = drawn_below(4); left && change; change--) {
            uint32_t *fields = (uint32_t *)(void *)&mangled[drawn_below((uint32_t)left)];
            fields[drawn_below(sizeof *mangled / sizeof *fields)] = odd_number((uint32_t)left);
        }
        memset(bytes, (int)turn, sizeof bytes);
        size_t length = drawn_below(sizeof bytes + 1);
        walk(mangled, left, bytes, length);
        const char *path = PATHS[drawn_below(sizeof PATHS / sizeof *PATHS)];
        wgsl_place place = wgsl_place_of(mangled, left, TEXT(SHADER), length, path, strlen(path));
        wgsl_load(bytes, length, place);
        wgsl_first_difference(mangled, left, sound, nodes_count);
        wgsl_first_difference(sound, nodes_count, mangled, left);
        passed++;
    }
    free(sound);
}

/* ---- Eight threads at once ---- */

static void *read_at_once(void *given) {
    const call *one = given;
    size_t needed = one->make(NULL, NULL, 0).length;
    uint8_t *out = malloc(needed * one->unit);
    if (!out) return NULL;
    for (unsigned turn = 0; turn < 8; turn++) {
        wgsl_answer answer = one->make(NULL, out, needed);
        if (!is_answered(answer) || answer.length != needed) {
            free(out);
            return NULL;
        }
    }
    return out;
}

static void try_threads(void) {
    const call *one = &CALLS[2];
    pthread_t threads[8];
    uint8_t *alone = read_at_once((void *)(uintptr_t)one);
    size_t needed = one->make(NULL, NULL, 0).length;
    for (unsigned number = 0; number < 8; number++)
        if (pthread_create(&threads[number], NULL, read_at_once, (void *)(uintptr_t)one)) exit(2);
    for (unsigned number = 0; number < 8; number++) {
        void *out = NULL;
        pthread_join(threads[number], &out);
        count(alone && out && !memcmp(alone, out, needed), "threads", "another answer than alone");
        free(out);
    }
    free(alone);
}

int main(int words, char **word) {
    unsigned turns = words > 1 ? (unsigned)atoi(word[1]) : 10000;
    make_pages();
    for (size_t number = 0; number < sizeof CALLS / sizeof *CALLS; number++) {
        try_rooms(&CALLS[number]);
        try_texts(&CALLS[number]);
        try_growths(&CALLS[number]);
    }
    try_numbers();
    try_mangled(turns);
    try_threads();
    printf("%ld passed, %ld failed\n", passed, failed);
    return failed ? 1 : 0;
}
