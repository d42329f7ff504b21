/* Makes one call of the C interface and prints what it hands out; the exit status is the call's, or 99 where the call does
 * not keep to the room that it has, or 98 where this program has no memory of its own. A word stands for a text.
 *
 *     calls layout FILE NAMES DEFINES FORMAT STAGE FLAGS
 *     calls eval FILE DEFINES FORMAT STAGE FLAGS
 *     calls type|value|bytes FILE EXPRESSION DEFINES STAGE FLAGS
 *     calls faults FILE DEFINES STAGE FLAGS     a line for each: START END LINE:COLUMN/UTF16 SEVERITY CODE: TEXT
 *     calls script FILE
 *     calls version
 */
#include "wgsl.h"

#include <stdio.h>
#include <stdlib.h>
#include <string.h>

enum { NO_MEMORY = 98, BROKEN = 99, SENTINEL = 0xA5, BEHIND = 16 };

struct text {
    char *bytes;
    size_t length;
};

/* A call with all but its room. */
struct call {
    const char *name;
    struct text file;
    char **words;
};

static uint32_t number(const char *word) { return (uint32_t)strtoul(word, NULL, 10); }

static struct text read_file(const char *path) {
    struct text text = {NULL, 0};
    FILE *file = fopen(path, "rb");
    if (file == NULL) {
        return text;
    }
    size_t room = 4096, count;
    text.bytes = (char *)malloc(room);
    while (text.bytes != NULL && (count = fread(text.bytes + text.length, 1, room - text.length, file)) > 0) {
        text.length += count;
        if (text.length == room) {
            char *grown = (char *)realloc(text.bytes, 2 * room);
            if (grown == NULL) {
                free(text.bytes);
            }
            text.bytes = grown;
            room *= 2;
        }
    }
    fclose(file);
    return text;
}

static wgsl_answer make(const struct call *call, char *out, size_t room) {
    const char *source = call->file.bytes;
    size_t length = call->file.length;
    char **words = call->words;
    if (strcmp(call->name, "layout") == 0) {
        return wgsl_layout_text(
            source, length, words[0], strlen(words[0]), words[1], strlen(words[1]), number(words[2]), number(words[3]),
            number(words[4]), out, room);
    }
    if (strcmp(call->name, "eval") == 0) {
        return wgsl_eval_text(
            source, length, words[0], strlen(words[0]), number(words[1]), number(words[2]), number(words[3]), out, room);
    }
    if (strcmp(call->name, "type") == 0) {
        return wgsl_expression_type(
            source, length, words[0], strlen(words[0]), words[1], strlen(words[1]), number(words[2]), number(words[3]),
            out, room);
    }
    if (strcmp(call->name, "value") == 0) {
        return wgsl_expression_value(
            source, length, words[0], strlen(words[0]), words[1], strlen(words[1]), number(words[2]), number(words[3]),
            out, room);
    }
    if (strcmp(call->name, "bytes") == 0) {
        return wgsl_expression_bytes(
            source, length, words[0], strlen(words[0]), words[1], strlen(words[1]), number(words[2]), number(words[3]),
            (uint8_t *)out, room);
    }
    if (strcmp(call->name, "script") == 0) {
        return wgsl_script(source, length, out, room);
    }
    return wgsl_version(out, room);
}

/* Whether all bytes from the first to the end are as they were. */
static int is_untouched(const char *out, size_t first, size_t end) {
    for (size_t at = first; at < end; at++) {
        if ((unsigned char)out[at] != SENTINEL) {
            return 0;
        }
    }
    return 1;
}

/* Makes the call with this room, and says whether it kept to it. */
static int keeps_room(const struct call *call, char *out, size_t room, size_t wanted, wgsl_answer *answer) {
    memset(out, SENTINEL, room + BEHIND);
    *answer = make(call, out, room);
    if (answer->status == WGSL_MEMORY) {
        return answer->length == 0 && is_untouched(out, 0, room + BEHIND);
    }
    if (answer->length != wanted) {
        return 0;
    }
    if (answer->status == WGSL_ROOM) {
        return room < wanted && is_untouched(out, 0, room + BEHIND);
    }
    return room >= wanted && answer->status <= WGSL_FAULT && is_untouched(out, wanted, room + BEHIND);
}

/* Makes the call with each room that tells the bounds apart, the one that is just enough last. */
static int run_with_rooms(const struct call *call, char *out, size_t wanted, wgsl_answer *answer) {
    size_t rooms[3] = {wanted == 0 ? 0 : wanted - 1, wanted + 1, wanted};
    for (size_t at = 0; at < 3; at++) {
        if (!keeps_room(call, out, rooms[at], wanted, answer)) {
            return BROKEN;
        }
        if (answer->status == WGSL_MEMORY) {
            return WGSL_MEMORY;
        }
    }
    return (int)answer->status;
}

/* Prints what is handed out. */
static int run(const struct call *call) {
    wgsl_answer answer = make(call, NULL, 0);
    if (answer.status != WGSL_ROOM && answer.status != WGSL_OK && answer.status != WGSL_FAULT) {
        fprintf(stderr, "%u %u\n", (unsigned)answer.status, (unsigned)answer.number);
        return (int)answer.status;
    }
    size_t wanted = answer.length;
    char *out = (char *)malloc(wanted + 1 + BEHIND);
    if (out == NULL) {
        return NO_MEMORY;
    }
    int end = run_with_rooms(call, out, wanted, &answer);
    if (end <= WGSL_FAULT) {
        fwrite(out, 1, wanted, stdout);
    }
    fprintf(stderr, "%u %u\n", (unsigned)answer.status, (unsigned)answer.number);
    free(out);
    return end;
}

static int print_fault(struct text source, char **words, const wgsl_fault *fault, size_t which) {
    char said[4096], code[64];
    wgsl_answer text = wgsl_fault_text(
        source.bytes, source.length, words[0], strlen(words[0]), number(words[1]), number(words[2]), which, said,
        sizeof said);
    wgsl_answer word = wgsl_code_text(fault->code, code, sizeof code);
    if (text.status != WGSL_OK || word.status != WGSL_OK) {
        return text.status == WGSL_MEMORY ? (int)WGSL_MEMORY : (int)BROKEN;
    }
    printf(
        "%zu %zu %zu:%zu/%zu %u %.*s: %.*s\n", fault->start, fault->end, fault->line, fault->column, fault->column_utf16,
        (unsigned)fault->severity, (int)word.length, code, (int)text.length, said);
    return 0;
}

static int run_faults(struct text source, char **words) {
    const char *defines = words[0];
    uint32_t stage = number(words[1]), flags = number(words[2]);
    wgsl_answer answer = wgsl_faults(source.bytes, source.length, defines, strlen(defines), stage, flags, NULL, 0);
    if (answer.status > WGSL_ROOM) {
        return (int)answer.status;
    }
    size_t count = answer.length;
    wgsl_fault *faults = (wgsl_fault *)calloc(count + 1, sizeof *faults);
    if (faults == NULL) {
        return NO_MEMORY;
    }
    answer = wgsl_faults(source.bytes, source.length, defines, strlen(defines), stage, flags, faults, count);
    int end = (int)answer.status;
    if (end != WGSL_MEMORY && (answer.length != count || faults[count].line != 0)) {
        end = BROKEN;
    }
    for (size_t which = 0; which < count && end <= WGSL_FAULT; which++) {
        int printed = print_fault(source, words, &faults[which], which);
        end = printed == 0 ? end : printed;
    }
    wgsl_answer past = wgsl_fault_text(
        source.bytes, source.length, defines, strlen(defines), stage, flags, count, NULL, 0);
    if (end <= WGSL_FAULT && (past.status != WGSL_REFUSED || past.number != WGSL_NO_SUCH_FAULT)) {
        end = past.status == WGSL_MEMORY ? (int)WGSL_MEMORY : (int)BROKEN;
    }
    free(faults);
    return end;
}

/* How many words each call has, its name and its file included; 0 where there is no such call. */
static int words_of(const char *name) {
    static const struct {
        const char *name;
        int words;
    } calls[] = {{"layout", 7}, {"eval", 6}, {"type", 6}, {"value", 6}, {"bytes", 6}, {"faults", 5}, {"script", 2}, {"version", 1}};
    for (size_t at = 0; at < sizeof calls / sizeof *calls; at++) {
        if (strcmp(name, calls[at].name) == 0) {
            return calls[at].words;
        }
    }
    return 0;
}

int main(int count, char **words) {
    if (count < 2 || words_of(words[1]) != count - 1) {
        fprintf(stderr, "calls: which call?\n");
        return BROKEN;
    }
    struct call call = {words[1], {NULL, 0}, words + 3};
    if (count > 2) {
        call.file = read_file(words[2]);
        if (call.file.bytes == NULL) {
            fprintf(stderr, "calls: %s cannot be read\n", words[2]);
            return NO_MEMORY;
        }
    }
    int end = strcmp(call.name, "faults") == 0 ? run_faults(call.file, call.words) : run(&call);
    free(call.file.bytes);
    return end;
}
