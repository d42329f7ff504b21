/* How the types of a WGSL source lie in memory, what its constants are, what is wrong with it, and scripts of calls on a
 * shader's memory. The functions are those of a library, libwgsl.a or libwgsl.so, each of them proved. C11 and C++17.
 *
 * TEXTS go in and come out as UTF-8, by a pointer and a number of bytes. No zero byte ends them. NULL with 0 is the
 * empty text, and NULL with 0 for `out` is room for nothing.
 *
 * STATE: there is none. A call reads what it is given, writes to `out` or to `records`, and keeps nothing, so any thread
 * may call at any time, and calls may run at once. It asks malloc for memory and gives all of it back. It is not for
 * signal handlers, nor for the forked child of a process with threads.
 *
 * THE CALLER OWES that each pointer has that many bytes (or records) behind it, and that `out` and `records` overlap
 * nothing else that the call is given. Everything else is checked: any bytes may be handed over as a source, and any
 * number as a number.
 *
 * HOW LONG IS THE ANSWER? Call once with room for nothing: the status is WGSL_ROOM and `length` says how much is
 * needed. Or call with a buffer that is mostly large enough, and again where it was not.
 *
 * A source may be long and deep, and a call then uses a stack of some megabytes: see docs/DEPTH.md of the library. */
#ifndef WGSL_H
#define WGSL_H

#include <stdbool.h>
#include <stddef.h>
#include <stdint.h>

#ifdef __cplusplus
extern "C" {
#endif

/* ---- What a call answers ---- */

/* How a call ended: the field `status`. */
enum wgsl_status {
    /* The answer is whole, in the first `length` bytes (or records); those behind it are as before. `number` is 0. */
    WGSL_OK = 0,
    /* The same, but the source has faults: `number` says how many, without warnings and notes. The answer is what can be
     * said all the same, and may be empty. `wgsl_faults` lists the faults. */
    WGSL_FAULT = 1,
    /* There is no answer: `number` says why, by `enum wgsl_refusal`. Nothing is written. */
    WGSL_REFUSED = 2,
    /* There is too little room: `length` bytes (or records) are needed, more than there are. Nothing is written. */
    WGSL_ROOM = 3,
    /* Memory is wanting. Nothing is written. */
    WGSL_MEMORY = 4,
    /* An argument is none that the call takes: a text that is no UTF-8, a number that this file does not have, or a
     * define that is none. `number` says which one of the call's arguments it is, from 1, where a pointer and its
     * length are one argument together. Nothing is written. */
    WGSL_MISUSE = 5
};

/* What each call answers, by value. `length` is 0 where the status is none of OK, FAULT and ROOM. */
typedef struct wgsl_answer {
    uint32_t status;
    uint32_t number;
    size_t length;
} wgsl_answer;

/* Why there is no answer: the field `number` where the status is WGSL_REFUSED. */
enum wgsl_refusal {
    /* The expression is sound and has no value here, since it needs: */
    WGSL_NEEDS_FLOAT = 1,
    WGSL_NEEDS_OVERRIDE = 2,
    WGSL_NEEDS_VARIABLE = 3,
    WGSL_NEEDS_FUNCTION = 4,
    /* a texture, a sampler or a pointer, */
    WGSL_NEEDS_OPAQUE = 5,
    /* or what is known while the shader runs alone. */
    WGSL_NEEDS_RUN_TIME = 6,
    /* The value has no bytes: its type has no layout, as those of a bool and of an abstract number have none. `i32(1)` has. */
    WGSL_NO_BYTES = 7,
    /* There are fewer faults than that. */
    WGSL_NO_SUCH_FAULT = 8,
    /* The script has more than 1,048,576 bytes. None of its lines was run. */
    WGSL_SCRIPT_TOO_LONG = 9,
    /* The type has no layout as records, as that of a texture or of a bool has none. */
    WGSL_NO_LAYOUT = 10
};

/* ---- What a call is asked ---- */

/* When values are needed: the argument `stage`. */
enum wgsl_stage {
    /* For the module: overrides have no values, but for those of `defines`. */
    WGSL_STAGE_CONST = 0,
    /* For a pipeline: overrides have their default values too. */
    WGSL_STAGE_OVERRIDE = 1,
    /* While the shader runs. */
    WGSL_STAGE_EXEC = 2
};

/* What else is asked: the argument `flags`, 0 or some of these by `|`. */
enum wgsl_flag {
    /* What is warned of and what is left out is a fault. */
    WGSL_STRICT = 1,
    /* Not WGSL alone, but what the Rust crate wgsl-types has beyond it: matrices of integers, integers of 64 bits, and
     * bits of abstract integers. */
    WGSL_DIALECT_CRATE = 2
};

/* How an answer is written: the argument `format`. */
enum wgsl_format {
    WGSL_FORMAT_TABLE = 0,
    /* Rows of 16 bytes, drawn. */
    WGSL_FORMAT_BYTES = 1,
    /* For programs; docs/JSON.md of the library has its form. The name of the file is `-`. */
    WGSL_FORMAT_JSON = 2,
    /* Structures of the host, with their padding, whose offsets its compiler checks. */
    WGSL_FORMAT_RUST = 3,
    /* The same with the traits Pod and Zeroable of bytemuck. */
    WGSL_FORMAT_RUST_BYTEMUCK = 4,
    /* The same in C and C++. */
    WGSL_FORMAT_C = 5
};

/* `defines`, of many calls: what a host gives overrides, a line `NAME=VALUE` for each, or no line. NAME is that of an
 * override or the number of its `@id`, VALUE a constant expression that is an integer or a truth value and of which nothing
 * is warned. A value of floats is not used, since there are no floats. Blank lines count for nothing. */

/* ---- Layouts ---- */

/* Where the members of structures stand in memory, and how large buffers are, of all that the source shares with its
 * host, or of the declarations that `names` has, one in a line: what `wgsl_tool layout` prints on standard output, byte
 * for byte. A name that nothing has, or nothing with a layout, is a fault.
 * Misuse: 1 source, 2 names, 3 defines, 4 format, 5 stage, 6 flags. */
wgsl_answer wgsl_layout_text(
    const char *source, size_t source_length,
    const char *names, size_t names_length,
    const char *defines, size_t defines_length,
    uint32_t format, uint32_t stage, uint32_t flags,
    char *out, size_t room);

/* ---- Constants ---- */

/* The type and the value of each constant of the source, a line each, or as JSON: what `wgsl_tool eval` prints on
 * standard output, byte for byte. `format` is WGSL_FORMAT_TABLE or WGSL_FORMAT_JSON.
 * Misuse: 1 source, 2 defines, 3 format, 4 stage, 5 flags. */
wgsl_answer wgsl_eval_text(
    const char *source, size_t source_length,
    const char *defines, size_t defines_length,
    uint32_t format, uint32_t stage, uint32_t flags,
    char *out, size_t room);

/* Of an expression, which may name what the module declares: its type, as `vec2<i32>`; its value, as
 * `vec2(3i, 3i)`; and the bytes of its value as a buffer has them, with padding of zeros.
 *
 * Where the module has faults and the expression a value, the status is WGSL_FAULT and the answer is there. Where the
 * expression itself is faulty or is none, or a comment that is open at the module's end takes it in, the status is
 * WGSL_FAULT and the answer is empty, which none of these is otherwise. `number` counts the faults of both, or of the
 * expression alone where it is none. WGSL_REFUSED where the expression is sound and has no value, or no bytes. The module
 * may be empty.
 * Misuse: 1 module, 2 expression, 3 defines, 4 stage, 5 flags. */
wgsl_answer wgsl_expression_type(
    const char *module, size_t module_length,
    const char *expression, size_t expression_length,
    const char *defines, size_t defines_length,
    uint32_t stage, uint32_t flags,
    char *out, size_t room);
wgsl_answer wgsl_expression_value(
    const char *module, size_t module_length,
    const char *expression, size_t expression_length,
    const char *defines, size_t defines_length,
    uint32_t stage, uint32_t flags,
    char *out, size_t room);
wgsl_answer wgsl_expression_bytes(
    const char *module, size_t module_length,
    const char *expression, size_t expression_length,
    const char *defines, size_t defines_length,
    uint32_t stage, uint32_t flags,
    uint8_t *out, size_t room);

/* ---- What is wrong with a source ---- */

/* How much it matters what is told: the field `severity`, by the numbers of the Language Server Protocol. */
enum wgsl_severity { WGSL_SEVERITY_ERROR = 1, WGSL_SEVERITY_WARNING = 2, WGSL_SEVERITY_NOTE = 3 };

/* What kind of thing is told: the field `code`. `wgsl_code_text` has the word for it. Later versions may add some. */
enum wgsl_code {
    WGSL_CODE_OTHER = 0,
    /* Of the form of a source. */
    WGSL_CODE_EXPECTED = 1,
    WGSL_CODE_OPEN_COMMENT = 2,
    WGSL_CODE_PREPROCESSOR = 3,
    WGSL_CODE_PLACEHOLDER = 4,
    WGSL_CODE_IMPORT = 5,
    WGSL_CODE_TOO_DEEP = 6,
    WGSL_CODE_DUPLICATE_NAME = 7,
    WGSL_CODE_SECOND_STAGE = 8,
    WGSL_CODE_NEEDS_ITSELF = 9,
    WGSL_CODE_MIXED_OPERATORS = 10,
    WGSL_CODE_DOUBLE_OPERATOR = 11,
    WGSL_CODE_KEYWORD = 12,
    WGSL_CODE_RESERVED_WORD = 13,
    WGSL_CODE_NO_IDENTIFIER = 14,
    /* Of its types and values; of what the standard refuses and the library answers; of what is left out. With WGSL_STRICT
     * the last two are faults, and have the first code. */
    WGSL_CODE_EVALUATION = 15,
    WGSL_CODE_AGAINST_STANDARD = 16,
    WGSL_CODE_LEFT_OUT = 17,
    /* Of what a shader may share with its host. */
    WGSL_CODE_SHAPE = 18,
    WGSL_CODE_NOT_PLAIN = 19,
    WGSL_CODE_ABSTRACT_TYPE = 20,
    WGSL_CODE_ATOMIC_CONTENT = 21,
    WGSL_CODE_RUNTIME_NOT_LAST = 22,
    WGSL_CODE_RUNTIME_IN_STRUCT = 23,
    WGSL_CODE_RUNTIME_IN_ARRAY = 24,
    WGSL_CODE_BOOL_SHARED = 25,
    WGSL_CODE_RUNTIME_SPACE = 26,
    WGSL_CODE_ATOMIC_SPACE = 27,
    WGSL_CODE_ATOMIC_ACCESS = 28,
    WGSL_CODE_NOT_HANDLE = 29,
    WGSL_CODE_WRITE_ACCESS = 30,
    WGSL_CODE_ACCESS_SPACE = 31,
    WGSL_CODE_GROUP_MISSING = 32,
    WGSL_CODE_BINDING_MISSING = 33,
    WGSL_CODE_GROUP_SPACE = 34,
    WGSL_CODE_BINDING_SPACE = 35,
    WGSL_CODE_SAME_BINDING = 36
};

/* Something that is told of a source: which bytes it is about, from 0, the end not included (where there are none of these,
 * it is about the place, or about no place, as a define of no override); where they begin: the line, and the column in
 * characters and in units of UTF-16, each from 1. */
typedef struct wgsl_fault {
    size_t start;
    size_t end;
    size_t line;
    size_t column;
    size_t column_utf16;
    uint32_t severity;
    uint32_t code;
} wgsl_fault;

/* All that is told of a source, by `wgsl_tool layout` and `wgsl_tool eval`, each once, in the order of the places: faults,
 * warnings, and notes of what is left out. `length` says how many there are. All of them are written where `capacity`
 * records have room for all, and else none (WGSL_ROOM). WGSL_OK where there is no fault among them, though there may be
 * warnings and notes.
 * Misuse: 1 source, 2 defines, 3 stage, 4 flags. */
wgsl_answer wgsl_faults(
    const char *source, size_t source_length,
    const char *defines, size_t defines_length,
    uint32_t stage, uint32_t flags,
    wgsl_fault *records, size_t capacity);

/* What is told there: the text of the record of this number, from 0, in one line. The source is read again. WGSL_OK, or
 * WGSL_REFUSED (WGSL_NO_SUCH_FAULT) where there are not so many.
 * Misuse: 1 source, 2 defines, 3 stage, 4 flags. */
wgsl_answer wgsl_fault_text(
    const char *source, size_t source_length,
    const char *defines, size_t defines_length,
    uint32_t stage, uint32_t flags, size_t number,
    char *out, size_t room);

/* The word for a code, as `duplicate-name`; `other` where there is none of this number. */
wgsl_answer wgsl_code_text(uint32_t code, char *out, size_t room);

/* ---- Layouts as records ---- */

/* A type, with the records of the types inside it behind it in the same table. Record 0 is the type of the whole. The
 * children of a structure, its members, are as many records one behind the other; a vector, a matrix and an array has
 * one. A table is plain numbers: it may be copied, kept and made by hand. */
typedef struct wgsl_node {
    /* One of `enum wgsl_sort`. */
    uint32_t sort;
    /* Of a number: one of `enum wgsl_kind`, and WGSL_ATOMIC more where it is atomic. Else 0. */
    uint32_t kind;
    /* Where a member begins in its structure, in bytes. Else 0. */
    uint32_t offset;
    /* How many bytes a value takes; up to the runtime-sized array where the type is or ends in one. */
    uint32_t size;
    /* What the place of a value is a multiple of, in bytes. */
    uint32_t align;
    /* How many components, columns, elements or members; 0 of a number and of a runtime-sized array. */
    uint32_t count;
    /* From one component, column or element to the next, in bytes. Else 0. */
    uint32_t stride;
    /* The number of the first child's record; 0 of a number. */
    uint32_t child;
    /* Where the runtime-sized array begins that the type is or ends in, and from one of its elements to the next, in bytes;
     * 0 where there is none. */
    uint32_t tail_start;
    uint32_t tail_stride;
    /* From where to where the name of a member stands in the source, in bytes; 0 of what is no member. */
    uint32_t name_start;
    uint32_t name_end;
} wgsl_node;

enum wgsl_sort {
    WGSL_SORT_NUMBER = 0,
    WGSL_SORT_VECTOR = 1,
    WGSL_SORT_MATRIX = 2,
    WGSL_SORT_ARRAY = 3,
    WGSL_SORT_STRUCTURE = 4
};

enum wgsl_kind {
    WGSL_KIND_I32 = 1,
    WGSL_KIND_U32 = 2,
    WGSL_KIND_F32 = 3,
    WGSL_KIND_F16 = 4,
    WGSL_KIND_I64 = 5,
    WGSL_KIND_U64 = 6,
    WGSL_KIND_F64 = 7,
    WGSL_ATOMIC = 256
};

/* The table of a structure, an alias or a variable of the source by its name, or of a type as the source may write it, as
 * `array<Light, 4>`. `length` says how many records it has. WGSL_FAULT with no records where the name or the type is faulty;
 * WGSL_REFUSED (WGSL_NO_LAYOUT) where it is no type with a layout, as that of a texture.
 * Misuse: 1 source, 2 name, 3 defines, 4 stage, 5 flags. */
wgsl_answer wgsl_layout(
    const char *source, size_t source_length,
    const char *name, size_t name_length,
    const char *defines, size_t defines_length,
    uint32_t stage, uint32_t flags,
    wgsl_node *records, size_t capacity);

/* What follows takes a table, looks at no source but for names, and takes no memory. Any records may be handed over: a
 * call tests what it reads, and answers within the bounds of what it is given. On a table that `wgsl_layout` makes the
 * answers are those of WGSL's rules, and on any other those of its records alone. */

/* Whether the records agree with each other, as those of a type do: sizes, alignments, strides, and members that follow each
 * other. Names are not looked at. */
bool wgsl_is_table(const wgsl_node *records, size_t count);

/* A part of a value: where it begins in the bytes of the whole, and its record. WGSL_NOWHERE is the record where there is no
 * such part. `kind` is that of the number that stands there, or of those that stand there side by side, and `count` how many
 * these are: 1 of a number, 2 to 4 of a vector, else 0. */
typedef struct wgsl_place {
    uint64_t offset;
    uint32_t node;
    uint32_t kind;
    uint32_t count;
    uint32_t spare;
} wgsl_place;

#define WGSL_NOWHERE UINT32_MAX

/* The place of the whole value. */
wgsl_place wgsl_whole(const wgsl_node *records, size_t count);

/* One step by position: the component, column, element or member of this number, in a value of `length` bytes, which say how
 * many elements a runtime-sized array has. */
wgsl_place wgsl_part(const wgsl_node *records, size_t count, wgsl_place place, uint64_t index, size_t length);

/* The place of a path as WGSL writes it behind a variable, as `[2].x` or `.y`, in a value of `length` bytes; the first name in a
 * structure stands without its point, as `lights[3].color.y`.
 * `names` is the source that the table was made of. */
wgsl_place wgsl_place_of(
    const wgsl_node *records, size_t count,
    const char *names, size_t names_length, size_t length,
    const char *path, size_t path_length);

/* A number, where `is_there` is not 0. */
typedef struct wgsl_number {
    uint64_t bits;
    uint32_t is_there;
    uint32_t spare;
} wgsl_number;

/* The bits of the number at a place of one number, the higher ones 0. It is not there where the place has none, or not all of
 * its bytes lie in the `length` bytes. Numbers are little-endian. */
wgsl_number wgsl_load(const uint8_t *bytes, size_t length, wgsl_place place);

/* Overwrites it. False, and nothing is changed, where it is not there, or the bits do not fit it. */
bool wgsl_store(uint8_t *bytes, size_t length, wgsl_place place, uint64_t bits);

/* The same for the numbers of a vector, all or none: `count` is how many there are. */
bool wgsl_load_vector(const uint8_t *bytes, size_t length, wgsl_place place, uint64_t *numbers, size_t count);
bool wgsl_store_vector(uint8_t *bytes, size_t length, wgsl_place place, const uint64_t *numbers, size_t count);

/* How many bytes a value of the record's type takes with so many elements in its runtime-sized array, up to the end of the
 * last: a structure that ends in one is not filled up to its alignment. */
wgsl_number wgsl_size_with(const wgsl_node *records, size_t count, uint32_t number, uint64_t elements);

/* How many elements that array has in so many bytes, as many as find room; 0 where there is no such array. It is not there
 * where the bytes are too few for a value, which has one element at least. */
wgsl_number wgsl_count_in(const wgsl_node *records, size_t count, uint32_t number, uint64_t length);

/* Where two tables differ first: the numbers of the two records, and the field: WGSL_SAME where they differ nowhere. Names are
 * not compared. `child` is told only where no other field of any record differs, and WGSL_DIFFERENT_RECORD only where no
 * `child` does either. */
typedef struct wgsl_difference {
    uint32_t of_first;
    uint32_t of_second;
    uint32_t what;
} wgsl_difference;

enum wgsl_difference_field {
    WGSL_SAME = 0,
    WGSL_DIFFERENT_SORT = 1,
    WGSL_DIFFERENT_KIND = 2,
    WGSL_DIFFERENT_OFFSET = 3,
    WGSL_DIFFERENT_SIZE = 4,
    WGSL_DIFFERENT_ALIGN = 5,
    WGSL_DIFFERENT_COUNT = 6,
    WGSL_DIFFERENT_STRIDE = 7,
    WGSL_DIFFERENT_CHILD = 8,
    WGSL_DIFFERENT_TAIL_START = 9,
    WGSL_DIFFERENT_TAIL_STRIDE = 10,
    /* One of the two has no such record. */
    WGSL_DIFFERENT_RECORD = 11
};

wgsl_difference wgsl_first_difference(
    const wgsl_node *first, size_t first_count,
    const wgsl_node *second, size_t second_count);

/* ---- Scripts ---- */

/* Runs a script of calls on a shader's memory, which begins empty and ends with the call: what `wgsl_run` prints on
 * standard output, a line for each line of the script that has a word. A line that is refused is answered so, and one whose
 * call wants memory too; the status is WGSL_OK all the same. Where memory is wanting outside of a call it is WGSL_MEMORY.
 * WGSL_REFUSED (WGSL_SCRIPT_TOO_LONG) where the script is too long. It may be any bytes. */
wgsl_answer wgsl_script(const char *script, size_t script_length, char *out, size_t room);

/* ---- The library ---- */

/* Its version, as `0.1.0`. */
wgsl_answer wgsl_version(char *out, size_t room);

#ifdef __cplusplus
}
#endif

#endif
