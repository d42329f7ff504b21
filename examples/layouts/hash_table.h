#include <assert.h>
#include <stddef.h>
#include <stdint.h>

typedef struct Slot {
    uint32_t key;
    uint32_t count;
    int32_t first[2];
} Slot;
static_assert(offsetof(Slot, key) == 0, "Slot.key");
static_assert(offsetof(Slot, count) == 4, "Slot.count");
static_assert(offsetof(Slot, first) == 8, "Slot.first");
static_assert(sizeof(Slot) == 16, "Slot");

typedef struct Table {
    uint32_t used;
    uint32_t failed;
    uint8_t _padding1[8];
    Slot slots[16];
} Table;
static_assert(offsetof(Table, used) == 0, "Table.used");
static_assert(offsetof(Table, failed) == 4, "Table.failed");
static_assert(offsetof(Table, slots) == 16, "Table.slots");
static_assert(sizeof(Table) == 272, "Table");

typedef struct Entry {
    uint32_t key;
    uint8_t _padding0[12];
    float value[3];
    uint8_t _padding1[4];
} Entry;
static_assert(offsetof(Entry, key) == 0, "Entry.key");
static_assert(offsetof(Entry, value) == 16, "Entry.value");
static_assert(sizeof(Entry) == 32, "Entry");
