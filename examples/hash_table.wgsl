// A hash table in storage memory, which many invocations fill at once: slots are taken by their keys.

const SLOTS: u32 = 1u << 4u;
const EMPTY: u32 = 0xffffffffu;
const PROBES = SLOTS / 4;

const_assert countOneBits(SLOTS) == 1;
const_assert PROBES < 1 << 8;

struct Slot {
    key: atomic<u32>,
    count: atomic<u32>,
    first: vec2<i32>,
}

struct Table {
    used: atomic<u32>,
    failed: atomic<u32>,
    @align(16) slots: array<Slot, SLOTS>,
}

struct Entry { key: u32, value: vec3<f32>, }

@group(0) @binding(0) var<storage, read_write> table: Table;
@group(0) @binding(1) var<storage, read> entries: array<Entry>;
@group(0) @binding(2) var<uniform> seed: vec4<u32>;

fn hash(key: u32) -> u32 {
    let mixed = (key ^ seed.x) * 0x9e3779b1u;
    return (mixed >> 16u) % SLOTS;
}

@compute @workgroup_size(64)
fn insert(@builtin(global_invocation_id) id: vec3<u32>) {
    if id.x >= arrayLength(&entries) { return; }
    let key = entries[id.x].key;
    for (var i = 0u; i < PROBES; i++) {
        let slot = (hash(key) + i) % SLOTS;
        let found = atomicCompareExchangeWeak(&table.slots[slot].key, EMPTY, key);
        if found.exchanged || found.old_value == key {
            atomicAdd(&table.slots[slot].count, 1u);
            return;
        }
    }
    atomicAdd(&table.failed, 1u);
}
