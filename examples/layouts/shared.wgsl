// What a shader and its host may not share, a fault a line.

struct Flags { on: bool, count: u32 }
struct Nested { flags: array<Flags, 2> }
struct Counter { all: atomic<u32>, each: array<atomic<i32>, 4> }
struct Early { first: array<u32>, last: u32 }
struct Tail { count: u32, items: array<u32> }
struct Around { tail: Tail }
struct Wrong { a: vec4<f32>, b: array<array<u32>, 2> }
struct Sound { a: vec4<f32>, b: u32 }

@group(0) @binding(0) var<storage, read> flags: Nested;
@group(0) @binding(1) var<uniform> on: vec2<bool>;
@group(0) @binding(2) var<storage> counter: Counter;
@group(0) @binding(3) var<storage, read> bins: array<atomic<u32>>;
@group(0) @binding(4) var<storage, write> written: Sound;
@group(0) @binding(5) var<uniform, read> read: Sound;
@binding(6) var<storage> nowhere: Sound;
@group(0) var<uniform> unbound: Sound;
@group(0) @binding(7) var<private> own: u32;
@group(0) @binding(8) var<uniform> open: Tail;
@group(0) @binding(9) var<uniform> atomics: Counter;
@group(0) @binding(10) var<storage, read_write> tails: array<Tail>;
var<workgroup> row: array<u32>;
var<workgroup> fine: Counter;
@group(0) @binding(11) var<storage, read_write> good: Tail;
