// Declarations of every kind: attributes, address spaces, and types by their names.

enable f16;

struct Pair { a: u32, b: vec3<u32>, };
struct First { x: f32 }
struct Four { a: array<First, 4> }
struct Outer { a: Inner }
struct Inner { x: f32 }

struct Filled { @align(16) @size(32) a: u32 }
struct Behind { @size(12) a: vec3<u32>, @size(13,) b: vec3<u32> }
struct Fragment { @builtin(position) a: vec4f, @location(0) b: vec2h }

alias Direction = vec3<f32>;
struct Named { v: Direction }
const COUNT = 4;
struct Counted { a: array<u32, COUNT> }
struct Late { a: array<u32, N * 2> }
const N = M + 1;
const M = 3;

struct Atomics { a: atomic<u32>, b: array<atomic<i32>> }
struct Open { a: array<vec2<u32>>}

// No host sees an alignment that is less than that of the type.
struct Narrow { @align(2) a: u32 }
struct Holder { s: Narrow }
var<private> held: Holder;
struct Wide { @align(8) a: u32 }
@group(2) @binding(2) var<storage> wide: Wide;

@group(0) @binding(1) var<storage, read_write> data: array<u32>;
@group(2) @binding(3) var<uniform> small: mat2x2h;
var<private> kept: i32 = 1;

const WORDS: u32 = 2 + 3 * 4;
alias Words = array<i32, WORDS * 2>;
@group(1) @binding(0) var<storage> words: Words;
alias Rows = array<vec4<f32>>;
@group(1) @binding(1) var<storage> rows: Rows;
alias Boxes = array<array<mat4x3<f32>, 2>, 3>;
@group(1) @binding(2) var<storage> boxes: Boxes;
alias mat = mat2x3h;
alias v = vec4u;
alias w = vec2<i32,>;
@group(1) @binding(3) var<storage> halves: mat;
@group(1) @binding(4) var<uniform> four: v;
@group(1) @binding(5) var<storage> two: w;

struct Δέλτα { réflexion: u32 }
alias 朝焼け = Δέλτα;
@group(1) @binding(6) var<storage> dawn: 朝焼け;

const FIVE = 2 + 3;
alias Row = array<vec4<f32>, FIVE>;
struct Grid { @size(8) a: u32, @align(16) rows: array<Row, 2> }
@group(1) @binding(7) var<storage, read_write> grids: array<Grid>;

// What has no layout here.
override size: u32 = 3;
override factor: f32;
var<workgroup> row: array<f32, size>;
struct Overridden { a: array<u32, size>, }
@group(2) @binding(0) var image: texture_2d<f32>;
@group(2) @binding(1) var nearest: sampler;
fn f(a: i32) -> i32 { if (a < 1) { return 2; } return a; }
