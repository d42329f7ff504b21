// What is refused of counts, attributes and forms, and what is laid out beside it.

const ZERO = 2 - 2;
override size = 4;

struct Kept { a: u32 }

struct Negative { a: array<u32, 1 - 2> }
struct Empty { a: array<u32, ZERO> }
struct Many { a: array<u32, 4294967296> }
struct Bools { a: array<u32, true> }
struct Divided { a: array<u32, 1 / 0> }
struct Mixed { a: array<u32, min(1i, 2u)> }
struct Typed { a: array<u32, Kept> }
alias Inner = array<u32, VECTOR.w>;
alias Outer = array<Inner, 2>;
const VECTOR = vec3(1, 2, 3);

// A pipeline gives the one count, and the other is a float: no fault is told.
struct Overridden { a: array<u32, size> }
struct Floating { a: array<u32, 2.0> }

struct Sized { @size(2 + 1) a: u32 }
struct Aligned { @align(2 * 3) a: u32 }
struct Attributed { @size(size) a: u32 }
@group(0 - 1) @binding(0) var<storage> negative: Kept;
@group(0) @binding(4294967296) var<storage> many: Kept;
@group(0) @binding(size) var<storage> overridden: Kept;
@group(Kept) @binding(0) var<storage> typed: Kept;
@group(0) @binding(0) var<storage> narrow: array<Narrow, 2>;
struct Narrow { @align(2) a: u32 }

// At one place the form is first.
alias Again = array<Again<u32>, 2>;

struct Twice { a: u32, a: i32 }

struct Broken { a: }
@group(1) @binding(1) var<uniform> behind_member: u32;

const BROKEN = 1
@group(1) @binding(2) var<uniform> behind_value: u32;

struct Unclosed {
    a: u32,
@group(1) @binding(3) var<uniform> behind_structure: u32;
