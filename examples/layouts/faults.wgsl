// What is wrong here is told, and the rest is laid out.

struct Good {
    a: u32,
    b: vec2f,
}

struct Bad {
    a: Missing,
}

struct Loop {
    a: array<Loop, 2>,
}

const ZERO = 4 / (2 - 2);

struct Needs {
    bad: Bad,
}

struct Tabbed {
	a: vec5u,
}

struct Good { c: u32 }

var<uniform> good: Good
