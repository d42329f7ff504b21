// Types by their names, counts of elements, attributes, and variables.

enable f16;

// Integers and bools.
const fourteen: u32 = 2 + 3 * 4; // u32 = 14u
const n1 = 2 + 3 * 4 - 6 / 2; // AbstractInt = 11
const n2 = -2 * 3 + 10 % 4; // AbstractInt = -4
const n3 = 2 * 3 % 4; // AbstractInt = 2
const n4 = 8 / 2 / 2; // AbstractInt = 2
const n5 = 1 - 2 - 3; // AbstractInt = -4
const n6 = 2 * (3 % 4); // AbstractInt = 6
const n7 = 8 / (2 / 2); // AbstractInt = 8
const n8 = 1 - (2 - 3); // AbstractInt = 2
const n9 = (2 + 3) * 4 - 1; // AbstractInt = 19
const n10 = 7 / 2 % 2; // AbstractInt = 1
const n11 = -3 - -4; // AbstractInt = 1
const n12 = 2 + 3 < 3 * 2; // bool = true
const n13 = 1 + 2 == 3 && 4 != 5; // bool = true
const n14 = !true || 1 >= 2; // bool = false
const n15 = ~1u & 0xFu; // u32 = 14u
const n16 = 6u ^ 5u; // u32 = 3u
const n17 = 1u << 2u; // u32 = 4u
const n18 = -9 >> 1u; // AbstractInt = -5
const n19 = 0x1Fu & 0x18u; // u32 = 24u
const n20 = - - 3; // AbstractInt = 3
const n21 = !!false; // bool = false
const n22 = ~~5i; // i32 = 5i
const n23 = -(-2147483647i - 1i); // i32 = -2147483648i
const n24 = 7i; // i32 = 7i
const n26 = 0u; // u32 = 0u
const n27 = 0X00ffu; // u32 = 255u
const n28 = 0xABCDEFi; // i32 = 11259375i
const is_less = 1 < 2; // bool = true
const chosen = select(1, 2, is_less); // AbstractInt = 2
const of_chosen = chosen + 1; // AbstractInt = 3
// Floats.
const f1 = 3.14; // not evaluated: needs floats, `3.14`
const f2 = 0x1p4; // not evaluated: needs floats, `0x1p4`
const f3 = 0h; // not evaluated: needs floats, `0h`
const f4 = .5; // not evaluated: needs floats, `.5`
const f5 = 1.e-3f; // not evaluated: needs floats, `1.e-3f`
const f6 = 0x.8p+1h; // not evaluated: needs floats, `0x.8p+1h`
// Types that a value shows.
alias Bools = vec2<bool>;
const bools = Bools(); // vec2<bool> = vec2(false, false)
alias Two = vec2<i32,>;
const two = Two(); // vec2<i32> = vec2(0i, 0i)
alias Grid = array<array<u32, (16 >> 2)>, 1 + 1>;
const grid = Grid(); // array<array<u32, 4>, 2> = array(array(0u, 0u, 0u, 0u), array(0u, 0u, 0u, 0u))
const three = 3; // AbstractInt = 3
alias Chosen = array<u32, select(4, 5, three < 4 && three >= 2)>;
const elements = Chosen(); // array<u32, 5> = array(0u, 0u, 0u, 0u, 0u)
const is_below = three < 4; // bool = true
const_assert 1 < 2; // ok
// What is no constant.
override factor: f32; // none
@id(7) override count: u32; // none
const of_count = count + 1; // not evaluated: needs an override, `count`
struct Overridden { a: array<u32, count>, } // ok
const overridden = Overridden(); // not evaluated: needs an override, `Overridden`
override width = 4; // none
var<workgroup> shared_row: array<f32, width>; // ok
alias Doubled = array<u32, width * 2>; // ok
const doubled = Doubled(); // not evaluated: needs an override, `Doubled`
override below: u32 = -1; // error: -1 is no u32
@group(0) @binding(0) var image: texture_2d<f32>; // ok
var nearest: sampler; // ok
const of_image = image; // not evaluated: needs a type without constants, `image`
const of_nearest = nearest; // not evaluated: needs a type without constants, `nearest`
fn limited(a: i32) -> i32 { if (a < 1) { return 2; } return a; }
const behind_limited = 1; // AbstractInt = 1
// Faults of attributes and variables.
struct ByThree { @align(3) a: u32 } // error: alignment 3 is no power of two
struct ByZero { @align(0) a: u32 } // error: alignment 0 is no power of two
struct ByNegative { @align(-4) a: u32 } // error: an attribute is from 0 to 4294967295
struct OfNegative { @size(-4) a: u32 } // error: an attribute is from 0 to 4294967295
struct Short { @size(2) a: u32 } // error: size 2 is less than 4, that of the type
struct Open { n: u32, @size(64) a: array<u32> } // error: size 64 stands before a type without a fixed size
struct ByType { @align(u32) a: u32 } // error: a type stands where a value belongs
struct OfWidth { @size(width) a: u32 } // error: an attribute is a constant
struct Slim { @align(2) a: u32 } // ok
@group(0) @binding(1) var<storage> slim: array<Slim, 2>; // error: a member needs another alignment
var<uniform> of_value: 4; // error: this is no type
// Faults of types.
struct Left { b: Right }
struct Right { a: Left } // error: this needs itself
struct Looped { a: Loops }
alias Loops = array<Looped, 2>; // error: this needs itself
struct OfThree { a: three } // error: this is no type
alias OfBools = vec2<Bools>; // error: this is no type of a component here
alias OfFloats = atomic<f32>; // error: this is no type of a component here
alias Zero = array<u32, 0>; // error: a count is from 1 to 4294967295
alias Negative = array<u32, -1>; // error: a count is from 1 to 4294967295
alias Many = array<u32, 4294967296>; // error: a count is from 1 to 4294967295
alias Typed = array<u32, i32>; // error: a type stands where a value belongs
alias Bare = vec3; // error: this type takes a template list
alias OfNumber = array<3>; // error: this is no type
alias Three = 3; // error: this is no type
struct OfAlias { a: Three } // ok
const of_alias = OfAlias(); // nothing
struct Lines {
    a: u32,
    b: é, // error: nothing is named é
}
struct A { a: vec2u, b: vec2u, c: vec2u, d: vec2u } // ok
struct B { a: A, b: A, c: A, d: A, e: A, f: A, g: A, h: A } // ok
struct C { a: B, b: B, c: B, d: B, e: B, f: B, g: B, h: B } // ok
struct D { a: C, b: C, c: C, d: C, e: C, f: C, g: C, h: C } // error: this type has too many parts
// Faults of numbers.
const shifted = 1u >> 32u; // error: 1u has no 32 bits: 1u >> 32u
const lost = 0x1FFu << 24u; // error: bits are shifted out: 511u << 24u
const rest = 7 % 0; // error: division by zero: 7 % 0
const divided = 1 / 0; // error: division by zero: 1 / 0
const by_zero = fourteen / 0; // error: division by zero: 14u / 0
const mixed = 1i + 1u; // error: no operator + for i32 and u32
const digits = 0x; // error: 0x is no number
const letters = 12ab; // error: 12ab is no number
const octal = 012; // error: 012 is no number
const number = u32; // error: a type stands where a value belongs
const of_number = number; // nothing
const above: i32 = 2147483648; // error: 2147483648 is no i32
const of_above = above + 1; // nothing
