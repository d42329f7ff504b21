// Order, type annotations, cycles, assertions, and what is passed over.
const late = early + 1; // AbstractInt = 3
const early = 2; // AbstractInt = 2
const chain3 = chain2 * 2; // AbstractInt = 8
const chain2 = chain1 * 2; // AbstractInt = 4
const chain1 = 2; // AbstractInt = 2
const typed: u32 = 1; // u32 = 1u
const typed_int: i32 = -1; // i32 = -1i
const typed_bool: bool = true; // bool = true
const narrow: u32 = -1; // error: -1 is no u32
const wide: i32 = 2147483648; // error: 2147483648 is no i32
const other: u32 = 1i; // error: 1i is no u32
const number: bool = 1; // error: 1 is no bool
const same: u32 = 4u; // u32 = 4u
const vector: vec3<u32> = vec3(1, 2, 3); // vec3<u32> = vec3(1u, 2u, 3u)
const vector_too: vec3u = vec3(1, 2, 3); // vec3<u32> = vec3(1u, 2u, 3u)
const no_vector: vec3<u32> = vec2(1, 2); // error: vec2(1, 2) is no vec3<u32>
const lost: vec2<u32> = vec2(1, -2); // error: vec2(1, -2) is no vec2<u32>
const table: array<u32, 3> = array(1, 2, 3); // array<u32, 3> = array(1u, 2u, 3u)
const no_table: array<u32, 2> = array(1, 2, 3); // error: this value is no array<u32, 2>
const sized: array<i32, early> = array(5, 6); // array<i32, 2> = array(5i, 6i)
const by_alias: Id = 9; // u32 = 9u
const floating: f32 = 1; // not evaluated: needs floats, `1`
const of_floating = floating + 1; // not evaluated: needs floats, `floating`
const not_type: early = 1; // error: this is no type
const no_such: foo = 1; // error: nothing is named foo
const no_such_either: foo = 1.5; // error: nothing is named foo
alias Id = u32;
alias Deep = array<Point, 2>;
struct Point { x: i32, y: i32 }
const point = Point(1, 2); // Point = Point(1i, 2i)
const points: Deep = array(point, Point()); // array<Point, 2> = array(Point(1i, 2i), Point(0i, 0i))
const third = table[2]; // u32 = 3u
const y_of = points[0].y; // i32 = 2i
const unknown = missing + 1; // error: nothing is named missing
const names_unknown = unknown + 1; // nothing
const names_itself = names_itself + 1; // error: this needs itself
const round = trip; // nothing
const trip = round; // error: this needs itself
const behind_round = round + 1; // nothing
const twice = 1; // AbstractInt = 1
const twice = 2; // error: this name is there already
override given = 3; // none
override asked: u32; // none
override of_given = given + 1; // none
override of_floats: f32 = 1.5; // none
override unknown_type: foo; // error: nothing is named foo
override no_type: u32 == 1; // error: a type stands where a value belongs
override unknown_value = missing; // error: nothing is named missing
override not_unsigned: u32 = -1; // error: -1 is no u32
override neither; // error: an override needs a type or a value
const of_override = given + 1; // not evaluated: needs an override, `given`
var<private> state: i32 = 1;
const of_variable = state; // not evaluated: needs a variable, `state`
fn f(a: i32) -> i32 { return a; }
const of_function = f(1); // not evaluated: needs a function of the module, `f`
const named_function = f; // not evaluated: needs a function of the module, `f`
const called = early(1); // error: this is no type and no function
const generic = Id<u32>(1); // error: this takes no template list
const min = 5; // AbstractInt = 5
const hides = min + 1; // AbstractInt = 6
const_assert early == 2; // ok
const_assert late < 2; // error: this is asserted and false
const_assert late; // error: what is asserted is no bool
const_assert(late > 2 && typed == 1u); // ok
const_assert missing == 1; // error: nothing is named missing
const_assert floating == 1.0; // ok
const_assert 1 / 0 == 1; // error: division by zero
struct Same { a: u32, a: i32 } // error: another member has this name
struct Ring { r: Ring } // error: this needs itself
struct Part { a: u33 } // error: nothing is named u33
const of_part = Part(1); // nothing
struct Attributed { @align(16) @size(early * 16) a: u32, b: u32 }
const attributed = Attributed(1, 2); // Attributed = Attributed(1u, 2u)
alias Smp = sampler;
alias Tex = texture_2d<f32>;
struct Held { t: Tex }
const of_texture = Held(1); // not evaluated: needs a type without constants, `Held`
enable f16;
const last = late + early; // AbstractInt = 5
