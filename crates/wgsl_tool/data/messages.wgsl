// Faults name what they speak of.
const width_of_tile = 4; // AbstractInt = 4
const n1 = vec3u2(1); // error: nothing is named vec3u2; did you mean vec3u?
const n2 = countOneBit(1); // error: nothing is named countOneBit; did you mean countOneBits?
const n3 = width_of_tiles + 1; // error: nothing is named width_of_tiles; did you mean width_of_tile?
const n4: u33 = 1; // error: nothing is named u33; did you mean u32?
const n5 = nowhere_near_any_of_these; // error: nothing is named nowhere_near_any_of_these
alias N6 = aray<u32, 2>; // error: nothing is named aray; did you mean array?
const n7 = tru; // error: nothing is named tru; did you mean true?
const o1 = 1 == true; // error: no operator == for AbstractInt and bool: 1 == true
const o2 = 1 != true; // error: no operator != for AbstractInt and bool: 1 != true
const o3 = 1u <= 1i; // error: no operator <= for u32 and i32: 1u <= 1i
const o4 = 1u >= 1i; // error: no operator >= for u32 and i32: 1u >= 1i
const o5 = 1 && true; // error: no operator && for AbstractInt and bool: 1 && true
const o6 = false || 1; // error: no operator || for bool and AbstractInt: false || 1
const o7 = true << 1u; // error: no operator << for bool and u32: true << 1u
const o8 = true >> 1u; // error: no operator >> for bool and u32: true >> 1u
struct Three {
    @align(3) a: u32, // error: alignment 3 is no power of two
    b: nope, // error: nothing is named nope
    @size(1) c: u32, // error: size 1 is less than 4, that of the type
    d: u32, // ok
    @align(width_of_tile) @size(u32(1.5)) e: u32, // ok
    f: array<u32, 0>, // error: a count is from 1 to 4294967295
}
struct Floats {
    a: array<u32, u32(2.5)>, // ok
    @align(0) b: u32, // error: alignment 0 is no power of two
}
