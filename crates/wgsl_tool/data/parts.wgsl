const next = array<u32, 4>(2u, 0u, 3u, 1u); // array<u32, 4> = array(2u, 0u, 3u, 1u)
const first = next[0]; // u32 = 2u
const second = next[next[0]]; // u32 = 3u
const third = next[next[next[0]]]; // u32 = 1u
const sum = next[next[1] + next[3]]; // u32 = 0u
const shifted = next[(7 << 1) & 3]; // u32 = 3u
const less = next[3] < next[2]; // bool = true
const behind = next[4]; // error: no element 4 in array<u32, 4>, which has 4
const far_behind = next[next[2] + next[3]]; // error: no element 4 in array<u32, 4>, which has 4
const before = next[0 - 1]; // error: no element -1
const by_bool = next[true]; // error: an index is an integer
const by_itself = next[next]; // error: an index is an integer
const no_member = next.first; // error: array<u32, 4> has no member first
const guarded = false && (next[9] == 0u); // bool = false
const again = next; // array<u32, 4> = array(2u, 0u, 3u, 1u)
const both = array(next, again)[1][2]; // u32 = 3u
const rows = array(next, array<u32, 4>(), again); // array<array<u32, 4>, 3> = array(array(2u, 0u, 3u, 1u), array(0u, 0u, 0u, 0u), array(2u, 0u, 3u, 1u))
const row = rows[0]; // array<u32, 4> = array(2u, 0u, 3u, 1u)
const of_row = rows[next[1]][next[3]]; // u32 = 0u
const place = vec4<i32>(10, 20, 30, 40); // vec4<i32> = vec4(10i, 20i, 30i, 40i)
const z = place.z; // i32 = 30i
const turned = place.wx; // vec2<i32> = vec2(40i, 10i)
const turned_twice = place.wzyx.zy; // vec2<i32> = vec2(20i, 30i)
const added = place + place.xxxx; // vec4<i32> = vec4(20i, 30i, 40i, 50i)
const last = place[3]; // i32 = 40i
const no_letter = place.q; // error: components are named by xyzw or by rgba
struct Inner { cells: array<u32, 4>, place: vec4<i32> }
struct Outer { inner: Inner, count: i32 }
const inner = Inner(next, place); // Inner = Inner(array(2u, 0u, 3u, 1u), vec4(10i, 20i, 30i, 40i))
const outer = Outer(inner, 7); // Outer = Outer(Inner(array(2u, 0u, 3u, 1u), vec4(10i, 20i, 30i, 40i)), 7i)
const cell = outer.inner.cells[2]; // u32 = 3u
const y = outer.inner.place.y; // i32 = 20i
const count = outer.count; // i32 = 7i
const of_inner = inner.cells[outer.inner.cells[3]]; // u32 = 0u
const no_such = outer.cells; // error: Outer has no member cells
const whole = outer.inner; // Inner = Inner(array(2u, 0u, 3u, 1u), vec4(10i, 20i, 30i, 40i))
