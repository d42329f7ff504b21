// Abstract integers in functions that have no overload for them: each takes them as an i32, or as a u32 where it takes u32
// alone, and refuses those that are none.
// Bit counts, by i32.
const leading_1 = countLeadingZeros(1); // i32 = 31i
const leading_0 = countLeadingZeros(0); // i32 = 32i
const leading_negative = countLeadingZeros(-1); // i32 = 0i
const leading_last = countLeadingZeros(2147483647); // i32 = 1i
const leading_beyond = countLeadingZeros(2147483648); // error: 2147483648 is no i32
const leading_first = countLeadingZeros(-2147483648); // i32 = 0i
const leading_before = countLeadingZeros(-2147483649); // error: -2147483649 is no i32
const leading_each = countLeadingZeros(vec3(1, 0, -1)); // vec3<i32> = vec3(31i, 32i, 0i)
const leading_each_beyond = countLeadingZeros(vec2(1, 2147483648)); // error: vec2(1, 2147483648) is no vec2<i32>
const leading_bits = 32 - countLeadingZeros(64 - 1); // i32 = 6i
const leading_u32 = countLeadingZeros(4294967295u); // u32 = 0u
const leading_typed: u32 = countLeadingZeros(1); // error: 31i is no u32
const leading_many = array<u32, countLeadingZeros(1)>(); // array<u32, 31> = array(0u, 0u, 0u, 0u, 0u, 0u, 0u, 0u, 0u, 0u, 0u, 0u, 0u, 0u, 0u, 0u, 0u, 0u, 0u, 0u, 0u, 0u, 0u, 0u, 0u, 0u, 0u, 0u, 0u, 0u, 0u)
const leading_index = array(5, 6, 7)[countLeadingZeros(1 << 30)]; // AbstractInt = 6
const ones_7 = countOneBits(7); // i32 = 3i
const ones_0 = countOneBits(0); // i32 = 0i
const ones_negative = countOneBits(-1); // i32 = 32i
const ones_last = countOneBits(2147483647); // i32 = 31i
const ones_beyond = countOneBits(2147483648); // error: 2147483648 is no i32
const ones_first = countOneBits(-2147483648); // i32 = 1i
const ones_before = countOneBits(-2147483649); // error: -2147483649 is no i32
const ones_each = countOneBits(vec2(7, -2)); // vec2<i32> = vec2(3i, 31i)
const ones_each_before = countOneBits(vec2(1, -2147483649)); // error: vec2(1, -2147483649) is no vec2<i32>
const ones_u32 = countOneBits(4294967295u); // u32 = 32u
const ones_hex = countOneBits(0xFFFFFFFF); // error: 4294967295 is no i32
const ones_guarded = false && (countOneBits(2147483648) == 1); // bool = false
const ones_reached = true && (countOneBits(2147483648) == 1); // error: 2147483648 is no i32
const ones_guarded_type = false && (countOneBits(7) == 3u); // error: no operator == for i32 and u32
const trailing_8 = countTrailingZeros(8); // i32 = 3i
const trailing_0 = countTrailingZeros(0); // i32 = 32i
const trailing_negative = countTrailingZeros(-8); // i32 = 3i
const trailing_last = countTrailingZeros(2147483647); // i32 = 0i
const trailing_beyond = countTrailingZeros(2147483648); // error: 2147483648 is no i32
const trailing_first = countTrailingZeros(-2147483648); // i32 = 31i
const trailing_before = countTrailingZeros(-2147483649); // error: -2147483649 is no i32
const trailing_each = countTrailingZeros(vec4(1, 0, 16, -2147483648)); // vec4<i32> = vec4(0i, 32i, 4i, 31i)
const trailing_each_beyond = countTrailingZeros(vec2(2147483648, 0)); // error: vec2(2147483648, 0) is no vec2<i32>
// The first and the last bit, by i32: of a negative one the first that is unlike the sign.
const first_8 = firstLeadingBit(8); // i32 = 3i
const first_0 = firstLeadingBit(0); // i32 = -1i
const first_negative = firstLeadingBit(-1); // i32 = -1i
const first_of_minus_2 = firstLeadingBit(-2); // i32 = 0i
const first_last = firstLeadingBit(2147483647); // i32 = 30i
const first_beyond = firstLeadingBit(2147483648); // error: 2147483648 is no i32
const first_first = firstLeadingBit(-2147483648); // i32 = 30i
const first_before = firstLeadingBit(-2147483649); // error: -2147483649 is no i32
const first_each = firstLeadingBit(vec3(1, 255, -256)); // vec3<i32> = vec3(0i, 7i, 7i)
const first_each_beyond = firstLeadingBit(vec3(1, 2, 2147483648)); // error: vec3(1, 2, 2147483648) is no vec3<i32>
const last_64 = firstTrailingBit(64); // i32 = 6i
const last_0 = firstTrailingBit(0); // i32 = -1i
const last_negative = firstTrailingBit(-1); // i32 = 0i
const last_last = firstTrailingBit(2147483647); // i32 = 0i
const last_beyond = firstTrailingBit(2147483648); // error: 2147483648 is no i32
const last_first = firstTrailingBit(-2147483648); // i32 = 31i
const last_before = firstTrailingBit(-2147483649); // error: -2147483649 is no i32
const last_each = firstTrailingBit(vec2(64, 0)); // vec2<i32> = vec2(6i, -1i)
const last_each_beyond = firstTrailingBit(vec2(64, -2147483649)); // error: vec2(64, -2147483649) is no vec2<i32>
const reversed_1 = reverseBits(1); // i32 = -2147483648i
const reversed_2 = reverseBits(2); // i32 = 1073741824i
const reversed_negative = reverseBits(-1); // i32 = -1i
const reversed_last = reverseBits(2147483647); // i32 = -2i
const reversed_beyond = reverseBits(2147483648); // error: 2147483648 is no i32
const reversed_first = reverseBits(-2147483648); // i32 = 1i
const reversed_before = reverseBits(-2147483649); // error: -2147483649 is no i32
const reversed_each = reverseBits(vec2(1, 2)); // vec2<i32> = vec2(-2147483648i, 1073741824i)
const reversed_each_beyond = reverseBits(vec2(1, 2147483648)); // error: vec2(1, 2147483648) is no vec2<i32>
// Fields of bits, by i32; the offset and the count are u32.
const field_240 = extractBits(240, 4, 4); // i32 = -1i
const field_112 = extractBits(112, 4, 4); // i32 = 7i
const field_none = extractBits(240, 4, 0); // i32 = 0i
const field_negative = extractBits(-16, 0, 5); // i32 = -16i
const field_last = extractBits(2147483647, 0, 32); // i32 = 2147483647i
const field_beyond = extractBits(2147483648, 0, 32); // error: 2147483648 is no i32
const field_first = extractBits(-2147483648, 31, 1); // i32 = -1i
const field_before = extractBits(-2147483649, 0, 32); // error: -2147483649 is no i32
const field_each = extractBits(vec2(240, 31), 4, 4); // vec2<i32> = vec2(-1i, 1i)
const field_each_beyond = extractBits(vec2(2147483648, 31), 4, 4); // error: vec2(2147483648, 31) is no vec2<i32>
const field_u32 = extractBits(240u, 4, 4); // u32 = 15u
const field_at_u32 = extractBits(240, 4u, 4u); // i32 = -1i
const field_at_i32 = extractBits(240, 4i, 4u); // error: an argument does not convert
const field_at_negative = extractBits(240, -1, 4); // error: -1 is no u32
const field_of_negative = extractBits(240, 4, -1); // error: -1 is no u32
const field_at_beyond = extractBits(240u, 4294967296, 4); // error: 4294967296 is no u32
const field_of_beyond = extractBits(240i, 4, 4294967296); // error: 4294967296 is no u32
const field_of_last = extractBits(240, 0, 4294967295); // i32 = 240i; warning: the standard refuses offset + count past 32
const field_at_last = extractBits(240u, 4294967295, 4294967295); // u32 = 0u; warning: the standard refuses offset + count past 32
const inserted_3 = insertBits(0, 3, 4, 2); // i32 = 48i
const inserted_none = insertBits(7, 0, 2, 0); // i32 = 7i
const inserted_negative = insertBits(-1, 0, 0, 4); // i32 = -16i
const inserted_negatives = insertBits(0, -1, 31, 1); // i32 = -2147483648i
const inserted_last = insertBits(2147483647, 0, 0, 1); // i32 = 2147483646i
const inserted_beyond = insertBits(2147483648, 0, 0, 1); // error: 2147483648 is no i32
const inserted_first = insertBits(-2147483648, 1, 0, 1); // i32 = -2147483647i
const inserted_before = insertBits(-2147483649, 1, 0, 1); // error: -2147483649 is no i32
const inserted_bits_last = insertBits(0, 2147483647, 0, 32); // i32 = 2147483647i
const inserted_bits_beyond = insertBits(0, 2147483648, 0, 1); // error: 2147483648 is no i32
const inserted_bits_first = insertBits(0, -2147483648, 0, 32); // i32 = -2147483648i
const inserted_bits_before = insertBits(0, -2147483649, 0, 1); // error: -2147483649 is no i32
const inserted_at_negative = insertBits(0, 3, -1, 2); // error: -1 is no u32
const inserted_of_negative = insertBits(0u, 3u, 4, -1); // error: -1 is no u32
const inserted_at_beyond = insertBits(0, 3, 4294967296, 2); // error: 4294967296 is no u32
const inserted_of_last = insertBits(0, 3, 0, 4294967295); // i32 = 3i; warning: the standard refuses offset + count past 32
const inserted_each = insertBits(vec2(0, 255), vec2(15, 0), 4, 4); // vec2<i32> = vec2(240i, 15i)
const inserted_each_beyond = insertBits(vec2(0, 2147483648), vec2(15, 0), 4, 4); // error: vec2(0, 2147483648) is no vec2<i32>
// Where one of the two is concrete, both are of its type.
const inserted_in_u32 = insertBits(1u, 2, 4, 2); // u32 = 33u
const inserted_u32 = insertBits(4294967295, 0u, 0, 4); // u32 = 4294967280u
const inserted_i32 = insertBits(0, 1i, 0, 1); // i32 = 1i
const inserted_in_each_u32 = insertBits(vec2(0u, 255u), vec2(15, 0), 4, 4); // vec2<u32> = vec2(240u, 15u)
const inserted_unequal = insertBits(0u, 1i, 0, 1); // error: the arguments have no common type
const inserted_negative_in_u32 = insertBits(0u, -1, 0, 1); // error: the arguments have no common type
const inserted_beyond_i32 = insertBits(2147483648, 1i, 0, 1); // error: the arguments have no common type
// Bits as another type, by i32.
const bits_7 = bitcast<i32>(7); // i32 = 7i
const bits_negative = bitcast<i32>(-1); // i32 = -1i
const bits_of_negative = bitcast<u32>(-1); // u32 = 4294967295u
const bits_last = bitcast<u32>(2147483647); // u32 = 2147483647u
const bits_beyond = bitcast<u32>(2147483648); // error: 2147483648 is no i32
const bits_beyond_i32 = bitcast<i32>(2147483648); // error: 2147483648 is no i32
const bits_first = bitcast<u32>(-2147483648); // u32 = 2147483648u
const bits_before = bitcast<u32>(-2147483649); // error: -2147483649 is no i32
const bits_before_i32 = bitcast<i32>(-2147483649); // error: -2147483649 is no i32
const bits_each = bitcast<vec2<u32>>(vec2(-1, 2)); // vec2<u32> = vec2(4294967295u, 2u)
const bits_each_i32 = bitcast<vec2i>(vec2(-1, 2)); // vec2<i32> = vec2(-1i, 2i)
const bits_each_beyond = bitcast<vec2<u32>>(vec2(0, 2147483648)); // error: vec2(0, 2147483648) is no vec2<i32>
const bits_unequal = bitcast<u32>(vec2(1, 2)); // error: the arguments have unequal sizes
// Packing, by four i32 or four u32.
const packed_i8 = pack4xI8(vec4(1, 2, 3, -1)); // u32 = 4278387201u
const packed_i8_last = pack4xI8(vec4(2147483647, -2147483648, 0, 128)); // u32 = 2147483903u
const packed_i8_beyond = pack4xI8(vec4(1, 2, 3, 2147483648)); // error: vec4(1, 2, 3, 2147483648) is no vec4<i32>
const packed_i8_of_one = pack4xI8(1); // error: 1 is no vec4<i32>
const packed_i8_before = pack4xI8(vec4(-2147483649, 2, 3, 4)); // error: vec4(-2147483649, 2, 3, 4) is no vec4<i32>
const packed_u8 = pack4xU8(vec4(1, 2, 3, 4)); // u32 = 67305985u
const packed_u8_last = pack4xU8(vec4(4294967295, 256, 0, 1)); // u32 = 16777471u
const packed_u8_beyond = pack4xU8(vec4(4294967296, 0, 0, 0)); // error: vec4(4294967296, 0, 0, 0) is no vec4<u32>
const packed_u8_before = pack4xU8(vec4(1, 2, 3, -1)); // error: vec4(1, 2, 3, -1) is no vec4<u32>
const clamped_i8 = pack4xI8Clamp(vec4(1, 2, 3, 400)); // u32 = 2130903553u
const clamped_i8_last = pack4xI8Clamp(vec4(-2147483648, 2147483647, -1, 5)); // u32 = 100630400u
const clamped_i8_beyond = pack4xI8Clamp(vec4(0, 2147483648, 0, 0)); // error: vec4(0, 2147483648, 0, 0) is no vec4<i32>
const clamped_i8_before = pack4xI8Clamp(vec4(0, 0, -2147483649, 0)); // error: vec4(0, 0, -2147483649, 0) is no vec4<i32>
const clamped_u8 = pack4xU8Clamp(vec4(1, 2, 3, 400)); // u32 = 4278387201u
const clamped_u8_last = pack4xU8Clamp(vec4(0, 255, 256, 4294967295)); // u32 = 4294967040u
const clamped_u8_beyond = pack4xU8Clamp(vec4(0, 0, 0, 4294967296)); // error: vec4(0, 0, 0, 4294967296) is no vec4<u32>
const clamped_u8_before = pack4xU8Clamp(vec4(-1, 0, 0, 0)); // error: vec4(-1, 0, 0, 0) is no vec4<u32>
// Unpacking and sums of products of bytes, by u32.
const unpacked_i8 = unpack4xI8(67305985); // vec4<i32> = vec4(1i, 2i, 3i, 4i)
const unpacked_i8_low = unpack4xI8(128); // vec4<i32> = vec4(-128i, 0i, 0i, 0i)
const unpacked_i8_last = unpack4xI8(4294967295); // vec4<i32> = vec4(-1i, -1i, -1i, -1i)
const unpacked_i8_beyond = unpack4xI8(4294967296); // error: 4294967296 is no u32
const unpacked_i8_first = unpack4xI8(0); // vec4<i32> = vec4(0i, 0i, 0i, 0i)
const unpacked_i8_before = unpack4xI8(-1); // error: -1 is no u32
const unpacked_u8 = unpack4xU8(67305985); // vec4<u32> = vec4(1u, 2u, 3u, 4u)
const unpacked_u8_last = unpack4xU8(4294967295); // vec4<u32> = vec4(255u, 255u, 255u, 255u)
const unpacked_u8_beyond = unpack4xU8(4294967296); // error: 4294967296 is no u32
const unpacked_u8_of_two = unpack4xU8(vec2(1, 2)); // error: vec2(1, 2) is no u32
const unpacked_u8_first = unpack4xU8(0); // vec4<u32> = vec4(0u, 0u, 0u, 0u)
const unpacked_u8_before = unpack4xU8(-1); // error: -1 is no u32
const products_u8 = dot4U8Packed(67305985, 16843009); // u32 = 10u
const products_u8_last = dot4U8Packed(4294967295, 4294967295); // u32 = 260100u
const products_u8_mixed = dot4U8Packed(16909060u, 1); // u32 = 4u
const products_u8_beyond = dot4U8Packed(1, 4294967296); // error: 4294967296 is no u32
const products_u8_before = dot4U8Packed(-1, 1); // error: -1 is no u32
const products_i8 = dot4I8Packed(255, 2); // i32 = -2i
const products_i8_low = dot4I8Packed(128, 128); // i32 = 16384i
const products_i8_last = dot4I8Packed(4294967295, 4294967295); // i32 = 4i
const products_i8_beyond = dot4I8Packed(4294967296, 1); // error: 4294967296 is no u32
const products_i8_before = dot4I8Packed(255, -2); // error: -2 is no u32
const products_i8_of_i32 = dot4I8Packed(255, 2i); // error: an argument does not convert
// Functions that have overloads for abstract integers.
const of_abs = abs(-4294967295); // AbstractInt = 4294967295
const of_sign = sign(-4294967295); // AbstractInt = -1
const of_min = min(-1, 4294967296); // AbstractInt = -1
const of_max = max(-1, 4294967296); // AbstractInt = 4294967296
const of_clamp = clamp(4294967297, 0, 4294967296); // AbstractInt = 4294967296
const of_dot = dot(vec2(65536, 1), vec2(65536, 1)); // AbstractInt = 4294967297
const of_select = select(1, 4294967296, true); // AbstractInt = 4294967296
