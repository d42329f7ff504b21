#[repr(C)]
#[derive(Clone, Copy)]
pub struct Range {
    pub first: u32,
    pub count: u32,
}
const _: () = assert!(core::mem::offset_of!(Range, first) == 0);
const _: () = assert!(core::mem::offset_of!(Range, count) == 4);
const _: () = assert!(core::mem::size_of::<Range>() == 8);

// with n elements at its end: size 112 + 4 * n
#[repr(C)]
#[derive(Clone, Copy)]
pub struct Blocks {
    pub ranges: [Range; 10],
    pub depth: u32,
    pub _padding1: [u8; 28],
    pub ends: [u32; 1], // the first of its elements
}
const _: () = assert!(core::mem::offset_of!(Blocks, ranges) == 0);
const _: () = assert!(core::mem::offset_of!(Blocks, depth) == 80);
const _: () = assert!(core::mem::offset_of!(Blocks, ends) == 112);
