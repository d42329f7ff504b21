#[repr(C)]
#[derive(Clone, Copy)]
pub struct DrawArguments {
    pub vertex_count: u32,
    pub instance_count: u32,
    pub first_vertex: u32,
    pub first_instance: u32,
}
const _: () = assert!(core::mem::offset_of!(DrawArguments, vertex_count) == 0);
const _: () = assert!(core::mem::offset_of!(DrawArguments, instance_count) == 4);
const _: () = assert!(core::mem::offset_of!(DrawArguments, first_vertex) == 8);
const _: () = assert!(core::mem::offset_of!(DrawArguments, first_instance) == 12);
const _: () = assert!(core::mem::size_of::<DrawArguments>() == 16);

// with n elements at its end: size 16 + 16 * n
#[repr(C)]
#[derive(Clone, Copy)]
pub struct Draws {
    pub count: u32,
    pub overflow: i32,
    pub _padding1: [u8; 8],
    pub arguments: [DrawArguments; 1], // the first of its elements
}
const _: () = assert!(core::mem::offset_of!(Draws, count) == 0);
const _: () = assert!(core::mem::offset_of!(Draws, overflow) == 4);
const _: () = assert!(core::mem::offset_of!(Draws, arguments) == 16);

#[repr(C)]
#[derive(Clone, Copy)]
pub struct Counter {
    pub total: u64,
    pub _padding0: [u8; 8],
    pub bounds: [i64; 2],
    pub last: i32,
    pub _padding2: [u8; 12],
}
const _: () = assert!(core::mem::offset_of!(Counter, total) == 0);
const _: () = assert!(core::mem::offset_of!(Counter, bounds) == 16);
const _: () = assert!(core::mem::offset_of!(Counter, last) == 32);
const _: () = assert!(core::mem::size_of::<Counter>() == 48);
