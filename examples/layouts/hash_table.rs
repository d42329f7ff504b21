#[repr(C)]
#[derive(Clone, Copy)]
pub struct Slot {
    pub key: u32,
    pub count: u32,
    pub first: [i32; 2],
}
const _: () = assert!(core::mem::offset_of!(Slot, key) == 0);
const _: () = assert!(core::mem::offset_of!(Slot, count) == 4);
const _: () = assert!(core::mem::offset_of!(Slot, first) == 8);
const _: () = assert!(core::mem::size_of::<Slot>() == 16);

#[repr(C)]
#[derive(Clone, Copy)]
pub struct Table {
    pub used: u32,
    pub failed: u32,
    pub _padding1: [u8; 8],
    pub slots: [Slot; 16],
}
const _: () = assert!(core::mem::offset_of!(Table, used) == 0);
const _: () = assert!(core::mem::offset_of!(Table, failed) == 4);
const _: () = assert!(core::mem::offset_of!(Table, slots) == 16);
const _: () = assert!(core::mem::size_of::<Table>() == 272);

#[repr(C)]
#[derive(Clone, Copy)]
pub struct Entry {
    pub key: u32,
    pub _padding0: [u8; 12],
    pub value: [f32; 3],
    pub _padding1: [u8; 4],
}
const _: () = assert!(core::mem::offset_of!(Entry, key) == 0);
const _: () = assert!(core::mem::offset_of!(Entry, value) == 16);
const _: () = assert!(core::mem::size_of::<Entry>() == 32);
