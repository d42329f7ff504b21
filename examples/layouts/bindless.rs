#[repr(C)]
#[derive(Clone, Copy)]
pub struct Draw {
    pub texture: u32,
    pub sampler_number: u32,
    pub scale: f32,
    pub _padding2: [u8; 4],
    pub tint: [f32; 3],
    pub _padding3: [u8; 4],
}
const _: () = assert!(core::mem::offset_of!(Draw, texture) == 0);
const _: () = assert!(core::mem::offset_of!(Draw, sampler_number) == 4);
const _: () = assert!(core::mem::offset_of!(Draw, scale) == 8);
const _: () = assert!(core::mem::offset_of!(Draw, tint) == 16);
const _: () = assert!(core::mem::size_of::<Draw>() == 32);

// with n elements at its end: size 16 + 32 * n
#[repr(C)]
#[derive(Clone, Copy)]
pub struct Draws {
    pub count: u32,
    pub _padding0: [u8; 12],
    pub list: [Draw; 1], // the first of its elements
}
const _: () = assert!(core::mem::offset_of!(Draws, count) == 0);
const _: () = assert!(core::mem::offset_of!(Draws, list) == 16);
