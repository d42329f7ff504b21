#[repr(C)]
#[derive(Clone, Copy)]
pub struct Cascade {
    pub world_to_light: [[f32; 4]; 4],
    pub texel: [f32; 2],
    pub near: f32,
    pub far: f32,
}
const _: () = assert!(core::mem::offset_of!(Cascade, world_to_light) == 0);
const _: () = assert!(core::mem::offset_of!(Cascade, texel) == 64);
const _: () = assert!(core::mem::offset_of!(Cascade, near) == 72);
const _: () = assert!(core::mem::offset_of!(Cascade, far) == 76);
const _: () = assert!(core::mem::size_of::<Cascade>() == 80);

#[repr(C)]
#[derive(Clone, Copy)]
pub struct Shadows {
    pub cascades: [Cascade; 4],
    pub bias: [f32; 3],
    pub _padding1: [u8; 4],
    pub count: u32,
    pub _padding2: [u8; 12],
    pub rows: [[u32; 4]; 9],
}
const _: () = assert!(core::mem::offset_of!(Shadows, cascades) == 0);
const _: () = assert!(core::mem::offset_of!(Shadows, bias) == 320);
const _: () = assert!(core::mem::offset_of!(Shadows, count) == 336);
const _: () = assert!(core::mem::offset_of!(Shadows, rows) == 352);
const _: () = assert!(core::mem::size_of::<Shadows>() == 496);

#[repr(C)]
#[derive(Clone, Copy)]
pub struct Vertex {
    pub position: [f32; 3],
    pub _padding0: [u8; 4],
    pub normal: [u16; 3],
    pub _padding1: [u8; 2],
    pub flags: u32,
    pub _padding2: [u8; 4],
}
const _: () = assert!(core::mem::offset_of!(Vertex, position) == 0);
const _: () = assert!(core::mem::offset_of!(Vertex, normal) == 16);
const _: () = assert!(core::mem::offset_of!(Vertex, flags) == 24);
const _: () = assert!(core::mem::size_of::<Vertex>() == 32);
