#[repr(C)]
#[derive(Clone, Copy)]
pub struct Spot {
    pub direction: [f32; 3],
    pub angle: f32,
}
const _: () = assert!(core::mem::offset_of!(Spot, direction) == 0);
const _: () = assert!(core::mem::offset_of!(Spot, angle) == 12);
const _: () = assert!(core::mem::size_of::<Spot>() == 16);

#[repr(C)]
#[derive(Clone, Copy)]
pub struct Light {
    pub position: [f32; 3],
    pub kind: u32,
    pub color: [f32; 3],
    pub _padding2: [u8; 4],
    pub spots: [Spot; 2],
}
const _: () = assert!(core::mem::offset_of!(Light, position) == 0);
const _: () = assert!(core::mem::offset_of!(Light, kind) == 12);
const _: () = assert!(core::mem::offset_of!(Light, color) == 16);
const _: () = assert!(core::mem::offset_of!(Light, spots) == 32);
const _: () = assert!(core::mem::size_of::<Light>() == 64);

#[repr(C)]
#[derive(Clone, Copy)]
pub struct Shadows {
    pub cascades: [[[f32; 4]; 4]; 4],
    pub splits: [f32; 4],
    pub tiles: [[[u32; 2]; 16]; 2],
}
const _: () = assert!(core::mem::offset_of!(Shadows, cascades) == 0);
const _: () = assert!(core::mem::offset_of!(Shadows, splits) == 256);
const _: () = assert!(core::mem::offset_of!(Shadows, tiles) == 272);
const _: () = assert!(core::mem::size_of::<Shadows>() == 528);

// with n elements at its end: size 544 + 64 * n
#[repr(C)]
#[derive(Clone, Copy)]
pub struct Lights {
    pub ambient: [f32; 3],
    pub count: u32,
    pub shadows: Shadows,
    pub lights: [Light; 1], // the first of its elements
}
const _: () = assert!(core::mem::offset_of!(Lights, ambient) == 0);
const _: () = assert!(core::mem::offset_of!(Lights, count) == 12);
const _: () = assert!(core::mem::offset_of!(Lights, shadows) == 16);
const _: () = assert!(core::mem::offset_of!(Lights, lights) == 544);
