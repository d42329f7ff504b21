#[repr(C)]
#[derive(Clone, Copy)]
pub struct Camera {
    pub view: [[f32; 4]; 4],
    pub projection: [[f32; 4]; 4],
    pub position: [f32; 3],
    pub exposure: f32,
    pub _padding3: [u8; 16],
}
const _: () = assert!(core::mem::offset_of!(Camera, view) == 0);
const _: () = assert!(core::mem::offset_of!(Camera, projection) == 64);
const _: () = assert!(core::mem::offset_of!(Camera, position) == 128);
const _: () = assert!(core::mem::offset_of!(Camera, exposure) == 140);
const _: () = assert!(core::mem::size_of::<Camera>() == 160);

#[repr(C)]
#[derive(Clone, Copy)]
pub struct Material {
    pub base_color: [f32; 4],
    pub metallic: f32,
    pub roughness: f32,
    pub uv_transform: [[f32; 2]; 3],
    pub emissive: [u16; 3],
    pub _padding4: [u8; 2],
    pub flags: u32,
    pub _padding5: [u8; 4],
}
const _: () = assert!(core::mem::offset_of!(Material, base_color) == 0);
const _: () = assert!(core::mem::offset_of!(Material, metallic) == 16);
const _: () = assert!(core::mem::offset_of!(Material, roughness) == 20);
const _: () = assert!(core::mem::offset_of!(Material, uv_transform) == 24);
const _: () = assert!(core::mem::offset_of!(Material, emissive) == 48);
const _: () = assert!(core::mem::offset_of!(Material, flags) == 56);
const _: () = assert!(core::mem::size_of::<Material>() == 64);

#[repr(C)]
#[derive(Clone, Copy)]
pub struct Fragment {
    pub position: [f32; 4],
    pub uv: [f32; 2],
    pub _padding1: [u8; 8],
}
const _: () = assert!(core::mem::offset_of!(Fragment, position) == 0);
const _: () = assert!(core::mem::offset_of!(Fragment, uv) == 16);
const _: () = assert!(core::mem::size_of::<Fragment>() == 32);
