#[repr(C)]
#[derive(Clone, Copy)]
pub struct Particle {
    pub position: [f32; 3],
    pub mass: f32,
    pub velocity: [f32; 3],
    pub age: u32,
}
const _: () = assert!(core::mem::offset_of!(Particle, position) == 0);
const _: () = assert!(core::mem::offset_of!(Particle, mass) == 12);
const _: () = assert!(core::mem::offset_of!(Particle, velocity) == 16);
const _: () = assert!(core::mem::offset_of!(Particle, age) == 28);
const _: () = assert!(core::mem::size_of::<Particle>() == 32);

#[repr(C)]
#[derive(Clone, Copy)]
pub struct Forces {
    pub count: u32,
    pub _padding0: [u8; 12],
    pub directions: [[f32; 4]; 4],
    pub strengths: [[f32; 4]; 2],
}
const _: () = assert!(core::mem::offset_of!(Forces, count) == 0);
const _: () = assert!(core::mem::offset_of!(Forces, directions) == 16);
const _: () = assert!(core::mem::offset_of!(Forces, strengths) == 80);
const _: () = assert!(core::mem::size_of::<Forces>() == 112);

#[repr(C)]
#[derive(Clone, Copy)]
pub struct Step {
    pub time: f32,
    pub _padding0: [u8; 12],
    pub forces: Forces,
}
const _: () = assert!(core::mem::offset_of!(Step, time) == 0);
const _: () = assert!(core::mem::offset_of!(Step, forces) == 16);
const _: () = assert!(core::mem::size_of::<Step>() == 128);
