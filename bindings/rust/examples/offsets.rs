//! Checks a structure of the host against the shader's own, by the offsets that the compiler has. What `main` does here a
//! `build.rs` may do, with this crate among its build dependencies: where the two differ, the build fails.

use std::mem::{align_of, offset_of, size_of};
use yolkdamask::{Error, Module};

const SHADER: &str = "struct Light { at: vec3<f32>, power: f32, color: vec3<f32>, is_on: u32 }";

#[repr(C, align(16))]
struct Light {
    at: [f32; 3],
    power: f32,
    color: [f32; 3],
    is_on: u32,
}

fn main() -> Result<(), Error> {
    let light = Module::new(SHADER).layout("Light")?;
    let of_host = [
        ("at", offset_of!(Light, at)),
        ("power", offset_of!(Light, power)),
        ("color", offset_of!(Light, color)),
        ("is_on", offset_of!(Light, is_on)),
    ];
    assert_eq!(light.members().len(), of_host.len());
    for (member, (name, offset)) in light.members().zip(of_host) {
        assert_eq!((member.name, member.node.offset as usize), (name, offset));
    }
    assert_eq!(light.size(), Some(size_of::<Light>() as u64));
    assert_eq!(light.align() as usize, align_of::<Light>());
    println!(
        "the host's Light lies as the shader's, in {} bytes",
        size_of::<Light>()
    );
    Ok(())
}
