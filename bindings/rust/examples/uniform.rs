//! Fills a uniform buffer from a shader's own structure.

use yolkdamask::{Error, Module};

const SHADER: &str = "
struct Camera {
    view: mat4x4<f32>,
    position: vec3<f32>,
    exposure: f32,
    grid: vec2<u32>,
}
@group(0) @binding(0) var<uniform> camera: Camera;
";

fn main() -> Result<(), Error> {
    let camera = Module::new(SHADER).layout("camera")?;
    let size = camera.size().expect("no runtime-sized array is in it");
    let mut bytes = vec![0; usize::try_from(size).expect("it is small")];
    let place = |path: &str| {
        camera
            .place(path, bytes.len())
            .unwrap_or_else(|| panic!("there is no {path}"))
    };
    let columns: Vec<_> = (0..4)
        .map(|column| place(&format!("view[{column}]")))
        .collect();
    let (position, exposure, grid) = (place("position"), place("exposure"), place("grid"));
    for (column, place) in columns.into_iter().enumerate() {
        let mut numbers = [0.0f32; 4];
        numbers[column] = 1.0;
        assert!(place.set_vector(&mut bytes, numbers));
    }
    assert!(position.set_vector(&mut bytes, [1.0f32, 2.0, 3.0]));
    assert!(exposure.set(&mut bytes, 0.5f32));
    assert!(grid.set_vector(&mut bytes, [16u32, 9]));
    println!(
        "{} bytes, the exposure at {}: {:?}",
        bytes.len(),
        exposure.offset(),
        exposure.get::<f32>(&bytes)
    );
    Ok(())
}
