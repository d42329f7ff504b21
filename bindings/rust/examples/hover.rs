//! What an editor shows of an expression under its cursor, and of a fault.

use yolkdamask::{Error, Module, Settings, Stage};

const SHADER: &str = "
override block: u32 = 64;
const WIDTH = 5u;
const MASK = (1u << WIDTH) - 1u;
const WORD: u32 = MASKS;
";

fn main() -> Result<(), Error> {
    let shader = Module::with(SHADER, Settings::new().stage(Stage::Override));
    for expression in ["MASK", "vec2(7, 7) / 2i", "block * WIDTH", "1.5"] {
        match shader.expression(expression) {
            Ok(found) => println!("{expression}: {} = {}", found.ty, found.value),
            Err(error) => println!("{expression}: {error}"),
        }
    }
    for fault in shader.faults()? {
        println!("{fault}");
    }
    Ok(())
}
