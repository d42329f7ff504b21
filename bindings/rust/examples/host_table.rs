//! Compares a table of the host's own making, from `offset_of!`, with the shader's: the first difference is told.

use std::mem::offset_of;
use yolkdamask::{Error, Layout, Module, Node, Scalar, Sort};

const SHADER: &str = "struct Step { count: u32, limit: i32, time: f32 }";

#[repr(C)]
struct Step {
    count: u32,
    time: f32,
    limit: i32,
}

fn number(scalar: Scalar, offset: usize) -> Node {
    let kind = scalar as u32;
    let offset = u32::try_from(offset).expect("it is small");
    Node {
        sort: Sort::Number as u32,
        kind,
        offset,
        size: 4,
        align: 4,
        ..Node::default()
    }
}

fn main() -> Result<(), Error> {
    let root = Node {
        sort: Sort::Structure as u32,
        size: 12,
        align: 4,
        count: 3,
        child: 1,
        ..Node::default()
    };
    let nodes = vec![
        root,
        number(Scalar::U32, offset_of!(Step, count)),
        number(Scalar::F32, offset_of!(Step, time)),
        number(Scalar::I32, offset_of!(Step, limit)),
    ];
    let host = Layout::from_nodes(nodes, "").expect("these are records of a type");
    let shader = Module::new(SHADER).layout("Step")?;
    match shader.first_difference(&host) {
        Some(found) => println!(
            "record {} of the shader and record {} of the host differ: {}",
            found.of_first,
            found.of_second,
            found.field(),
        ),
        None => println!("both are the same"),
    }
    Ok(())
}
