//! Prints the layouts or the values of the shader of standard input: `lay_out layout FORMAT` or `lay_out eval FORMAT`, where
//! FORMAT is a number.

use std::io::{Read, Write, stdin, stdout};
use yolkdamask::{Format, Module};

fn main() -> Result<(), Box<dyn std::error::Error>> {
    let words: Vec<_> = std::env::args().skip(1).collect();
    let [command, format] = words.as_slice() else {
        return Err("lay_out layout|eval FORMAT".into());
    };
    let mut source = String::new();
    stdin().read_to_string(&mut source)?;
    let module = Module::new(source);
    let format = *Format::ALL
        .get(format.parse::<usize>()?)
        .ok_or("no format has this number")?;
    let report = match (command.as_str(), format) {
        ("layout", _) => module.layouts(format, &[])?,
        (_, Format::Json) => module.constants_json()?,
        _ => module.constants()?,
    };
    stdout().write_all(report.text.as_bytes())?;
    Ok(())
}
