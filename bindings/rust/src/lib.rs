//! How the types of a WGSL shader lie in memory, where a path leads in a host's buffer, and what the constants of the
//! shader are: by a library whose every function is proved to meet its contract.
//!
//! A [`Module`] is the text of a shader. A [`Layout`] is where the parts of a type stand, as a table of plain records
//! that is made once; a [`Place`] in it reads and writes a host's bytes, with no memory taken and no text read.
//!
//! ```
//! use yolkdamask::Module;
//!
//! let module = Module::new("struct Light { at: vec3<f32>, power: f32 } \
//!     @group(0) @binding(0) var<storage> lights: array<Light>;");
//! let lights = module.layout("lights")?;
//! let mut bytes = vec![0; 4 * 16];
//! let power = lights.place("[3].power", bytes.len()).expect("there are four");
//! assert_eq!(power.offset(), 60);
//! assert!(power.set(&mut bytes, 0.5f32));
//! assert_eq!(power.get(&bytes), Some(0.5f32));
//! # Ok::<(), yolkdamask::Error>(())
//! ```
//!
//! Types of this crate hold text, records and numbers alone, so all of them are `Send` and `Sync`, and calls may run on
//! any threads at once.
//!
//! The functions below are proved; what Rust declares of them (`src/ffi.rs`) and what this crate wraps around them is
//! not.
#![deny(missing_docs)]
#![deny(unsafe_code)]

mod error;
mod fault;
mod ffi;
mod layout;
mod module;
mod node;
mod place;
mod script;

pub use error::{Error, Refusal};
pub use fault::{Fault, Severity};
pub use layout::{Layout, Member, Members};
pub use module::{Dialect, Expression, Format, Module, Report, Settings, Stage};
pub use node::{Difference, Field, Node, Scalar, Sort};
pub use place::{Number, Place};
pub use script::run_script;

/// The version of the library.
pub fn version() -> Result<String, Error> {
    let (_, bytes) = error::answered(ffi::version)?;
    error::text_of(bytes)
}
