//! The text of a shader, and what is found of it.

use crate::error::{answered, filled, text_of};
use crate::fault::RawFault;
use crate::ffi::{Asked, Side};
use crate::node::Node;
use crate::{Error, Fault, Layout, ffi};

/// When values are needed.
#[derive(Clone, Copy, Debug, Default, PartialEq, Eq)]
pub enum Stage {
    /// For the module: overrides have no values but those that a host gives.
    #[default]
    Const = 0,
    /// For a pipeline: overrides have their own values too.
    Override = 1,
    /// While the shader runs.
    Exec = 2,
}

/// Whose rules hold.
#[derive(Clone, Copy, Debug, Default, PartialEq, Eq)]
pub enum Dialect {
    /// Those of WGSL.
    #[default]
    Wgsl,
    /// Those of the Rust crate `wgsl-types`, which has matrices of integers and integers of 64 bits beside.
    Crate,
}

/// How layouts are written.
#[derive(Clone, Copy, Debug, PartialEq, Eq)]
pub enum Format {
    /// Tables.
    Table = 0,
    /// Rows of 16 bytes, drawn.
    Bytes = 1,
    /// For programs.
    Json = 2,
    /// Structures of the host in Rust.
    Rust = 3,
    /// The same with the traits `Pod` and `Zeroable` of bytemuck.
    RustBytemuck = 4,
    /// Structures of the host in C and C++.
    C = 5,
}

impl Format {
    /// All of them, in the order of their numbers.
    pub const ALL: [Format; 6] = [
        Format::Table,
        Format::Bytes,
        Format::Json,
        Format::Rust,
        Format::RustBytemuck,
        Format::C,
    ];
}

/// How a module is read.
#[derive(Clone, Debug, Default, PartialEq, Eq)]
pub struct Settings {
    stage: Stage,
    dialect: Dialect,
    is_strict: bool,
    defines: String,
}

impl Settings {
    /// WGSL, for the module.
    pub fn new() -> Settings {
        Settings::default()
    }

    /// With values for this stage.
    pub fn stage(self, stage: Stage) -> Settings {
        Settings { stage, ..self }
    }

    /// By these rules.
    pub fn dialect(self, dialect: Dialect) -> Settings {
        Settings { dialect, ..self }
    }

    /// Whether what is warned of and what is left out is a fault.
    pub fn strict(self, is_strict: bool) -> Settings {
        Settings { is_strict, ..self }
    }

    /// With this value of the override of the name, or of the number of its `@id`.
    pub fn define(mut self, name: &str, value: &str) -> Settings {
        self.defines.extend([name, "=", value, "\n"]);
        self
    }
}

/// A text, and how many faults the source has.
#[derive(Clone, Debug, PartialEq, Eq)]
pub struct Report {
    /// What can be said, faults or not.
    pub text: String,
    /// How many faults there are.
    pub faults: u32,
}

/// What an expression is found to be.
#[derive(Clone, Debug, PartialEq, Eq)]
pub struct Expression {
    /// The type, as `vec2<i32>`.
    pub ty: String,
    /// The value, as `vec2(3i, 3i)`.
    pub value: String,
    /// The bytes of the value in a buffer; `None` where it has none, as a bool.
    pub bytes: Option<Vec<u8>>,
}

/// The text of a shader. It is read again by each call.
#[derive(Clone, Debug)]
pub struct Module {
    text: String,
    settings: Settings,
}

impl Module {
    /// The module of this text.
    pub fn new(text: impl Into<String>) -> Module {
        Module::with(text, Settings::new())
    }

    /// The same, read so.
    pub fn with(text: impl Into<String>, settings: Settings) -> Module {
        Module {
            text: text.into(),
            settings,
        }
    }

    /// The text.
    pub fn text(&self) -> &str {
        &self.text
    }

    fn asked(&self) -> Asked<'_> {
        let Settings {
            stage,
            dialect,
            is_strict,
            defines,
        } = &self.settings;
        Asked {
            source: &self.text,
            defines,
            stage: *stage as u32,
            flags: u32::from(*is_strict) | u32::from(*dialect == Dialect::Crate) << 1,
        }
    }

    /// What is told of it, in the order of the places: faults, warnings, and notes of what is left out.
    pub fn faults(&self) -> Result<Vec<Fault>, Error> {
        let asked = self.asked();
        let (_, records) = filled(
            |records| ffi::faults(asked, records),
            RawFault::default(),
            16,
        )?;
        let told = records.into_iter().enumerate().map(|(number, record)| {
            let (_, bytes) = answered(|out| ffi::fault_text(asked, number, out))?;
            Fault::of(record, text_of(bytes)?)
        });
        told.collect()
    }

    /// The layouts of all that it shares with its host, or of the declarations of these names.
    pub fn layouts(&self, format: Format, names: &[&str]) -> Result<Report, Error> {
        let names = names.join("\n");
        let (faults, bytes) =
            answered(|out| ffi::layout_text(self.asked(), &names, format as u32, out))?;
        Ok(Report {
            text: text_of(bytes)?,
            faults,
        })
    }

    /// The types and values of its constants, a line each.
    pub fn constants(&self) -> Result<Report, Error> {
        self.constants_as(Format::Table)
    }

    /// The same as JSON.
    pub fn constants_json(&self) -> Result<Report, Error> {
        self.constants_as(Format::Json)
    }

    fn constants_as(&self, format: Format) -> Result<Report, Error> {
        let (faults, bytes) = answered(|out| ffi::eval_text(self.asked(), format as u32, out))?;
        Ok(Report {
            text: text_of(bytes)?,
            faults,
        })
    }

    /// The type and the value of an expression, which may name what the module declares.
    pub fn expression(&self, expression: &str) -> Result<Expression, Error> {
        let value = text_of(self.side(expression, Side::Value)?)?;
        let ty = text_of(self.side(expression, Side::Type)?)?;
        let bytes = match self.side(expression, Side::Bytes) {
            Ok(bytes) => Some(bytes),
            Err(Error::Refused(crate::Refusal::NoBytes)) => None,
            Err(error) => return Err(error),
        };
        Ok(Expression { ty, value, bytes })
    }

    fn side(&self, expression: &str, side: Side) -> Result<Vec<u8>, Error> {
        let (faults, bytes) = answered(|out| ffi::expression(self.asked(), expression, side, out))?;
        match bytes.is_empty() {
            true => Err(Error::Faulty(faults)),
            false => Ok(bytes),
        }
    }

    /// The layout of a structure, an alias or a variable by its name, or of a type as the module may write it.
    pub fn layout(&self, ty: &str) -> Result<Layout, Error> {
        let (faults, nodes) = filled(
            |nodes| ffi::layout(self.asked(), ty, nodes),
            Node::default(),
            64,
        )?;
        match nodes.is_empty() {
            true => Err(Error::Faulty(faults)),
            false => Ok(Layout::new(nodes, &self.text)),
        }
    }
}
