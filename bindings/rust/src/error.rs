//! Why a call has no answer.

use crate::ffi::Answer;
use std::fmt;

/// Why a call has no answer.
#[derive(Clone, Copy, Debug, PartialEq, Eq)]
#[non_exhaustive]
pub enum Error {
    /// The source has so many faults, and no answer of this kind: [`crate::Module::faults`] lists them.
    Faulty(u32),
    /// There is no such answer.
    Refused(Refusal),
    /// Memory is wanting.
    Memory,
    /// An argument is none that the call takes, as a line of a list that has a line end: its place, from 1.
    Misuse(u32),
    /// The library answered what it never does.
    Unknown(u32),
}

/// Why there is no answer, with the numbers that the library has for it.
#[derive(Clone, Copy, Debug, PartialEq, Eq)]
#[non_exhaustive]
#[repr(u32)]
pub enum Refusal {
    /// The value needs a float.
    NeedsFloat = 1,
    /// The value needs an override.
    NeedsOverride = 2,
    /// The value needs a variable.
    NeedsVariable = 3,
    /// The value needs a function.
    NeedsFunction = 4,
    /// The value needs a texture, a sampler or a pointer.
    NeedsOpaque = 5,
    /// The value is known while the shader runs alone.
    NeedsRunTime = 6,
    /// The value has no bytes: its type is not shared with a host.
    NoBytes = 7,
    /// There are fewer faults than that.
    NoSuchFault = 8,
    /// The script has more than 1,048,576 bytes.
    ScriptTooLong = 9,
    /// Nothing has the name, or what has it has no layout.
    NoLayout = 10,
}

impl Refusal {
    fn of(number: u32) -> Option<Refusal> {
        const ALL: [Refusal; 10] = [
            Refusal::NeedsFloat,
            Refusal::NeedsOverride,
            Refusal::NeedsVariable,
            Refusal::NeedsFunction,
            Refusal::NeedsOpaque,
            Refusal::NeedsRunTime,
            Refusal::NoBytes,
            Refusal::NoSuchFault,
            Refusal::ScriptTooLong,
            Refusal::NoLayout,
        ];
        ALL.into_iter().find(|refusal| *refusal as u32 == number)
    }
}

impl fmt::Display for Refusal {
    fn fmt(&self, f: &mut fmt::Formatter<'_>) -> fmt::Result {
        f.write_str(match self {
            Refusal::NeedsFloat => "the value needs a float",
            Refusal::NeedsOverride => "the value needs an override",
            Refusal::NeedsVariable => "the value needs a variable",
            Refusal::NeedsFunction => "the value needs a function",
            Refusal::NeedsOpaque => "the value needs a texture, a sampler or a pointer",
            Refusal::NeedsRunTime => "the value is known while the shader runs alone",
            Refusal::NoBytes => "the value has no bytes",
            Refusal::NoSuchFault => "there are fewer faults",
            Refusal::ScriptTooLong => "the script is too long",
            Refusal::NoLayout => "nothing of this name has a layout",
        })
    }
}

impl fmt::Display for Error {
    fn fmt(&self, f: &mut fmt::Formatter<'_>) -> fmt::Result {
        match self {
            Error::Faulty(1) => f.write_str("the source has a fault"),
            Error::Faulty(count) => write!(f, "the source has {count} faults"),
            Error::Refused(refusal) => refusal.fmt(f),
            Error::Memory => f.write_str("memory is wanting"),
            Error::Misuse(argument) => write!(f, "argument {argument} is none that the call takes"),
            Error::Unknown(status) => write!(f, "the library answered the status {status}"),
        }
    }
}

impl std::error::Error for Error {}

impl From<Refusal> for Error {
    fn from(refusal: Refusal) -> Error {
        Error::Refused(refusal)
    }
}

const OK: u32 = 0;
const FAULT: u32 = 1;
const REFUSED: u32 = 2;
const ROOM: u32 = 3;
const MEMORY: u32 = 4;
const MISUSE: u32 = 5;

/// How many bytes or records there is room for at first.
const ROOM_AT_FIRST: usize = 4096;

/// What the call writes, with the number of faults: it is made again with as much room as it needs.
pub(crate) fn filled<T: Clone>(
    call: impl Fn(&mut [T]) -> Answer,
    empty: T,
    room: usize,
) -> Result<(u32, Vec<T>), Error> {
    let mut out = vec![empty.clone(); room];
    loop {
        let answer = call(&mut out);
        match answer.status {
            OK | FAULT => {
                out.truncate(answer.length);
                return Ok((answer.number, out));
            }
            // It says how much more it needs, so this ends.
            ROOM if answer.length > out.len() => out.resize(answer.length, empty.clone()),
            REFUSED => {
                let refusal = Refusal::of(answer.number);
                return Err(refusal.map_or(Error::Unknown(answer.number), Error::Refused));
            }
            MEMORY => return Err(Error::Memory),
            MISUSE => return Err(Error::Misuse(answer.number)),
            status => return Err(Error::Unknown(status)),
        }
    }
}

/// The bytes that the call writes, with the number of faults.
pub(crate) fn answered(call: impl Fn(&mut [u8]) -> Answer) -> Result<(u32, Vec<u8>), Error> {
    filled(call, 0, ROOM_AT_FIRST)
}

pub(crate) fn text_of(bytes: Vec<u8>) -> Result<String, Error> {
    String::from_utf8(bytes).map_err(|_| Error::Unknown(OK))
}
