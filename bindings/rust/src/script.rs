//! Scripts of calls on a shader's memory.

use crate::error::{answered, text_of};
use crate::{Error, ffi};

/// Runs a script of calls on a memory that begins empty: a line for each line of the script that has a word. A line that is
/// refused is answered so.
pub fn run_script(script: impl AsRef<[u8]>) -> Result<String, Error> {
    let (_, bytes) = answered(|out| ffi::script(script.as_ref(), out))?;
    text_of(bytes)
}
