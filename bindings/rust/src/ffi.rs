//! The functions of the library as Rust declares them, each behind a function that is safe to call.
//!
//! This file alone has `unsafe`. Each call hands over pointers and lengths of slices; what the library writes to is
//! lent to it alone. The library keeps nothing, and answers within what it is given on any bytes.

#![allow(unsafe_code)]

use crate::fault::RawFault;
use crate::node::{Difference, Node};
use crate::place::Place;

/// What a call that gives text or records answers.
#[repr(C)]
#[derive(Clone, Copy, Debug)]
pub(crate) struct Answer {
    pub(crate) status: u32,
    pub(crate) number: u32,
    pub(crate) length: usize,
}

/// A number, where there is one.
#[repr(C)]
#[derive(Clone, Copy)]
struct Number {
    bits: u64,
    is_there: u32,
    spare: u32,
}

/// The record that no place has.
const NOWHERE: u32 = u32::MAX;

/// What every call on a source is asked.
#[derive(Clone, Copy)]
pub(crate) struct Asked<'a> {
    pub(crate) source: &'a str,
    pub(crate) defines: &'a str,
    pub(crate) stage: u32,
    pub(crate) flags: u32,
}

mod raw {
    use super::{Answer, Number};
    use crate::fault::RawFault;
    use crate::node::{Difference, Node};
    use crate::place::Place;

    unsafe extern "C" {
        pub(super) fn wgsl_layout_text(
            source: *const u8,
            source_length: usize,
            names: *const u8,
            names_length: usize,
            defines: *const u8,
            defines_length: usize,
            format: u32,
            stage: u32,
            flags: u32,
            out: *mut u8,
            room: usize,
        ) -> Answer;
        pub(super) fn wgsl_eval_text(
            source: *const u8,
            source_length: usize,
            defines: *const u8,
            defines_length: usize,
            format: u32,
            stage: u32,
            flags: u32,
            out: *mut u8,
            room: usize,
        ) -> Answer;
        pub(super) fn wgsl_expression_type(
            module: *const u8,
            module_length: usize,
            expression: *const u8,
            expression_length: usize,
            defines: *const u8,
            defines_length: usize,
            stage: u32,
            flags: u32,
            out: *mut u8,
            room: usize,
        ) -> Answer;
        pub(super) fn wgsl_expression_value(
            module: *const u8,
            module_length: usize,
            expression: *const u8,
            expression_length: usize,
            defines: *const u8,
            defines_length: usize,
            stage: u32,
            flags: u32,
            out: *mut u8,
            room: usize,
        ) -> Answer;
        pub(super) fn wgsl_expression_bytes(
            module: *const u8,
            module_length: usize,
            expression: *const u8,
            expression_length: usize,
            defines: *const u8,
            defines_length: usize,
            stage: u32,
            flags: u32,
            out: *mut u8,
            room: usize,
        ) -> Answer;
        pub(super) fn wgsl_faults(
            source: *const u8,
            source_length: usize,
            defines: *const u8,
            defines_length: usize,
            stage: u32,
            flags: u32,
            records: *mut RawFault,
            capacity: usize,
        ) -> Answer;
        pub(super) fn wgsl_fault_text(
            source: *const u8,
            source_length: usize,
            defines: *const u8,
            defines_length: usize,
            stage: u32,
            flags: u32,
            number: usize,
            out: *mut u8,
            room: usize,
        ) -> Answer;
        pub(super) fn wgsl_code_text(code: u32, out: *mut u8, room: usize) -> Answer;
        pub(super) fn wgsl_script(
            script: *const u8,
            script_length: usize,
            out: *mut u8,
            room: usize,
        ) -> Answer;
        pub(super) fn wgsl_version(out: *mut u8, room: usize) -> Answer;
        pub(super) fn wgsl_layout(
            source: *const u8,
            source_length: usize,
            name: *const u8,
            name_length: usize,
            defines: *const u8,
            defines_length: usize,
            stage: u32,
            flags: u32,
            nodes: *mut Node,
            capacity: usize,
        ) -> Answer;
        pub(super) fn wgsl_is_table(nodes: *const Node, count: usize) -> bool;
        pub(super) fn wgsl_whole(nodes: *const Node, count: usize) -> Place;
        pub(super) fn wgsl_part(
            nodes: *const Node,
            count: usize,
            place: Place,
            index: u64,
            length: usize,
        ) -> Place;
        pub(super) fn wgsl_place_of(
            nodes: *const Node,
            count: usize,
            names: *const u8,
            names_length: usize,
            length: usize,
            path: *const u8,
            path_length: usize,
        ) -> Place;
        pub(super) fn wgsl_load(bytes: *const u8, length: usize, place: Place) -> Number;
        pub(super) fn wgsl_store(bytes: *mut u8, length: usize, place: Place, bits: u64) -> bool;
        pub(super) fn wgsl_load_vector(
            bytes: *const u8,
            length: usize,
            place: Place,
            out: *mut u64,
            count: usize,
        ) -> bool;
        pub(super) fn wgsl_store_vector(
            bytes: *mut u8,
            length: usize,
            place: Place,
            numbers: *const u64,
            count: usize,
        ) -> bool;
        pub(super) fn wgsl_size_with(
            nodes: *const Node,
            count: usize,
            number: u32,
            elements: u64,
        ) -> Number;
        pub(super) fn wgsl_count_in(
            nodes: *const Node,
            count: usize,
            number: u32,
            length: u64,
        ) -> Number;
        pub(super) fn wgsl_first_difference(
            first: *const Node,
            first_count: usize,
            second: *const Node,
            second_count: usize,
        ) -> Difference;
    }
}

impl Number {
    fn known(self) -> Option<u64> {
        (self.is_there != 0).then_some(self.bits)
    }
}

fn known(place: Place) -> Option<Place> {
    (place.node() != NOWHERE).then_some(place)
}

pub(crate) fn layout_text(asked: Asked<'_>, names: &str, format: u32, out: &mut [u8]) -> Answer {
    let Asked {
        source,
        defines,
        stage,
        flags,
    } = asked;
    // SAFETY: pointers and lengths are those of slices, and `out` is lent for writing alone.
    unsafe {
        raw::wgsl_layout_text(
            source.as_ptr(),
            source.len(),
            names.as_ptr(),
            names.len(),
            defines.as_ptr(),
            defines.len(),
            format,
            stage,
            flags,
            out.as_mut_ptr(),
            out.len(),
        )
    }
}

pub(crate) fn eval_text(asked: Asked<'_>, format: u32, out: &mut [u8]) -> Answer {
    let Asked {
        source,
        defines,
        stage,
        flags,
    } = asked;
    // SAFETY: as for `layout_text`.
    unsafe {
        raw::wgsl_eval_text(
            source.as_ptr(),
            source.len(),
            defines.as_ptr(),
            defines.len(),
            format,
            stage,
            flags,
            out.as_mut_ptr(),
            out.len(),
        )
    }
}

/// What is asked of an expression.
#[derive(Clone, Copy)]
pub(crate) enum Side {
    Type,
    Value,
    Bytes,
}

pub(crate) fn expression(asked: Asked<'_>, expression: &str, side: Side, out: &mut [u8]) -> Answer {
    let Asked {
        source,
        defines,
        stage,
        flags,
    } = asked;
    let call = match side {
        Side::Type => raw::wgsl_expression_type,
        Side::Value => raw::wgsl_expression_value,
        Side::Bytes => raw::wgsl_expression_bytes,
    };
    // SAFETY: as for `layout_text`.
    unsafe {
        call(
            source.as_ptr(),
            source.len(),
            expression.as_ptr(),
            expression.len(),
            defines.as_ptr(),
            defines.len(),
            stage,
            flags,
            out.as_mut_ptr(),
            out.len(),
        )
    }
}

pub(crate) fn faults(asked: Asked<'_>, records: &mut [RawFault]) -> Answer {
    let Asked {
        source,
        defines,
        stage,
        flags,
    } = asked;
    // SAFETY: as for `layout_text`; the records are plain numbers.
    unsafe {
        raw::wgsl_faults(
            source.as_ptr(),
            source.len(),
            defines.as_ptr(),
            defines.len(),
            stage,
            flags,
            records.as_mut_ptr(),
            records.len(),
        )
    }
}

pub(crate) fn fault_text(asked: Asked<'_>, number: usize, out: &mut [u8]) -> Answer {
    let Asked {
        source,
        defines,
        stage,
        flags,
    } = asked;
    // SAFETY: as for `layout_text`.
    unsafe {
        raw::wgsl_fault_text(
            source.as_ptr(),
            source.len(),
            defines.as_ptr(),
            defines.len(),
            stage,
            flags,
            number,
            out.as_mut_ptr(),
            out.len(),
        )
    }
}

pub(crate) fn code_text(code: u32, out: &mut [u8]) -> Answer {
    // SAFETY: pointer and length are those of a slice that is lent for writing alone.
    unsafe { raw::wgsl_code_text(code, out.as_mut_ptr(), out.len()) }
}

pub(crate) fn script(script: &[u8], out: &mut [u8]) -> Answer {
    // SAFETY: as for `layout_text`.
    unsafe { raw::wgsl_script(script.as_ptr(), script.len(), out.as_mut_ptr(), out.len()) }
}

pub(crate) fn version(out: &mut [u8]) -> Answer {
    // SAFETY: as for `code_text`.
    unsafe { raw::wgsl_version(out.as_mut_ptr(), out.len()) }
}

pub(crate) fn layout(asked: Asked<'_>, name: &str, nodes: &mut [Node]) -> Answer {
    let Asked {
        source,
        defines,
        stage,
        flags,
    } = asked;
    // SAFETY: as for `layout_text`; the records are plain numbers.
    unsafe {
        raw::wgsl_layout(
            source.as_ptr(),
            source.len(),
            name.as_ptr(),
            name.len(),
            defines.as_ptr(),
            defines.len(),
            stage,
            flags,
            nodes.as_mut_ptr(),
            nodes.len(),
        )
    }
}

pub(crate) fn is_table(nodes: &[Node]) -> bool {
    // SAFETY: pointer and length are those of a slice of plain numbers.
    unsafe { raw::wgsl_is_table(nodes.as_ptr(), nodes.len()) }
}

pub(crate) fn whole(nodes: &[Node]) -> Option<Place> {
    // SAFETY: as for `is_table`.
    known(unsafe { raw::wgsl_whole(nodes.as_ptr(), nodes.len()) })
}

pub(crate) fn part(nodes: &[Node], place: Place, index: u64, length: usize) -> Option<Place> {
    // SAFETY: as for `is_table`.
    known(unsafe { raw::wgsl_part(nodes.as_ptr(), nodes.len(), place, index, length) })
}

pub(crate) fn place_of(nodes: &[Node], names: &str, length: usize, path: &str) -> Option<Place> {
    // SAFETY: pointers and lengths are those of slices.
    known(unsafe {
        raw::wgsl_place_of(
            nodes.as_ptr(),
            nodes.len(),
            names.as_ptr(),
            names.len(),
            length,
            path.as_ptr(),
            path.len(),
        )
    })
}

pub(crate) fn load(bytes: &[u8], place: Place) -> Option<u64> {
    // SAFETY: pointer and length are those of a slice; the library looks at no byte outside.
    unsafe { raw::wgsl_load(bytes.as_ptr(), bytes.len(), place) }.known()
}

pub(crate) fn store(bytes: &mut [u8], place: Place, bits: u64) -> bool {
    // SAFETY: pointer and length are those of a slice that is lent for writing alone.
    unsafe { raw::wgsl_store(bytes.as_mut_ptr(), bytes.len(), place, bits) }
}

pub(crate) fn load_vector(bytes: &[u8], place: Place, out: &mut [u64]) -> bool {
    // SAFETY: as for `layout_text`.
    unsafe {
        raw::wgsl_load_vector(
            bytes.as_ptr(),
            bytes.len(),
            place,
            out.as_mut_ptr(),
            out.len(),
        )
    }
}

pub(crate) fn store_vector(bytes: &mut [u8], place: Place, numbers: &[u64]) -> bool {
    // SAFETY: as for `layout_text`.
    unsafe {
        raw::wgsl_store_vector(
            bytes.as_mut_ptr(),
            bytes.len(),
            place,
            numbers.as_ptr(),
            numbers.len(),
        )
    }
}

pub(crate) fn size_with(nodes: &[Node], number: u32, elements: u64) -> Option<u64> {
    // SAFETY: as for `is_table`.
    unsafe { raw::wgsl_size_with(nodes.as_ptr(), nodes.len(), number, elements) }.known()
}

pub(crate) fn count_in(nodes: &[Node], number: u32, length: u64) -> Option<u64> {
    // SAFETY: as for `is_table`.
    unsafe { raw::wgsl_count_in(nodes.as_ptr(), nodes.len(), number, length) }.known()
}

pub(crate) fn first_difference(first: &[Node], second: &[Node]) -> Option<Difference> {
    // SAFETY: as for `is_table`.
    let found = unsafe {
        raw::wgsl_first_difference(first.as_ptr(), first.len(), second.as_ptr(), second.len())
    };
    (found.what != 0).then_some(found)
}
