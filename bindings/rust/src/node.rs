//! The records of a layout.

use std::fmt;

/// A record of a layout: a type, with the records of the types inside it behind it in the same table. The root is record
/// 0. The children of a structure are as many records one behind the other; a vector, a matrix and an array has one.
#[repr(C)]
#[derive(Clone, Copy, Debug, Default, PartialEq, Eq, Hash)]
pub struct Node {
    /// The number of a [`Sort`].
    pub sort: u32,
    /// Of a number: that of a [`Scalar`], and 0x100 more where it is atomic; else 0.
    pub kind: u32,
    /// Where a member begins in its structure, in bytes; else 0.
    pub offset: u32,
    /// How many bytes a value takes, up to a runtime-sized array where the type is or ends in one.
    pub size: u32,
    /// What the place of a value is a multiple of, in bytes.
    pub align: u32,
    /// How many components, columns, elements or members; 0 of a number and of a runtime-sized array.
    pub count: u32,
    /// From one component, column or element to the next, in bytes; else 0.
    pub stride: u32,
    /// The number of the first child's record; 0 of a number.
    pub child: u32,
    /// Where the runtime-sized array begins that the type is or ends in, in bytes; else 0.
    pub tail_start: u32,
    /// From one of its elements to the next, in bytes; 0 where there is no such array.
    pub tail_stride: u32,
    /// Where a member's name begins in the text of the names, in bytes.
    pub name_start: u32,
    /// And where it ends; the same where there is no name.
    pub name_end: u32,
}

/// The sorts of types.
#[derive(Clone, Copy, Debug, PartialEq, Eq, Hash)]
#[repr(u32)]
pub enum Sort {
    /// A scalar or an atomic.
    Number = 0,
    /// A vector.
    Vector = 1,
    /// A matrix.
    Matrix = 2,
    /// An array.
    Array = 3,
    /// A structure.
    Structure = 4,
}

/// The kinds of numbers.
#[derive(Clone, Copy, Debug, PartialEq, Eq, Hash)]
#[repr(u32)]
pub enum Scalar {
    /// `i32`.
    I32 = 1,
    /// `u32`.
    U32 = 2,
    /// `f32`.
    F32 = 3,
    /// `f16`, whose bits are those of an `u16` here.
    F16 = 4,
    /// `i64`.
    I64 = 5,
    /// `u64`.
    U64 = 6,
    /// `f64`.
    F64 = 7,
}

/// What the kind of an atomic has more.
const ATOMIC: u32 = 0x100;

impl Node {
    /// The sort of the type, where the record has one.
    pub fn sort(&self) -> Option<Sort> {
        const ALL: [Sort; 5] = [
            Sort::Number,
            Sort::Vector,
            Sort::Matrix,
            Sort::Array,
            Sort::Structure,
        ];
        ALL.into_iter().find(|sort| *sort as u32 == self.sort)
    }

    /// The kind of a number.
    pub fn scalar(&self) -> Option<Scalar> {
        Scalar::of(self.kind & !ATOMIC)
    }

    /// Whether it is an atomic number.
    pub fn is_atomic(&self) -> bool {
        self.kind & ATOMIC != 0
    }

    /// Whether it is or ends in a runtime-sized array.
    pub fn is_runtime_sized(&self) -> bool {
        self.tail_stride != 0
    }
}

impl Scalar {
    pub(crate) fn of(kind: u32) -> Option<Scalar> {
        const ALL: [Scalar; 7] = [
            Scalar::I32,
            Scalar::U32,
            Scalar::F32,
            Scalar::F16,
            Scalar::I64,
            Scalar::U64,
            Scalar::F64,
        ];
        ALL.into_iter().find(|scalar| *scalar as u32 == kind)
    }
}

/// Where two layouts differ first.
#[repr(C)]
#[derive(Clone, Copy, Debug, PartialEq, Eq)]
pub struct Difference {
    /// The number of the first layout's record.
    pub of_first: u32,
    /// The number of the second's.
    pub of_second: u32,
    pub(crate) what: u32,
}

/// What differs.
#[derive(Clone, Copy, Debug, PartialEq, Eq)]
#[non_exhaustive]
pub enum Field {
    /// One of the two has no such record.
    Record,
    /// The sort.
    Sort,
    /// The kind of the number.
    Kind,
    /// How many components, columns, elements or members.
    Count,
    /// Where the member begins.
    Offset,
    /// From one part to the next.
    Stride,
    /// How many bytes.
    Size,
    /// The alignment.
    Align,
    /// The number of the first child.
    Child,
    /// The runtime-sized array.
    Tail,
}

impl Difference {
    /// What differs.
    pub fn field(&self) -> Field {
        match self.what {
            1 => Field::Sort,
            2 => Field::Kind,
            3 => Field::Offset,
            4 => Field::Size,
            5 => Field::Align,
            6 => Field::Count,
            7 => Field::Stride,
            8 => Field::Child,
            9 | 10 => Field::Tail,
            _ => Field::Record,
        }
    }
}

impl fmt::Display for Field {
    fn fmt(&self, f: &mut fmt::Formatter<'_>) -> fmt::Result {
        f.write_str(match self {
            Field::Record => "record",
            Field::Sort => "sort",
            Field::Kind => "kind",
            Field::Count => "count",
            Field::Offset => "offset",
            Field::Stride => "stride",
            Field::Size => "size",
            Field::Align => "alignment",
            Field::Child => "child",
            Field::Tail => "runtime-sized array",
        })
    }
}
