//! Places of parts in a host's bytes.

use crate::ffi;
use crate::node::Scalar;

/// Where a part of a value stands: it reads and writes a host's bytes, with no memory taken. A [`crate::Layout`] makes
/// it, and it holds for all bytes that hold a value of that layout.
#[repr(C)]
#[derive(Clone, Copy, Debug, PartialEq, Eq)]
pub struct Place {
    offset: u64,
    node: u32,
    kind: u32,
    count: u32,
    spare: u32,
}

/// A number of a shader as a host has it.
pub trait Number: Copy + sealed::Sealed {
    /// The kind that the place has to have.
    const SCALAR: Scalar;
    /// The number of these bits, of which the lowest ones count.
    fn from_bits(bits: u64) -> Self;
    /// Its bits, the lowest ones.
    fn bits(self) -> u64;
}

mod sealed {
    pub trait Sealed {}
}

macro_rules! number {
    ($type:ty, $scalar:ident, $from:expr, $bits:expr) => {
        impl sealed::Sealed for $type {}

        impl Number for $type {
            const SCALAR: Scalar = Scalar::$scalar;

            fn from_bits(bits: u64) -> Self {
                $from(bits)
            }

            fn bits(self) -> u64 {
                $bits(self)
            }
        }
    };
}

number!(i32, I32, |bits| bits as u32 as i32, |number| u64::from(
    number as u32
));
number!(u32, U32, |bits| bits as u32, u64::from);
number!(
    f32,
    F32,
    |bits| f32::from_bits(bits as u32),
    |number: f32| u64::from(number.to_bits())
);
number!(i64, I64, |bits| bits as i64, |number| number as u64);
number!(u64, U64, |bits| bits, |number| number);
number!(f64, F64, f64::from_bits, f64::to_bits);
// The bits of an `f16`.
number!(u16, F16, |bits| bits as u16, u64::from);

impl Place {
    /// Where it begins in the bytes.
    pub fn offset(&self) -> u64 {
        self.offset
    }

    /// The number of its record in the layout.
    pub fn node(&self) -> u32 {
        self.node
    }

    /// The kind of the number that it is, or of those that it has side by side.
    pub fn scalar(&self) -> Option<Scalar> {
        Scalar::of(self.kind & 0xff)
    }

    /// How many numbers stand there side by side: 1 of a number, 2 to 4 of a vector, else 0.
    pub fn numbers(&self) -> u32 {
        self.count
    }

    /// The number there; `None` where the place is none of one number of this type, or not all of it lies in the bytes.
    pub fn get<T: Number>(&self, bytes: &[u8]) -> Option<T> {
        self.is_of::<T>()
            .then(|| self.bits(bytes).map(T::from_bits))?
    }

    /// Overwrites the number there; `false`, and nothing is changed, where [`Place::get`] is `None`.
    #[must_use]
    pub fn set<T: Number>(&self, bytes: &mut [u8], number: T) -> bool {
        self.is_of::<T>() && self.set_bits(bytes, number.bits())
    }

    /// The numbers of a vector there; `None` where the place has another number of them, or of another type, or not all
    /// lie in the bytes.
    pub fn get_vector<T: Number, const N: usize>(&self, bytes: &[u8]) -> Option<[T; N]> {
        let mut numbers = [0; N];
        (self.is_of::<T>() && ffi::load_vector(bytes, *self, &mut numbers))
            .then(|| numbers.map(T::from_bits))
    }

    /// Overwrites the numbers of a vector there; `false`, and nothing is changed, where [`Place::get_vector`] is `None`.
    #[must_use]
    pub fn set_vector<T: Number, const N: usize>(&self, bytes: &mut [u8], numbers: [T; N]) -> bool {
        self.is_of::<T>() && ffi::store_vector(bytes, *self, &numbers.map(T::bits))
    }

    /// The bits of the number there, of whatever kind; the higher ones are 0.
    pub fn bits(&self, bytes: &[u8]) -> Option<u64> {
        ffi::load(bytes, *self)
    }

    /// Overwrites the bits of the number there; `false`, and nothing is changed, where there is none, or where the bits
    /// do not fit it.
    #[must_use]
    pub fn set_bits(&self, bytes: &mut [u8], bits: u64) -> bool {
        ffi::store(bytes, *self, bits)
    }

    fn is_of<T: Number>(&self) -> bool {
        self.scalar() == Some(T::SCALAR)
    }
}
