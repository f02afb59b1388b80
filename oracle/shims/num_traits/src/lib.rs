//! Debian's num-traits is 0.2.15; the crate asks for a later one that has `ConstZero` and `ConstOne`.
//! This adds those two for the primitive numbers and hands on everything else.

pub use debian::*;

/// Zero as an associated constant.
pub trait ConstZero: Zero {
    const ZERO: Self;
}

/// One as an associated constant.
pub trait ConstOne: One {
    const ONE: Self;
}

macro_rules! constants {
    ($zero:literal $one:literal: $($ty:ident)*) => {$(
        impl ConstZero for $ty {
            const ZERO: Self = $zero;
        }
        impl ConstOne for $ty {
            const ONE: Self = $one;
        }
    )*};
}
constants!(0 1: i8 i16 i32 i64 i128 isize u8 u16 u32 u64 u128 usize);
constants!(0.0 1.0: f32 f64);
