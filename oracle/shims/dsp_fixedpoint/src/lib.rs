//! `dsp_fixedpoint` isn't in the text. Document 01's rule stands for it: a 32-bit coefficient times an i32 is
//! the whole i64 product, sums of such products add the i64; where the result is an i32 (WDF, F = 32), the
//! product is divided by 2^F and rounded down.

use core::cmp::Ordering;
use core::marker::PhantomData;
use core::ops::{Add, Mul};
use num_traits::{ConstZero, Zero};

/// A number of `F` fraction bits held in `T`; a product's sum is held in `A`.
pub struct Q<T, A, const F: i8> {
    bits: T,
    wide: PhantomData<A>,
}

pub type Q32<const F: i8> = Q<i32, i64, F>;

impl<T, A, const F: i8> Q<T, A, F> {
    pub const fn from_bits(bits: T) -> Self {
        Self { bits, wide: PhantomData }
    }
}

impl<T: Copy, A, const F: i8> Q<T, A, F> {
    pub fn into_bits(self) -> T {
        self.bits
    }

    /// The crate's rounding isn't in the text: what rests on it isn't compared.
    pub fn from_f32(_: f32) -> Self {
        unimplemented!()
    }

    /// As `from_f32`.
    pub fn from_f64(_: f64) -> Self {
        unimplemented!()
    }
}

/// Coefficient times word: the whole product.
impl<const F: i8> Mul<i32> for Q<i32, i64, F> {
    type Output = Q<i64, i64, F>;

    fn mul(self, x: i32) -> Self::Output {
        Q::from_bits(self.bits as i64 * x as i64)
    }
}

/// Word times coefficient: a word again, rounded down.
impl<const F: i8> Mul<Q<i32, i64, F>> for i32 {
    type Output = i32;

    fn mul(self, q: Q<i32, i64, F>) -> i32 {
        ((self as i64 * q.bits as i64) >> F) as i32
    }
}

impl<T: Add<Output = T>, A, const F: i8> Add for Q<T, A, F> {
    type Output = Self;

    fn add(self, other: Self) -> Self {
        Self::from_bits(self.bits + other.bits)
    }
}

// What the crate's `Clamp` for `Q` and its derives ask for.

impl<T: Copy, A, const F: i8> Copy for Q<T, A, F> {}

impl<T: Copy, A, const F: i8> Clone for Q<T, A, F> {
    fn clone(&self) -> Self {
        *self
    }
}

impl<T: Default, A, const F: i8> Default for Q<T, A, F> {
    fn default() -> Self {
        Self::from_bits(T::default())
    }
}

impl<T: core::fmt::Debug, A, const F: i8> core::fmt::Debug for Q<T, A, F> {
    fn fmt(&self, f: &mut core::fmt::Formatter<'_>) -> core::fmt::Result {
        self.bits.fmt(f)
    }
}

impl<T: PartialEq, A, const F: i8> PartialEq for Q<T, A, F> {
    fn eq(&self, other: &Self) -> bool {
        self.bits == other.bits
    }
}

impl<T: PartialOrd, A, const F: i8> PartialOrd for Q<T, A, F> {
    fn partial_cmp(&self, other: &Self) -> Option<Ordering> {
        self.bits.partial_cmp(&other.bits)
    }
}

impl<T: Zero, A, const F: i8> Zero for Q<T, A, F> {
    fn zero() -> Self {
        Self::from_bits(T::zero())
    }

    fn is_zero(&self) -> bool {
        self.bits.is_zero()
    }
}

impl<T: ConstZero, A, const F: i8> ConstZero for Q<T, A, F> {
    const ZERO: Self = Self::from_bits(T::ZERO);
}
