//! The crate's filters over a block: its own step in a loop, as a caller writes it, never inlined into the measuring loop.
use core::num::Wrapping as W;
use dsp_fixedpoint::Q;
use dsp_process::{Process, SplitProcess};
use idsp::iir::wdf::{Wdf, WdfState};
use idsp::iir::{Biquad, BiquadClamp, DirectForm1, DirectForm1Dither, DirectForm1Wide, DirectForm2Transposed};
use idsp::{Cic, ClampWrap, Dsm, PLLState, RPLLConfig, Unwrapper, PLL, RPLL};

/// The decimator's and the interpolator's block on a word.
macro_rules! on_word {
    ($word:ident, $decimate:ident, $interpolate:ident) => {
        #[inline(never)]
        pub fn $decimate<const N: usize, const M: usize>(rate: u32, x: &[$word], y: &mut [$word]) {
            let mut filter = Cic::<$word, N, M>::new(rate);
            let mut k = 0;
            for x in x {
                if let Some(given) = filter.process(*x) {
                    y[k] = given;
                    k += 1;
                }
            }
        }

        #[inline(never)]
        pub fn $interpolate<const N: usize, const M: usize>(rate: u32, x: &[$word], y: &mut [$word]) {
            let mut filter = Cic::<$word, N, M>::new(rate);
            let mut k = 0;
            for y in y {
                let sample = if filter.tick() {
                    k += 1;
                    Some(x[k - 1])
                } else {
                    None
                };
                *y = filter.process(sample);
            }
        }
    };
}

on_word!(i32, decimate, interpolate);
on_word!(i64, decimate64, interpolate64);

/// Entry n: the number of ways to write n as a sum of three numbers from 0 to 63.
static TAPS: [i32; 190] = taps();

const fn taps() -> [i32; 190] {
    let mut row = [0; 190];
    let mut i = 0;
    while i < 64 * 64 * 64 {
        row[i % 64 + i / 64 % 64 + i / 4096] += 1;
        i += 1;
    }
    row
}

/// The plain engine's block as a Rust programmer would write it (the crate has none): the inputs from the newest back, then those kept
/// before, zipped with the table. Gives the inputs kept after it.
#[inline(never)]
pub fn fir(x: &[i32], y: &mut [i32]) -> [i32; 190] {
    let cells = core::hint::black_box([0; 190]);
    for (y, end) in y.iter_mut().zip((1..=x.len()).step_by(64)) {
        let back = x[..end].iter().rev().chain(&cells);
        *y = back.zip(&TAPS).fold(0, |sum, (x, tap)| sum.wrapping_add(x.wrapping_mul(*tap)));
    }
    let mut kept = [0; 190];
    for (cell, x) in kept.iter_mut().zip(x.iter().rev().chain(&cells)) {
        *cell = *x;
    }
    kept
}

/// The steps of a one-to-one block.
#[inline(always)]
fn each<X: Copy, Y>(x: &[X], y: &mut [Y], mut step: impl FnMut(X) -> Y) {
    for (x, y) in x.iter().zip(y) {
        *y = step(*x);
    }
}

#[inline(never)]
pub fn dsm<const K: usize>(x: &[u32], y: &mut [i16]) {
    let mut filter = Dsm::<K>::default();
    each(x, y, |x| filter.process(x) as i16)
}

#[inline(never)]
pub fn wdf<const N: usize, const A: u32>(a: i32, x: &[i32], y: &mut [i32]) {
    let filter = Wdf::<N, A> { a: [Q::from_bits(a); N] };
    let mut state = WdfState::<N>::default();
    each(x, y, |x| filter.process(&mut state, x))
}

fn plain(c: &[f64; 8]) -> Biquad<f64> {
    Biquad { ba: [c[0], c[1], c[2], c[3], c[4]] }
}

fn clamped(c: &[f64; 8]) -> BiquadClamp<f64, f64> {
    BiquadClamp { coeff: plain(c), u: c[5], min: c[6], max: c[7] }
}

#[inline(never)]
pub fn df1(c: &[f64; 8], x: &[f64], y: &mut [f64]) {
    let (filter, mut state) = (plain(c), DirectForm1::default());
    each(x, y, |x| filter.process(&mut state, x))
}

#[inline(never)]
pub fn df1_clamp(c: &[f64; 8], x: &[f64], y: &mut [f64]) {
    let (filter, mut state) = (clamped(c), DirectForm1::default());
    each(x, y, |x| filter.process(&mut state, x))
}

#[inline(never)]
pub fn df2t(c: &[f64; 8], x: &[f64], y: &mut [f64]) {
    let (filter, mut state) = (plain(c), DirectForm2Transposed::default());
    each(x, y, |x| filter.process(&mut state, x))
}

#[inline(never)]
pub fn df2t_clamp(c: &[f64; 8], x: &[f64], y: &mut [f64]) {
    let (filter, mut state) = (clamped(c), DirectForm2Transposed::default());
    each(x, y, |x| filter.process(&mut state, x))
}

fn fixed<const F: i8>(c: &[i32; 8]) -> Biquad<Q<i32, i64, F>> {
    Biquad { ba: [c[0], c[1], c[2], c[3], c[4]].map(Q::from_bits) }
}

fn fixed_clamped<const F: i8>(c: &[i32; 8]) -> BiquadClamp<Q<i32, i64, F>, i32> {
    BiquadClamp { coeff: fixed(c), u: c[5], min: c[6], max: c[7] }
}

#[inline(never)]
pub fn wide<const F: i8>(c: &[i32; 8], x: &[i32], y: &mut [i32]) {
    let (filter, mut state) = (fixed::<F>(c), DirectForm1Wide::default());
    each(x, y, |x| filter.process(&mut state, x))
}

#[inline(never)]
pub fn wide_clamp<const F: i8>(c: &[i32; 8], x: &[i32], y: &mut [i32]) {
    let (filter, mut state) = (fixed_clamped::<F>(c), DirectForm1Wide::default());
    each(x, y, |x| filter.process(&mut state, x))
}

#[inline(never)]
pub fn dither<const F: i8>(c: &[i32; 8], x: &[i32], y: &mut [i32]) {
    let (filter, mut state) = (fixed::<F>(c), DirectForm1Dither::default());
    each(x, y, |x| filter.process(&mut state, x))
}

#[inline(never)]
pub fn dither_clamp<const F: i8>(c: &[i32; 8], x: &[i32], y: &mut [i32]) {
    let (filter, mut state) = (fixed_clamped::<F>(c), DirectForm1Dither::default());
    each(x, y, |x| filter.process(&mut state, x))
}

#[inline(never)]
pub fn pll(c: &[i32; 3], x: &[i32], y: &mut [i32]) {
    let (filter, mut state) = (PLL { ba: c.map(Q::from_bits) }, PLLState::default());
    each(x, y, |x| filter.process(&mut state, W(x)).0)
}

#[inline(never)]
pub fn clamp_wrap(x: &[i32], y: &mut [i32]) {
    let mut filter = ClampWrap::<W<i32>>::default();
    each(x, y, |x| filter.process(W(x)).0)
}

#[inline(never)]
pub fn unwrapper(x: &[i32], y: &mut [i32]) {
    let mut filter = Unwrapper::<i64>::default();
    each(x, y, |x| filter.process(x))
}

/// Single steps: 0 where one gives nothing.
#[inline(never)]
pub fn steps<const N: usize, const M: usize>(rate: u32, x: &[i32], y: &mut [i32]) {
    let mut filter = Cic::<i32, N, M>::new(rate);
    each(x, y, |x| Process::<i32, Option<i32>>::process(&mut filter, x).unwrap_or(0))
}

/// An input is a timestamp where its flag says so. The first half of y takes the phases, the second the frequencies.
#[inline(never)]
pub fn rpll(c: &[u8; 3], there: &[bool], x: &[i32], y: &mut [i32]) {
    let filter = RPLLConfig { dt2: c[0], shift_frequency: c[1], shift_phase: c[2] };
    let mut state = RPLL::default();
    let (y, f) = y.split_at_mut(x.len());
    for ((there, x), (y, f)) in there.iter().zip(x).zip(y.iter_mut().zip(f)) {
        let out = filter.process(&mut state, there.then_some(W(*x)));
        (*y, *f) = (out.state.0, out.step.0);
    }
}

#[inline(never)]
pub fn scale(hi: i32, shift: u32, x: &[i32], y: &mut [i32]) {
    each(x, y, |x| idsp::saturating_scale(x, hi, shift))
}
