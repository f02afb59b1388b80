//! The other filters on drawn states and blocks beside the crate's: outputs and states must be equal, and a refused call must leave state and
//! slice as they were. `saturating_scale` is not here: its rule is not the crate's (docs/DIFFERENCES.md).
use crate::mittenload::{self, Refused};
use crate::{Draw, Tally};
use dsp_fixedpoint::{Q, Q32};
use dsp_process::{Process, SplitProcess};
use idsp::iir::wdf::{Wdf, WdfState};
use idsp::iir::{Biquad, BiquadClamp, DirectForm1, DirectForm1Dither, DirectForm1Wide, DirectForm2Transposed, Pair};
use idsp::{ClampWrap, Dsm, PLLState, RPLLConfig, Unwrapper, Wrap, PLL, RPLL};
use std::num::Wrapping as W;

impl Draw {
    fn int(&mut self) -> i32 {
        self.next() as i32
    }

    fn long(&mut self) -> i64 {
        (self.next() as i64) << 32 | self.next() as i64
    }

    fn ints<const N: usize>(&mut self) -> [i32; N] {
        std::array::from_fn(|_| self.int())
    }

    fn number(&mut self) -> f64 {
        self.int() as f64 / 1073741824.0
    }

    fn list<T>(&mut self, one: impl Fn(&mut Draw) -> T) -> Vec<T> {
        (0..self.below(24)).map(|_| one(self)).collect()
    }
}

/// One call on a block, whose slices differ in length one time in eight. `bad`: the filter's own numbers are to refuse it.
fn block<S: Copy + PartialEq, X: Copy, Y: Copy + PartialEq + Default>(
    draw: &mut Draw,
    tally: &mut Tally,
    state: &mut S,
    xs: &[X],
    bad: bool,
    call: impl FnOnce(&mut S, &[X], &mut [Y]) -> Result<(), Refused>,
    mut step: impl FnMut(X) -> Y,
) {
    let other = draw.below(8) == 0;
    let before = *state;
    let mut out = vec![Y::default(); xs.len() + other as usize];
    tally.calls += 1;
    if let Err(number) = call(state, xs, &mut out) {
        tally.refused += 1;
        assert!(if other { number == Refused(31) } else { bad });
        assert!(*state == before && out.iter().all(|y| *y == Y::default()), "a refused call changed something");
    } else {
        assert!(!other && !bad);
        assert!(xs.iter().zip(&out).all(|(x, y)| step(*x) == *y));
    }
}

fn phases(draw: &mut Draw, tally: &mut Tally) {
    let mut ours = mittenload::Unwrapper { y: draw.long() };
    let mut theirs = Unwrapper { y: ours.y };
    let xs = draw.list(Draw::int);
    block(draw, tally, &mut ours, &xs, false, |s, xs, ys| s.block(xs, ys), |x| theirs.process(x));
    assert!(ours.y == theirs.y && ours.phase() == theirs.phase::<i32>());

    let sign = draw.below(3);
    let mut ours = mittenload::ClampWrap { x0: draw.int(), wrap: sign };
    let mut theirs = ClampWrap { x0: ours.x0, clamp: [Wrap::None, Wrap::Positive, Wrap::Negative][sign as usize] };
    block(draw, tally, &mut ours, &xs, false, |s, xs, ys| s.block(xs, ys), |x| theirs.process(x));
    assert!(ours.x0 == theirs.x0 && [0, 1, -1][ours.wrap as usize] == theirs.clamp as i32);

    let (y, x) = (draw.int(), draw.int());
    let (delta, wrap) = idsp::overflowing_sub(y, x);
    assert_eq!(mittenload::overflowing_sub(y, x), (delta, wrap as i32));
    tally.calls += 1;
}

fn modulator<const K: usize>(draw: &mut Draw, tally: &mut Tally) {
    let mut ours = mittenload::Dsm::new(K as u64).unwrap();
    let mut theirs = Dsm::<K>::default();
    for j in 0..K {
        ours.accumulators[j] = draw.next();
        ours.retained[j] = if j + 1 < K { (1 - (1 << j) + draw.below(2 << j) as i32) as i16 } else { 0 };
        theirs.a[j] = ours.accumulators[j];
        theirs.c[j] = ours.retained[j] as i8;
    }
    let bad = K > 1 && draw.below(8) == 0;
    if bad {
        ours.retained[0] = 2;
    }
    let xs = draw.list(Draw::next);
    // The crate gives i8, which the greatest output of order 8 wraps.
    block(draw, tally, &mut ours, &xs, bad, |s, xs, ys: &mut [i16]| s.block(xs, ys), |x| {
        let y = theirs.process(x) as i16;
        if K == 8 && y == -128 { 128 } else { y }
    });
    if !bad {
        assert!((0..K).all(|j| ours.accumulators[j] == theirs.a[j]));
        assert!((1..K).all(|j| ours.retained[j - 1] as i8 == theirs.c[j - 1]));
        assert!(ours.output_range().is_ok());
    }
    assert_eq!(mittenload::Dsm::new(9), Err(Refused(30)));
    tally.calls += 3;
    tally.refused += 1;
}

fn lattice<const N: usize, const M: u32>(draw: &mut Draw, tally: &mut Tally) {
    let mut ours = mittenload::Wdf::from_form1(N as u64, M, draw.ints()).unwrap();
    ours.z = draw.ints();
    let theirs = Wdf::<N, M> { a: std::array::from_fn(|j| Q32::from_bits(ours.a[j])) };
    let mut state = WdfState::<N> { z: std::array::from_fn(|j| ours.z[j]) };
    let xs = draw.list(Draw::int);
    block(draw, tally, &mut ours, &xs, false, |s, xs, ys| s.block(xs, ys), |x| theirs.process(&mut state, x));
    assert_eq!(ours.z[..N], state.z);
    assert_eq!(mittenload::Wdf::new(9, M, [0; 8]), Err(Refused(50)));
    tally.calls += 2;
    tally.refused += 1;
}

fn doubles(draw: &mut Draw, tally: &mut Tally) {
    let n = |d: &mut Draw| d.number();
    let mut c = mittenload::Biquad { b0: n(draw), b1: n(draw), b2: n(draw), a1: n(draw) / 2.0, a2: n(draw) / 2.0 };
    if draw.below(2) == 0 {
        let pair = |d: &mut Draw| (d.below(2) == 1, [d.number() / 2.0, d.number() / 2.0]);
        let ((zc, z), (pc, p), gain) = (pair(draw), pair(draw), n(draw));
        let ours = |c: bool, r: [f64; 2]| if c { mittenload::Pair::Complex(r[0], r[1]) } else { mittenload::Pair::Real(r[0], r[1]) };
        let theirs = |c: bool, r: [f64; 2]| if c { Pair::Complex(r) } else { Pair::Real(r) };
        c = mittenload::Biquad::from_zpk(ours(zc, z), ours(pc, p), gain);
        assert_eq!([c.b0, c.b1, c.b2, c.a1, c.a2], Biquad::<f64>::from_zpk(theirs(zc, z), theirs(pc, p), gain).ba);
        tally.calls += 1;
    }
    let plain = Biquad { ba: [c.b0, c.b1, c.b2, c.a1, c.a2] };
    let (u, a, b) = (n(draw), n(draw), n(draw));
    let mut held = mittenload::BiquadClamp { b0: c.b0, b1: c.b1, b2: c.b2, a1: c.a1, a2: c.a2, u, min: a, max: b };
    let mut clamped = BiquadClamp { coeff: Biquad { ba: plain.ba }, u, min: a, max: b };
    assert_eq!(c.forward_gain(), plain.forward_gain());
    assert_eq!(held.input_offset(), Ok(clamped.input_offset()));
    let i = n(draw);
    held.set_input_offset(i);
    clamped.set_input_offset(i);
    assert_eq!(held.u, clamped.u);
    tally.calls += 3;

    let xs = draw.list(Draw::number);
    let mut ours = mittenload::DirectForm1 { x1: n(draw), x2: n(draw), y1: n(draw), y2: n(draw) };
    let mut theirs = DirectForm1 { x: [ours.x1, ours.x2], y: [[ours.y1, ours.y2]] };
    block(draw, tally, &mut ours, &xs, false, |s, xs, ys| s.block(&c, xs, ys), |x| plain.process(&mut theirs, x));
    block(draw, tally, &mut ours, &xs, a > b, |s, xs, ys| s.block_clamp(&held, xs, ys), |x| clamped.process(&mut theirs, x));
    assert_eq!(([ours.x1, ours.x2], [[ours.y1, ours.y2]]), (theirs.x, theirs.y));
    let mut ours = mittenload::DirectForm2Transposed { s1: n(draw), s2: n(draw) };
    let mut theirs = DirectForm2Transposed { x: [ours.s1, ours.s2], y: [] };
    block(draw, tally, &mut ours, &xs, false, |s, xs, ys| s.block(&c, xs, ys), |x| plain.process(&mut theirs, x));
    block(draw, tally, &mut ours, &xs, a > b, |s, xs, ys| s.block_clamp(&held, xs, ys), |x| clamped.process(&mut theirs, x));
    assert_eq!([ours.s1, ours.s2], theirs.x);
}

fn words<const F: i8>(draw: &mut Draw, tally: &mut Tally) {
    let (ba, [u, a, b]): ([i32; 5], [i32; 3]) = (draw.ints(), draw.ints());
    let f = F as u32;
    let c = mittenload::Words { b0: ba[0], b1: ba[1], b2: ba[2], a1: ba[3], a2: ba[4], f };
    let held = mittenload::WordsClamp { b0: ba[0], b1: ba[1], b2: ba[2], a1: ba[3], a2: ba[4], f, u, min: a, max: b };
    let plain = Biquad::<Q<i32, i64, F>> { ba: ba.map(Q::from_bits) };
    let clamped = BiquadClamp::<Q<i32, i64, F>, i32> { coeff: Biquad { ba: ba.map(Q::from_bits) }, u, min: a, max: b };
    let xs = draw.list(Draw::int);
    let mut ours = mittenload::DirectForm1Wide { x1: draw.int(), x2: draw.int(), y1: draw.long(), y2: draw.long() };
    let mut theirs = DirectForm1Wide { x: [ours.x1, ours.x2], y: [ours.y1, ours.y2] };
    block(draw, tally, &mut ours, &xs, false, |s, xs, ys| s.block(&c, xs, ys), |x| plain.process(&mut theirs, x));
    block(draw, tally, &mut ours, &xs, a > b, |s, xs, ys| s.block_clamp(&held, xs, ys), |x| clamped.process(&mut theirs, x));
    assert_eq!(([ours.x1, ours.x2], [ours.y1, ours.y2]), (theirs.x, theirs.y));
    let [x1, x2, y1, y2] = draw.ints();
    let mut ours = mittenload::DirectForm1Dither { x1, x2, y1, y2, e: draw.next() };
    let mut theirs = DirectForm1Dither { xy: DirectForm1 { x: [x1, x2], y: [[y1, y2]] }, e: ours.e };
    block(draw, tally, &mut ours, &xs, F == 0, |s, xs, ys| s.block(&c, xs, ys), |x| plain.process(&mut theirs, x));
    block(draw, tally, &mut ours, &xs, F == 0 || a > b, |s, xs, ys| s.block_clamp(&held, xs, ys), |x| clamped.process(&mut theirs, x));
    assert_eq!(([ours.x1, ours.x2], [[ours.y1, ours.y2]], ours.e), (theirs.xy.x, theirs.xy.y, theirs.e));
}

fn loops(draw: &mut Draw, tally: &mut Tally) {
    let ([b0, b1, a1], [x0, z0, y0, y], sign) = (draw.ints(), draw.ints(), draw.below(3));
    let c = mittenload::Loop { b0, b1, a1 };
    let mut ours = mittenload::Pll { x0, wrap: sign, z0, y0, f0: draw.long(), f: draw.long(), y };
    let clamp = ClampWrap { x0: W(x0), clamp: [Wrap::None, Wrap::Positive, Wrap::Negative][sign as usize] };
    let mut theirs = PLLState { clamp, z0, y0, f0: ours.f0, f: W(ours.f), y: W(y) };
    let pll = PLL { ba: [b0, b1, a1].map(Q32::from_bits) };
    let xs = draw.list(Draw::int);
    block(draw, tally, &mut ours, &xs, false, |s, xs, ys| s.block(&c, xs, ys), |x| pll.process(&mut theirs, W(x)).0);
    assert_eq!(ours.frequency(), theirs.frequency().0);
    assert_eq!(ours.predict(), theirs.predict().0);
    assert_eq!((ours.x0, [0, 1, -1][ours.wrap as usize], ours.z0, ours.y0), (theirs.clamp.x0.0, theirs.clamp.clamp as i32, theirs.z0, theirs.y0));
    assert_eq!((ours.f0, ours.f, ours.y), (theirs.f0, theirs.f.0, theirs.y.0));

    let dt2 = draw.below(32) as u8;
    let c = mittenload::RpllConfig { dt2, shift_frequency: dt2 + draw.below(3) as u8, shift_phase: dt2 + draw.below(33) as u8 };
    let good = dt2 <= 30 && c.shift_frequency > dt2 && c.shift_frequency <= 32 && c.shift_phase <= dt2 + 31;
    let mut ours = mittenload::Rpll { x: draw.int(), ff: draw.next(), f: draw.next(), y: draw.int() };
    let mut theirs = RPLL { x: W(ours.x), ff: W(ours.ff), f: W(ours.f), y: W(ours.y) };
    let config = RPLLConfig { dt2, shift_frequency: c.shift_frequency, shift_phase: c.shift_phase };
    let there: Vec<bool> = xs.iter().map(|_| draw.below(2) == 0).collect();
    let (mut phases, mut frequencies) = (vec![0; xs.len()], vec![0; xs.len()]);
    let before = ours;
    let answer = ours.block(&c, &there, &xs, &mut phases, &mut frequencies);
    assert_eq!(answer.is_ok(), good);
    let x = (draw.below(2) == 0).then(|| draw.int());
    let step = ours.process(&c, x);
    assert_eq!(step.is_ok(), good);
    if good {
        for i in 0..xs.len() {
            let accu = config.process(&mut theirs, there[i].then_some(W(xs[i])));
            assert_eq!((phases[i], frequencies[i]), (accu.state.0, accu.step.0));
        }
        let accu = config.process(&mut theirs, x.map(W));
        assert_eq!(step, Ok((accu.state.0, accu.step.0)));
        assert_eq!((ours.x, ours.ff, ours.f, ours.y), (theirs.x.0, theirs.ff.0, theirs.f.0, theirs.y.0));
    } else {
        tally.refused += 2;
        assert!(ours == before && phases.iter().chain(&frequencies).all(|y| *y == 0));
    }
    tally.calls += 4;
}

pub fn run(draw: &mut Draw, tally: &mut Tally) {
    phases(draw, tally);
    modulator::<0>(draw, tally);
    modulator::<1>(draw, tally);
    modulator::<2>(draw, tally);
    modulator::<3>(draw, tally);
    modulator::<5>(draw, tally);
    modulator::<8>(draw, tally);
    lattice::<0, 0>(draw, tally);
    lattice::<1, 0xe>(draw, tally);
    lattice::<2, 0x1a>(draw, tally);
    lattice::<3, 0xfbc>(draw, tally);
    lattice::<5, 0xdca1b>(draw, tally);
    lattice::<8, 0x0abcdef1>(draw, tally);
    doubles(draw, tally);
    words::<0>(draw, tally);
    words::<1>(draw, tally);
    words::<15>(draw, tally);
    words::<29>(draw, tally);
    words::<31>(draw, tally);
    loops(draw, tally);
}
