//! src/pll.rs: the phase locked loop.

use crate::words::{Answers, Digest, Draw, Words, CORNERS, moved};
use dsp_fixedpoint::Q32;
use dsp_process::SplitProcess;
use idsp::{ClampWrap, PLLState, Wrap, PLL};
use std::num::Wrapping as W;

const STEPS: u32 = 1_000_000;

/// x0 and sign of the clamp, z0, y0, f0, f, y.
struct Fields<'a>(&'a PLLState);

impl Words for Fields<'_> {
    fn put(&self, to: &mut dyn FnMut(u32)) {
        let s = self.0;
        [s.clamp.x0.0, s.clamp.clamp as i32, s.z0, s.y0].put(to);
        [s.f0, s.f.0].put(to);
        s.y.0.put(to);
    }
}

fn pll(ba: [i32; 3]) -> PLL {
    PLL { ba: ba.map(Q32::from_bits) }
}

pub fn write(root: &str) {
    let mut out = Answers::new(24);
    let mut draw = Draw::new(moved(6));
    cases(&mut out, &mut draw);
    runs(&mut out);
    locks(&mut out);
    out.write(root, "pll");
}

fn state(draw: &mut Draw) -> PLLState {
    PLLState {
        clamp: ClampWrap {
            x0: W(draw.int()),
            clamp: [Wrap::Negative, Wrap::None, Wrap::Positive][draw.below(3) as usize],
        },
        z0: draw.int(),
        y0: draw.int(),
        f0: draw.long(),
        f: W(draw.long()),
        y: W(draw.int()),
    }
}

/// 1: a step. 2: `predict`. 3: phase and frequency.
fn cases(out: &mut Answers, draw: &mut Draw) {
    let mut step = |ba: [i32; 3], state: PLLState, x: i32| {
        let mut after = state.clone();
        let y = pll(ba).process(&mut after, W(x)).0;
        out.line(1, &[&ba, &Fields(&state), &x, &y, &Fields(&after)]);
    };
    for a in CORNERS {
        for b in CORNERS {
            // Coefficients, and every word of the state, at two corners.
            let [a, b] = [a as i32, b as i32];
            let long = (a as i64) << 32 | b as u32 as i64;
            let state = PLLState {
                clamp: ClampWrap { x0: W(a), clamp: (b as i64 - a as i64).cmp(&0).into() },
                z0: b,
                y0: a,
                f0: long,
                f: W(long.rotate_left(32)),
                y: W(b),
            };
            step([a, b, a], state.clone(), a);
            step([b, a, b], state, b);
        }
    }
    for _ in 0..400 {
        step(draw.ints(), state(draw), draw.int());
    }
    for _ in 0..120 {
        let state = state(draw);
        let mut after = state.clone();
        let y = after.predict().0;
        out.line(2, &[&[0u32; 3], &Fields(&state), &0u32, &y, &Fields(&after)]);
        let told = [state.phase().0, state.frequency().0];
        out.line(3, &[&[0u32; 3], &Fields(&state), &0u32, &told]);
    }
}

/// 4: fixed coefficients, spread input. 5: coefficients drawn at every step, `predict` one time in four.
fn runs(out: &mut Answers) {
    for (i, ba) in [
        GENTLE,
        BRISK,
        [i32::MIN, i32::MAX, i32::MIN],
        [i32::MAX, i32::MIN, i32::MAX],
        [-0x12345678, 0x3456789a, -0x40000000],
    ]
    .into_iter()
    .enumerate()
    {
        let seed = moved(700 + i as u32);
        let mut draw = Draw::new(seed);
        let mut state = PLLState::default();
        let mut digest = Digest::default();
        for _ in 0..STEPS {
            let y = pll(ba).process(&mut state, W(draw.int()));
            digest.feed(&[y.0, state.frequency().0]);
        }
        digest.feed(&Fields(&state));
        out.line(4, &[&seed, &STEPS, &ba, &digest]);
    }
    let seed = moved(710);
    let mut draw = Draw::new(seed);
    let mut state = PLLState::default();
    let mut digest = Digest::default();
    for _ in 0..STEPS {
        let y = if draw.below(4) == 0 {
            state.predict()
        } else {
            let (ba, x) = (draw.ints(), draw.int());
            pll(ba).process(&mut state, W(x))
        };
        digest.feed(&[y.0, state.frequency().0]);
    }
    digest.feed(&Fields(&state));
    out.line(5, &[&seed, &STEPS, &[0u32; 3], &digest]);
}

/// Loops of bandwidth 0.001 and 0.01 of the sample rate, split 4, by the crate's formula, rounded by hand.
const GENTLE: [i32; 3] = [-678234, 677169, -107944302];
const BRISK: [i32; 3] = [-67823405, 66758037, -1079443016];

/// 6: a steady input, x = start + n·increment; the last frequency settles to minus the increment.
fn locks(out: &mut Answers) {
    for ba in [GENTLE, BRISK] {
        for (start, increment) in [
            (0u32, 0u32),
            (0x12345678, 1),
            (0, 0x1000_0000),
            (0x80000000, 0x7fff_ffff),
            (5, 0x9000_0000),
            (0xdeadbeef, 0xfffe_dcba),
        ] {
            let steps = 200_000u32;
            let mut state = PLLState::default();
            let mut digest = Digest::default();
            for n in 0..steps {
                let x = start.wrapping_add(n.wrapping_mul(increment)) as i32;
                let y = pll(ba).process(&mut state, W(x));
                digest.feed(&[y.0, state.frequency().0]);
            }
            digest.feed(&Fields(&state));
            let last = state.frequency().0;
            assert!(last.wrapping_add(increment as i32) == 0);
            out.line(6, &[&start, &steps, &ba, &digest, &increment, &last]);
        }
    }
}
