//! src/rpll.rs: the reciprocal loop.

use crate::words::{Answers, Digest, Draw, Words, moved};
use dsp_process::SplitProcess;
use idsp::{RPLLConfig, RPLL};
use std::num::Wrapping as W;

/// dt2, shift_frequency, shift_phase.
type Config = [u32; 3];

fn config([dt2, shift_frequency, shift_phase]: Config) -> RPLLConfig {
    RPLLConfig { dt2: dt2 as u8, shift_frequency: shift_frequency as u8, shift_phase: shift_phase as u8 }
}

/// x, ff, f, y.
struct Fields<'a>(&'a RPLL);

impl Words for Fields<'_> {
    fn put(&self, to: &mut dyn FnMut(u32)) {
        let s = self.0;
        [s.x.0 as u32, s.ff.0, s.f.0, s.y.0 as u32].put(to);
    }
}

/// Phase and frequency.
fn step(c: Config, state: &mut RPLL, x: Option<i32>) -> [i32; 2] {
    let accu = config(c).process(state, x.map(W));
    assert!(accu.state == state.phase() && accu.step.0 as u32 == state.frequency().0);
    [accu.state.0, accu.step.0]
}

pub fn write(root: &str) {
    let mut out = Answers::new(16);
    let mut draw = Draw::new(moved(7));
    cases(&mut out, &mut draw);
    runs(&mut out, &mut draw);
    locks(&mut out);
    out.write(root, "rpll");
}

/// 1: a step, with and without a timestamp, over configurations at their ends and within.
fn cases(out: &mut Answers, draw: &mut Draw) {
    for dt2 in 0..=30 {
        for frequency in [dt2 + 1, 32, dt2 + 1 + draw.below(32 - dt2), dt2 + 1 + draw.below(32 - dt2)] {
            for phase in [dt2, dt2 + 31, dt2 + draw.below(32), dt2 + draw.below(32)] {
                let c = [dt2, frequency, phase];
                let mut case = |given: bool, draw: &mut Draw| {
                    let state = RPLL {
                        x: W(draw.int()),
                        ff: W(draw.spread()),
                        f: W(draw.spread()),
                        y: W(draw.int()),
                    };
                    let x = given.then(|| draw.int());
                    let mut after = state;
                    let told = step(c, &mut after, x);
                    let x = [given as i32, x.unwrap_or(0)];
                    out.line(1, &[&c, &Fields(&state), &x, &told, &Fields(&after)]);
                };
                case(true, draw);
                case(true, draw);
                if phase == dt2 {
                    case(false, draw);
                }
            }
        }
    }
}

/// 2: from zero, a timestamp where the draw is odd.
fn runs(out: &mut Answers, draw: &mut Draw) {
    let mut case = |c: Config, steps: u32| {
        let seed = draw.word();
        let mut inputs = Draw::new(seed);
        let mut state = RPLL::default();
        let mut digest = Digest::default();
        for _ in 0..steps {
            let x = (inputs.word() % 2 == 1).then(|| inputs.int());
            digest.feed(&step(c, &mut state, x));
        }
        digest.feed(&Fields(&state));
        out.line(2, &[&c, &seed, &steps, &digest]);
    };
    for dt2 in 0..=30 {
        case([dt2, dt2 + 1, dt2], 2_000);
        case([dt2, 32, dt2 + 31], 2_000);
        case([dt2, (dt2 + 9).min(32), dt2 + 8], 2_000);
    }
    case([8, 9, 8], 1_000_000);
    case([0, 1, 31], 1_000_000);
    case([17, 29, 28], 1_000_000);
}

/// 3: a steady reference: the timestamps first, first + period, .. of a counter that each step moves by 2^dt2.
fn locks(out: &mut Answers) {
    for (c, first, period, steps) in [
        ([8, 9, 8], 333, 333, 10_000),
        ([8, 10, 9], 257, 1000, 10_000),
        ([8, 20, 19], 77, 0x1234, 1_000_000),
        ([10, 23, 22], 0x12000, 0x12345, 1_000_000),
        ([0, 6, 5], 3, 7, 100_000),
        ([0, 16, 15], 0, 4096, 1_000_000),
        ([14, 24, 23], 1, 0x4000, 200_000),
        ([14, 25, 24], 9999, 0x10003, 500_000),
    ] {
        let (mut now, mut next) = (0u32, first);
        let mut state = RPLL::default();
        let mut digest = Digest::default();
        for _ in 0..steps {
            now = now.wrapping_add(1 << c[0]);
            let due = now.wrapping_sub(next) < 1 << 31;
            digest.feed(&step(c, &mut state, due.then_some(next as i32)));
            if due {
                next = next.wrapping_add(period);
            }
        }
        digest.feed(&Fields(&state));
        let steady = ((1u64 << (32 + c[0])) / period as u64) as u32;
        let last = state.f.0;
        assert!((last.wrapping_sub(steady) as i32).abs() < 200);
        out.line(3, &[&c, &first, &steps, &digest, &period, &last, &steady]);
    }
}
