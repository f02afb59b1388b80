//! src/iir/wdf.rs: the adapters and the chain of sections.

use crate::words::{Answers, Digest, Draw, CORNERS, moved};
use dsp_fixedpoint::Q32;
use dsp_process::SplitProcess;
use idsp::iir::wdf::{Tpa, Wdf, WdfState};

/// One step of a filter compiled in: coefficients, cells, input. Cells beyond the sections stay.
type Step = fn(&[i32; 8], &mut [i32; 8], i32) -> i32;

include!(concat!(env!("OUT_DIR"), "/pairs.rs"));

fn step<const N: usize, const M: u32>(a: &[i32; 8], z: &mut [i32; 8], x: i32) -> i32 {
    let wdf = Wdf::<N, M> { a: std::array::from_fn(|j| Q32::from_bits(a[j])) };
    let mut state = WdfState::<N> { z: std::array::from_fn(|j| z[j]) };
    let y = wdf.process(&mut state, x);
    z[..N].copy_from_slice(&state.z);
    y
}

fn adapt(nibble: u32, x: [i32; 2], a: i32) -> [i32; 2] {
    Tpa::from(nibble as u8).adapt(x, Q32::from_bits(a))
}

pub fn write(root: &str) {
    let mut out = Answers::new(29);
    let mut draw = Draw::new(moved(4));
    adapters(&mut out, &mut draw);
    chains(&mut out, &mut draw);
    out.write(root, "wdf");
}

/// 1: a nibble's step. 3: the digest over all triples of corners. 4: a run.
fn adapters(out: &mut Answers, draw: &mut Draw) {
    for nibble in 0..16u32 {
        let mut case = |x: [i32; 2], a: i32| out.line(1, &[&nibble, &x, &a, &adapt(nibble, x, a)]);
        case([i32::MIN, i32::MAX], i32::MIN);
        case([i32::MAX, i32::MIN], i32::MIN);
        case([0, 1], -1);
        case([1, 0], -1);
        case([-1, 0], i32::MAX);
        for _ in 0..3 {
            case(draw.ints(), draw.int());
        }

        let mut digest = Digest::default();
        for x0 in CORNERS {
            for x1 in CORNERS {
                for a in CORNERS {
                    digest.feed(&adapt(nibble, [x0 as i32, x1 as i32], a as i32));
                }
            }
        }
        out.line(3, &[&nibble, &digest]);

        let (seed, steps) = (moved(60 + nibble), 100_000u32);
        let mut draw = Draw::new(seed);
        let mut digest = Digest::default();
        for _ in 0..steps {
            let (x, a) = (draw.ints(), draw.int());
            digest.feed(&adapt(nibble, x, a));
        }
        out.line(4, &[&nibble, &seed, &steps, &digest]);
    }
}

/// 2: a step. 5: a run; one filter of five sections runs longest.
fn chains(out: &mut Answers, draw: &mut Draw) {
    for (i, (sections, word, step)) in PAIRS.into_iter().enumerate() {
        let (a, z, x): ([i32; 8], [i32; 8], i32) = (draw.ints(), draw.ints(), draw.int());
        let mut after = z;
        let y = step(&a, &mut after, x);
        out.line(2, &[&sections, &word, &a, &z, &x, &y, &after]);

        let seed = moved(100 + i as u32);
        let steps = if i == 17 + 3 * 33 { 1_000_000u32 } else { 4_000 };
        let mut draw = Draw::new(seed);
        let (a, mut z) = (draw.ints(), draw.ints());
        let mut digest = Digest::default();
        for _ in 0..steps {
            digest.feed(&step(&a, &mut z, draw.int()));
        }
        digest.feed(&z[..sections as usize]);
        out.line(5, &[&sections, &word, &seed, &steps, &digest]);
    }
}
