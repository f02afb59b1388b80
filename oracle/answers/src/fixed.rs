//! src/iir/biquad.rs: the wide and the dithered direct form 1 on i32.

use crate::words::{Answers, Digest, Draw, Words, moved};
use dsp_fixedpoint::Q;
use dsp_process::SplitProcess;
use idsp::iir::{Biquad, BiquadClamp, DirectForm1, DirectForm1Dither, DirectForm1Wide};

/// Coefficients, offset and limits.
#[derive(Clone, Copy)]
struct Filter {
    ba: [i32; 5],
    u: i32,
    min: i32,
    max: i32,
}

impl Filter {
    fn plain<const F: i8>(&self) -> Biquad<Q<i32, i64, F>> {
        Biquad { ba: self.ba.map(Q::from_bits) }
    }

    fn clamped<const F: i8>(&self) -> BiquadClamp<Q<i32, i64, F>, i32> {
        BiquadClamp { coeff: self.plain(), u: self.u, min: self.min, max: self.max }
    }
}

impl Words for Filter {
    fn put(&self, to: &mut dyn FnMut(u32)) {
        self.ba.put(to);
        [self.u, self.min, self.max].put(to);
    }
}

/// Either state: two inputs, then four words that hold the two wide outputs (`kind` 1, 2) or two outputs
/// and the error (`kind` 3, 4). Kinds 2 and 4 are clamped.
#[derive(Clone, Copy, Default)]
struct State {
    x: [i32; 2],
    y: [u32; 4],
}

impl Words for State {
    fn put(&self, to: &mut dyn FnMut(u32)) {
        self.x.put(to);
        self.y.put(to);
    }
}

fn step<const F: i8>(kind: u32, filter: &Filter, state: &mut State, x: i32) -> i32 {
    let [a, b, c, d] = state.y;
    if kind < 3 {
        let mut wide = DirectForm1Wide { x: state.x, y: [long(a, b), long(c, d)] };
        let y = if kind == 1 {
            filter.plain::<F>().process(&mut wide, x)
        } else {
            filter.clamped::<F>().process(&mut wide, x)
        };
        state.x = wide.x;
        let [y1, y2] = wide.y;
        state.y = [(y1 >> 32) as u32, y1 as u32, (y2 >> 32) as u32, y2 as u32];
        y
    } else {
        let mut dither =
            DirectForm1Dither { xy: DirectForm1 { x: state.x, y: [[a as i32, b as i32]] }, e: c };
        let y = if kind == 3 {
            filter.plain::<F>().process(&mut dither, x)
        } else {
            filter.clamped::<F>().process(&mut dither, x)
        };
        state.x = dither.xy.x;
        let [[y1, y2]] = dither.xy.y;
        state.y = [y1 as u32, y2 as u32, dither.e, 0];
        y
    }
}

fn long(high: u32, low: u32) -> i64 {
    ((high as u64) << 32 | low as u64) as i64
}

pub fn write(root: &str) {
    let mut out = Answers::new(24);
    let mut draw = Draw::new(moved(5));
    macro_rules! every {
        ($($f:literal)*) => {
            $(fraction::<$f>(&mut out, &mut draw);)*
        };
    }
    every!(0 1 2 3 4 5 6 7 8 9 10 11 12 13 14 15 16 17 18 19 20 21 22 23 24 25 26 27 28 29 30 31);
    out.write(root, "biquad_fixed");
}

/// The kinds that take `F`: document 01 refuses 0 for the dithered ones.
fn fraction<const F: i8>(out: &mut Answers, draw: &mut Draw) {
    for kind in if F == 0 { 1..3 } else { 1..5 } {
        cases::<F>(out, draw, kind);
        run::<F>(out, kind);
        if [0, 1, 15, 30, 31].contains(&F) {
            tame_run::<F>(out, kind);
        }
    }
}

/// Filter and state of spread words, in the order of a line; the limits are sorted.
fn drawn(draw: &mut Draw, kind: u32) -> (Filter, State) {
    let (ba, u) = (draw.ints(), draw.int());
    let [a, b]: [i32; 2] = draw.ints();
    let (min, max) = (a.min(b), a.max(b));
    let mut state = State { x: draw.ints(), y: std::array::from_fn(|_| draw.spread()) };
    if kind > 2 {
        state.y[3] = 0;
    }
    (Filter { ba, u, min, max }, state)
}

/// 1 to 4: a step.
fn cases<const F: i8>(out: &mut Answers, draw: &mut Draw, kind: u32) {
    let mut case = |filter: Filter, state: State, x: i32| {
        let mut after = state;
        let y = step::<F>(kind, &filter, &mut after, x);
        out.line(kind, &[&(F as u32), &filter, &state, &x, &y, &after]);
    };
    for i in 0..5 {
        let (mut filter, mut state) = drawn(draw, kind);
        // An error below 2^F every second time; dithered kinds only.
        if kind > 2 && i % 2 == 0 {
            state.y[2] &= (1 << F) - 1;
        }
        // Limits that rarely clip.
        if i == 1 {
            (filter.min, filter.max) = (i32::MIN, i32::MAX);
        }
        case(filter, state, draw.int());
    }
    // The sums at their widest, either sign.
    let word = |least: bool| if least { i32::MIN } else { i32::MAX };
    let least = F % 2 == 0;
    let filter = Filter { ba: [word(true); 5], u: word(least), min: i32::MIN / 2, max: i32::MAX / 2 };
    let mut state = State { x: [word(least); 2], y: [word(least) as u32; 4] };
    if kind > 2 {
        state.y[2..].copy_from_slice(&[u32::MAX, 0]);
    }
    case(filter, state, word(least));
}

/// 5 to 8: a run of 1 to 4, everything drawn.
fn run<const F: i8>(out: &mut Answers, kind: u32) {
    let seed = moved(400 + 4 * F as u32 + kind);
    let steps = if F == 30 { 1_000_000u32 } else { 10_000 };
    let mut draw = Draw::new(seed);
    let (filter, mut state) = drawn(&mut draw, kind);
    let digest = ran::<F>(kind, &filter, &mut state, &mut draw, steps);
    out.line(4 + kind, &[&(F as u32), &seed, &steps, &digest]);
}

/// 9 to 12: a run of 1 to 4 from zero with a tame filter: some sixteenths each, at least one bit.
fn tame_run<const F: i8>(out: &mut Answers, kind: u32) {
    let part = |n: i64| match (n << F) / 16 {
        0 => n.signum() as i32,
        bits => bits as i32,
    };
    let filter = Filter {
        ba: [part(4), part(3), part(-2), part(9), part(-5)],
        u: 1234567,
        min: -(1 << 29),
        max: (1 << 29) + 3,
    };
    let (seed, steps) = (moved(600 + F as u32), 50_000u32);
    let digest = ran::<F>(kind, &filter, &mut State::default(), &mut Draw::new(seed), steps);
    out.line(8 + kind, &[&(F as u32), &filter, &seed, &steps, &digest]);
}

fn ran<const F: i8>(kind: u32, filter: &Filter, state: &mut State, draw: &mut Draw, steps: u32) -> Digest {
    let mut digest = Digest::default();
    for _ in 0..steps {
        digest.feed(&step::<F>(kind, filter, state, draw.int()));
    }
    digest.feed(state);
    digest
}
