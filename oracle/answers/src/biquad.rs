//! src/iir/biquad.rs: the f64 biquads, pairs of roots and offsets.

use crate::words::{Answers, Digest, Draw, Words, moved};
use dsp_process::SplitProcess;
use idsp::iir::{Biquad, BiquadClamp, DirectForm1, DirectForm2Transposed, Pair};

const INF: f64 = f64::INFINITY;

/// Zeros, infinities, NaN, the ends of the subnormal and normal ranges, numbers about one.
const SPECIAL: [f64; 24] = [
    0.0,
    -0.0,
    INF,
    -INF,
    f64::NAN,
    f64::from_bits(1),
    -f64::from_bits(1),
    f64::from_bits(0x000f_ffff_ffff_ffff),
    f64::MIN_POSITIVE,
    -f64::MIN_POSITIVE,
    f64::MAX,
    f64::MIN,
    1.0,
    -1.0,
    0.5,
    -0.5,
    2.0,
    1.0 + f64::EPSILON,
    1.0 - f64::EPSILON / 2.0,
    0.1,
    -1e300,
    1e300,
    1e-300,
    1e-160,
];

pub fn write(root: &str) {
    let mut out = Answers::new(37);
    let mut draw = Draw::new(moved(8));
    for kind in 1..=4 {
        steps(&mut out, &mut draw, kind);
    }
    for kind in 1..=4 {
        runs(&mut out, kind);
    }
    out.write(root, "biquad");

    let mut out = Answers::new(23);
    pairs(&mut out, &mut draw);
    offsets(&mut out, &mut draw);
    constants(&mut out);
    out.write(root, "biquad_coeff");
}

/// A number of size 1/8 to 2.
fn moderate(draw: &mut Draw) -> f64 {
    let (high, low) = (draw.word(), draw.word());
    let high = (high & 0x800f_ffff) + 0x3fc0_0000 + (high >> 20 & 3) * 0x10_0000;
    f64::from_bits((high as u64) << 32 | low as u64)
}

fn special(draw: &mut Draw) -> f64 {
    SPECIAL[draw.below(SPECIAL.len() as u32) as usize]
}

/// Any bits.
fn any(draw: &mut Draw) -> f64 {
    f64::from_bits((draw.word() as u64) << 32 | draw.word() as u64)
}

/// Moderate twice in four, special and any bits once each.
fn mixed(draw: &mut Draw) -> f64 {
    match draw.below(4) {
        0 => special(draw),
        1 => any(draw),
        _ => moderate(draw),
    }
}

/// Limits that document 01 accepts: no NaN, the lower not above the upper.
fn limits(draw: &mut Draw, number: fn(&mut Draw) -> f64) -> (f64, f64) {
    loop {
        let (a, b) = (number(draw), number(draw));
        if a <= b {
            return (a, b);
        }
    }
}

/// ba, u, min, max.
#[derive(Clone, Copy)]
struct Filter {
    ba: [f64; 5],
    u: f64,
    min: f64,
    max: f64,
}

impl Filter {
    fn clamped(&self) -> BiquadClamp<f64> {
        BiquadClamp { coeff: Biquad { ba: self.ba }, u: self.u, min: self.min, max: self.max }
    }
}

impl Words for Filter {
    fn put(&self, to: &mut dyn FnMut(u32)) {
        self.ba.put(to);
        [self.u, self.min, self.max].put(to);
    }
}

/// Kinds: 1 direct form 1, 2 the same clamped, 3 direct form 2 transposed, 4 the same clamped.
/// The state is x1, x2, y1, y2 for 1 and 2; for 3 and 4 its two cells, then zeros.
fn step(kind: u32, filter: &Filter, state: &mut [f64; 4], x: f64) -> f64 {
    let clamped = filter.clamped();
    let [a, b, c, d] = *state;
    if kind < 3 {
        let mut form = DirectForm1 { x: [a, b], y: [[c, d]] };
        let y = if kind == 1 { clamped.coeff.process(&mut form, x) } else { clamped.process(&mut form, x) };
        let ([a, b], [[c, d]]) = (form.x, form.y);
        *state = [a, b, c, d];
        y
    } else {
        let mut form = DirectForm2Transposed { x: [a, b], y: [] };
        let y = if kind == 3 { clamped.coeff.process(&mut form, x) } else { clamped.process(&mut form, x) };
        let [a, b] = form.x;
        *state = [a, b, 0.0, 0.0];
        y
    }
}

/// 1 to 4: a step of that kind.
fn steps(out: &mut Answers, draw: &mut Draw, kind: u32) {
    let mut case = |ba: [f64; 5], u: f64, (min, max): (f64, f64), mut state: [f64; 4], x: f64| {
        let plain = kind % 2 == 1;
        let filter = Filter {
            ba,
            u: if plain { 0.0 } else { u },
            min: if plain { -INF } else { min },
            max: if plain { INF } else { max },
        };
        if kind > 2 {
            state[2..].fill(0.0);
        }
        let mut after = state;
        let y = step(kind, &filter, &mut after, x);
        out.line(kind, &[&filter, &state, &x, &y, &after]);
    };
    fn many<const K: usize>(draw: &mut Draw, number: fn(&mut Draw) -> f64) -> [f64; K] {
        std::array::from_fn(|_| number(draw))
    }
    // Every special input through the identity and the hold.
    for (i, x) in SPECIAL.into_iter().enumerate() {
        let ba = if i % 4 == 3 { Biquad::<f64>::HOLD.ba } else { Biquad::<f64>::IDENTITY.ba };
        let unlimited = (-INF, INF);
        case(ba, 0.0, unlimited, [0.0, -0.0, x, 1.0], x);
    }
    for (count, number) in [(40, moderate as fn(&mut Draw) -> f64), (25, mixed), (25, special), (15, any)] {
        for i in 0..count {
            // Limits of the numbers' own kind clip often; every third time there are none.
            let limits = if i % 3 == 0 { (-INF, INF) } else { limits(draw, number) };
            case(many(draw, number), number(draw), limits, many(draw, number), number(draw));
        }
    }
    // Clipped below, above, at a limit, and at a limit of zero with the other sign.
    let one = Biquad::<f64>::IDENTITY.ba;
    for (limits, x) in [
        ((-1.0, 1.0), -3.0),
        ((-1.0, 1.0), 3.0),
        ((-1.0, 1.0), 1.0),
        ((2.0, 2.0), 1.0),
        ((0.0, -0.0), -0.0),
        ((0.0, 0.0), -1e-320),
        ((-0.0, 0.0), 1e-320),
        ((-INF, -INF), f64::NAN),
    ] {
        case(one, 0.0, limits, [0.5, 0.25, -1.0, 3.0], x);
    }
}

/// A low pass, a resonance close to the circle, an integrator that meets its limits, and one that decays
/// into the subnormal numbers.
const LOW: Filter = Filter {
    ba: [0.0674552738890719, 0.1349105477781438, 0.0674552738890719, 1.1429805025399, -0.4128015980961888],
    u: 0.015625,
    min: -1.25,
    max: 1.0,
};
const RESONANCE: Filter =
    Filter { ba: [0.001, -0.0005, 0.00025, 1.75, -0.998], u: -0.001, min: -0.5, max: 0.75 };
const INTEGRATOR: Filter = Filter { ba: [0.01, 0.02, -0.005, 1.0, 0.0], u: 0.0, min: -1.5, max: 2.25 };
const DECAY: Filter = Filter { ba: [1e-300, 0.0, 0.0, 0.7, -0.1], u: 0.0, min: -INF, max: INF };

/// 5 to 8: a run of kind 1 to 4 over moderate inputs. 9 to 12: over one 1.0, then zeros.
fn runs(out: &mut Answers, kind: u32) {
    for (filter, steps) in [(LOW, 1_000_000u32), (RESONANCE, 300_000), (INTEGRATOR, 300_000)] {
        let seed = moved(800 + kind);
        let mut draw = Draw::new(seed);
        let (mut digest, mut state) = (Digest::default(), [0.0; 4]);
        for _ in 0..steps {
            let y = step(kind, &filter, &mut state, moderate(&mut draw));
            assert!(y.is_finite());
            digest.feed(&y);
        }
        digest.feed(&state);
        out.line(4 + kind, &[&filter, &seed, &steps, &digest]);
    }
    for filter in [LOW, RESONANCE, DECAY] {
        let steps = 20_000u32;
        let (mut digest, mut state) = (Digest::default(), [0.0; 4]);
        for n in 0..steps {
            digest.feed(&step(kind, &filter, &mut state, (n == 0) as u32 as f64));
        }
        digest.feed(&state);
        out.line(8 + kind, &[&filter, &0u32, &steps, &digest]);
    }
}

fn pair(complex: bool, roots: [f64; 2]) -> Pair<f64> {
    if complex {
        Pair::Complex(roots)
    } else {
        Pair::Real(roots)
    }
}

/// 1: `Pair::coeff`. 2: `from_zpk`.
fn pairs(out: &mut Answers, draw: &mut Draw) {
    let numbers: [fn(&mut Draw) -> f64; 3] = [moderate, mixed, special];
    for i in 0..180 {
        let number = numbers[i % 3];
        let roots = [number(draw), number(draw)];
        for complex in [false, true] {
            let c = pair(complex, roots).coeff();
            out.line(1, &[&(complex as u32), &roots, &c]);
        }
    }
    let mut case = |zc: bool, zeros: [f64; 2], pc: bool, poles: [f64; 2], gain: f64| {
        let ba = Biquad::<f64>::from_zpk(pair(zc, zeros), pair(pc, poles), gain).ba;
        out.line(2, &[&(zc as u32), &zeros, &(pc as u32), &poles, &gain, &ba]);
    };
    // Document 01's bench figure.
    case(false, [2.0, 3.0], true, [0.5, 0.5], 2.0);
    for i in 0..200 {
        let number = numbers[i % 3];
        let kinds = draw.below(4);
        let zeros = [number(draw), number(draw)];
        let poles = [number(draw), number(draw)];
        case(kinds & 1 == 1, zeros, kinds & 2 == 2, poles, number(draw));
    }
}

/// 3: `forward_gain`. 4: `input_offset`, the gain not zero. 5: `set_input_offset`.
fn offsets(out: &mut Answers, draw: &mut Draw) {
    let numbers: [fn(&mut Draw) -> f64; 3] = [moderate, mixed, special];
    for i in 0..120 {
        let number = numbers[i % 3];
        let ba: [f64; 5] = std::array::from_fn(|_| number(draw));
        let u = number(draw);
        let mut filter = BiquadClamp::<f64>::from(Biquad { ba });
        let gain = filter.coeff.forward_gain();
        out.line(3, &[&ba, &gain]);
        filter.u = u;
        if gain != 0.0 {
            out.line(4, &[&ba, &u, &filter.input_offset()]);
        }
        filter.set_input_offset(u);
        out.line(5, &[&ba, &u, &filter.u]);
    }
}

/// 6, 7: identity and hold with the offset and limits that a clamped filter starts from. 8: `proportional`.
fn constants(out: &mut Answers) {
    for (code, biquad) in [(6, Biquad::<f64>::IDENTITY), (7, Biquad::HOLD)] {
        let f = BiquadClamp::<f64>::from(biquad);
        out.line(code, &[&f.coeff.ba, &[f.u, f.min, f.max]]);
    }
    for k in SPECIAL {
        out.line(8, &[&k, &Biquad::proportional(k).ba]);
    }
}
