//! src/unwrap.rs: phase words.

use crate::words::{Answers, Digest, Draw, CORNERS, moved};
use dsp_process::Process;
use idsp::{overflowing_sub, saturating_scale, ClampWrap, Unwrapper, Wrap};
use num_traits::{AsPrimitive, Num, One, Signed, WrappingAdd, Zero};
use std::collections::BTreeSet;
use std::ops::{Add, BitAnd, Div, Mul, Neg, Rem, Sub};

const STEPS: u32 = 1_000_000;

pub fn write(root: &str) {
    let mut out = Answers::new(8);
    let mut draw = Draw::new(moved(1));
    differences(&mut out, &mut draw);
    scales(&mut out, &mut draw);
    least_pairs(&mut out);
    unwrappers(&mut out, &mut draw);
    clamps(&mut out, &mut draw);
    runs(&mut out);
    out.write(root, "unwrap");
}

const WRAPS: [Wrap; 3] = [Wrap::Negative, Wrap::None, Wrap::Positive];

/// 1: y, x, delta, wrap. 2: wrap, wrap, their sum.
fn differences(out: &mut Answers, draw: &mut Draw) {
    let mut case = |y: u32, x: u32| {
        let (delta, wrap) = overflowing_sub(y as i32, x as i32);
        out.line(1, &[&y, &x, &delta, &(wrap as i32)]);
    };
    for y in CORNERS {
        for x in CORNERS {
            case(y, x);
        }
    }
    for _ in 0..100 {
        case(draw.spread(), draw.spread());
    }
    for a in WRAPS {
        for b in WRAPS {
            out.line(2, &[&(a as i32), &(b as i32), &((a + b) as i32)]);
        }
    }
}

/// The scaled word by request A11, in wide integers.
fn rule(lo: i32, hi: i32, shift: u32) -> i32 {
    let whole = ((hi as i128) << 32) + lo as i128;
    (whole >> shift).clamp(i32::MIN as i128, i32::MAX as i128) as i32
}

/// 3: lo, hi, shift, the crate's scaled word, that of the rule.
fn scales(out: &mut Answers, draw: &mut Draw) {
    let mut case = |lo: i32, hi: i32, shift: u32| {
        out.line(3, &[&lo, &hi, &shift, &saturating_scale(lo, hi, shift), &rule(lo, hi, shift)]);
    };
    for shift in 1..=32 {
        let limit = 1i64 << (shift - 1);
        let near = (-2..=2).flat_map(|d| [limit + d, -limit + d]);
        let far = [0, i32::MAX as i64, i32::MIN as i64];
        let all: BTreeSet<i64> = near.chain(far).collect();
        for hi in all.into_iter().filter_map(|hi| i32::try_from(hi).ok()) {
            for lo in [0, -1, i32::MIN, i32::MAX] {
                case(lo, hi, shift);
            }
        }
        for _ in 0..4 {
            case(draw.int(), draw.int() >> (32 - shift), shift);
        }
    }
}

/// 12: as 3, at the pair nearest to zero, of each sign, at which the crate's word is above the rule's, and at which it is
/// below. From the clip on the crate gives one word and the rule moves one way, so that a bisection finds them.
fn least_pairs(out: &mut Answers) {
    for shift in 1..=31 {
        for sign in [1i64, -1] {
            let limit = sign << (shift - 1);
            // The pairs from the clip outwards: number n is n away from its first.
            let pair = |n: i64| {
                let first = if sign > 0 { i32::MIN } else { i32::MAX };
                let lo = first as i128 + (sign * n) as i128;
                let whole = ((limit as i128) << 32) + lo;
                let hi = (whole + (1 << 31)) >> 32;
                ((whole - (hi << 32)) as i32, hi as i32)
            };
            for above in [true, false] {
                let found = |n: i64| {
                    let (lo, hi) = pair(n);
                    let (theirs, ours) = (saturating_scale(lo, hi, shift), rule(lo, hi, shift));
                    if above { theirs > ours } else { theirs < ours }
                };
                // Outwards the rule leaves the crate's word behind on one side: there it is true from some pair on,
                // on the other from the first pair on or never.
                let n = if (sign > 0) == above {
                    if !found(0) {
                        continue;
                    }
                    0
                } else {
                    let (mut no, mut yes) = (-1, 1i64 << 32);
                    if !found(yes) {
                        continue;
                    }
                    while no + 1 < yes {
                        let n = (no + yes) / 2;
                        if found(n) { yes = n } else { no = n }
                    }
                    yes
                };
                let (lo, hi) = pair(n);
                out.line(12, &[&lo, &hi, &shift, &saturating_scale(lo, hi, shift), &rule(lo, hi, shift)]);
            }
        }
    }
}

/// 4: y, x, the difference, y after. 5: y, its turn count and phase.
fn unwrappers(out: &mut Answers, draw: &mut Draw) {
    let mut case = |y: i64, x: u32| {
        let mut state = Unwrapper { y };
        let dx: i32 = state.process(x as i32);
        out.line(4, &[&y, &x, &dx, &state.y]);
    };
    for high in [0, 1, 0x7fffffff, 0x80000000, 0xffffffffu32] {
        for low in [0, 1, 0x7fffffff, 0x80000000, 0xffffffffu32] {
            let y = (high as u64) << 32 | low as u64;
            for x in [0, 1, 0x7fffffff, 0x80000000, 0xffffffff] {
                case(y as i64, x);
            }
        }
    }
    for _ in 0..100 {
        case(draw.long(), draw.spread());
    }
    let mut case = |y: i64| {
        let state = Unwrapper { y };
        let turns: Turns = state.wraps::<Turns, 32>();
        out.line(5, &[&y, &turns.0, &state.phase::<i32>()]);
    };
    for high in CORNERS {
        for low in CORNERS {
            case(((high as u64) << 32 | low as u64) as i64);
        }
    }
    for _ in 0..50 {
        case(draw.long());
    }
}

/// 6: x0, clamp, x, the output, x0 and clamp after.
fn clamps(out: &mut Answers, draw: &mut Draw) {
    let mut case = |x0: u32, clamp: Wrap, x: u32| {
        let mut state = ClampWrap { x0: x0 as i32, clamp };
        let y = state.process(x as i32);
        out.line(6, &[&x0, &(clamp as i32), &x, &y, &state.x0, &(state.clamp as i32)]);
    };
    for clamp in WRAPS {
        for x0 in [0, 1, 0x7fffffff, 0x80000000, 0xffffffff, 0x40000000, 0xc0000000] {
            for x in [0, 1, 0x7fffffff, 0x80000000, 0xffffffff, 0x40000000, 0xc0000000] {
                case(x0, clamp, x);
            }
        }
        for _ in 0..40 {
            case(draw.spread(), clamp, draw.spread());
        }
    }
}

/// Runs: seed, steps, a start of two words, the digest.
fn runs(out: &mut Answers) {
    let seed = moved(7);
    let mut draw = Draw::new(seed);
    let mut digest = Digest::default();
    for _ in 0..STEPS {
        let (delta, wrap) = overflowing_sub(draw.int(), draw.int());
        digest.feed(&[delta, wrap as i32]);
    }
    out.line(7, &[&seed, &STEPS, &0i64, &digest]);

    // 8 takes hi as drawn, 9 takes it into the range that shift leaves unclipped.
    for (code, seed) in [(8, moved(8)), (9, moved(9))] {
        let mut draw = Draw::new(seed);
        let mut crates = Digest::default();
        let mut rules = Digest::default();
        let mut differ = 0u32;
        for _ in 0..STEPS {
            let (lo, hi, shift) = (draw.int(), draw.int(), 1 + draw.below(32));
            let hi = if code == 9 { hi >> (32 - shift) } else { hi };
            let (theirs, ours) = (saturating_scale(lo, hi, shift), rule(lo, hi, shift));
            crates.feed(&theirs);
            rules.feed(&ours);
            differ += (theirs != ours) as u32;
        }
        out.line(code, &[&seed, &STEPS, &crates, &rules, &differ]);
    }

    for (seed, start) in [(moved(10), 0i64), (moved(11), i64::MAX - 5), (moved(12), i64::MIN + 5)] {
        let mut draw = Draw::new(seed);
        let mut digest = Digest::default();
        let mut state = Unwrapper { y: start };
        for _ in 0..STEPS {
            let dx: i32 = state.process(draw.int());
            digest.feed(&dx);
            digest.feed(&state.wraps::<Turns, 32>().0);
            digest.feed(&state.phase::<i32>());
        }
        digest.feed(&state.y);
        out.line(10, &[&seed, &STEPS, &start, &digest]);
    }

    let seed = moved(13);
    let mut draw = Draw::new(seed);
    let mut digest = Digest::default();
    let mut state = ClampWrap::<i32>::default();
    for _ in 0..STEPS {
        digest.feed(&state.process(draw.int()));
    }
    digest.feed(&[state.x0, state.clamp as i32]);
    out.line(11, &[&seed, &STEPS, &0i64, &digest]);
}

/// An i32 with the one operation that `Unwrapper::wraps` asks for and i32 lacks: `BitAnd<u32>`.
/// The rest hands on to i32.
#[derive(Clone, Copy, PartialEq)]
struct Turns(i32);

impl BitAnd<u32> for Turns {
    type Output = Self;

    fn bitand(self, bits: u32) -> Self {
        Self(self.0 & bits as i32)
    }
}

impl AsPrimitive<Turns> for i64 {
    fn as_(self) -> Turns {
        Turns(self as i32)
    }
}

impl WrappingAdd for Turns {
    fn wrapping_add(&self, v: &Self) -> Self {
        Self(self.0.wrapping_add(v.0))
    }
}

macro_rules! hand_on {
    ($($of:ident $call:ident)*) => {$(
        impl $of for Turns {
            type Output = Self;

            fn $call(self, v: Self) -> Self {
                Self(self.0.$call(v.0))
            }
        }
    )*};
}
hand_on!(Add add Sub sub Mul mul Div div Rem rem);

impl Neg for Turns {
    type Output = Self;

    fn neg(self) -> Self {
        Self(-self.0)
    }
}

impl Zero for Turns {
    fn zero() -> Self {
        Self(0)
    }

    fn is_zero(&self) -> bool {
        self.0 == 0
    }
}

impl One for Turns {
    fn one() -> Self {
        Self(1)
    }
}

impl Num for Turns {
    type FromStrRadixErr = std::num::ParseIntError;

    fn from_str_radix(s: &str, radix: u32) -> Result<Self, Self::FromStrRadixErr> {
        i32::from_str_radix(s, radix).map(Self)
    }
}

impl Signed for Turns {
    fn abs(&self) -> Self {
        Self(self.0.abs())
    }

    fn abs_sub(&self, other: &Self) -> Self {
        Self((self.0 - other.0).max(0))
    }

    fn signum(&self) -> Self {
        Self(self.0.signum())
    }

    fn is_positive(&self) -> bool {
        self.0 > 0
    }

    fn is_negative(&self) -> bool {
        self.0 < 0
    }
}
