//! src/dsm.rs: the modulator, beside document 01's rule in wide integers.

use crate::words::{Answers, Digest, Draw, CORNERS, moved};
use dsp_process::Process;
use idsp::Dsm;

const STEPS: u32 = 1_000_000;

pub fn write(root: &str) {
    let mut out = Answers::new(37);
    let mut draw = Draw::new(moved(2));
    of_every_order(&mut out, &mut draw);
    out.write(root, "dsm");
}

fn of_every_order(out: &mut Answers, draw: &mut Draw) {
    order::<0>(out, draw);
    order::<1>(out, draw);
    order::<2>(out, draw);
    order::<3>(out, draw);
    order::<4>(out, draw);
    order::<5>(out, draw);
    order::<6>(out, draw);
    order::<7>(out, draw);
    order::<8>(out, draw);
}

fn order<const K: usize>(out: &mut Answers, draw: &mut Draw) {
    cases::<K>(out, draw);
    ends::<K>(out);
    run::<K>(out, 3, moved(20 + K as u32), STEPS);
    run::<K>(out, 4, moved(30 + K as u32), STEPS / 10);
}

/// The modulator by document 01, without a width for its carries.
#[derive(Clone, Copy, Default, PartialEq)]
struct Rule {
    order: usize,
    accumulators: [u32; 8],
    retained: [i32; 8],
}

impl Rule {
    fn step(&mut self, x: u32) -> i32 {
        let mut carries = [0; 8];
        let mut x = x;
        for j in 0..self.order {
            let sum = self.accumulators[j] as u64 + x as u64;
            carries[j] = (sum >> 32) as i32;
            x = sum as u32;
            self.accumulators[j] = x;
        }
        let Some(last) = self.order.checked_sub(1) else {
            return 0;
        };
        let mut y = carries[last];
        for j in 0..last {
            let next = carries[last - 1 - j] + y - self.retained[j];
            self.retained[j] = y;
            y = next;
        }
        y
    }
}

/// The crate's modulator in the state of `rule`.
fn crates<const K: usize>(rule: &Rule) -> Dsm<K> {
    let mut dsm = Dsm::<K>::default();
    for j in 0..K {
        dsm.a[j] = rule.accumulators[j];
        dsm.c[j] = rule.retained[j] as i8;
    }
    dsm
}

/// The crate's state as eight words each, those beyond K zero.
fn cells<const K: usize>(dsm: &Dsm<K>) -> ([u32; 8], [i32; 8]) {
    let mut cells = ([0; 8], [0; 8]);
    for j in 0..K {
        cells.0[j] = dsm.a[j];
        cells.1[j] = dsm.c[j] as i32;
    }
    cells
}

/// 1: a step from any accepted state.
fn cases<const K: usize>(out: &mut Answers, draw: &mut Draw) {
    let mut case = |accumulators: [u32; 8], retained: [i32; 8], x: u32| {
        let mut rule = Rule { order: K, accumulators, retained };
        for j in K..8 {
            rule.accumulators[j] = 0;
        }
        for j in K.saturating_sub(1)..8 {
            rule.retained[j] = 0;
        }
        let before = rule;
        let mut dsm = crates::<K>(&rule);
        let y = dsm.process(x) as i32;
        let after = cells(&dsm);
        let told = rule.step(x);
        assert!((rule.accumulators, rule.retained) == after);
        out.line(
            1,
            &[&(K as u32), &before.accumulators, &before.retained, &x, &y, &after.0, &after.1, &told],
        );
    };
    // Every accumulator and input at a corner, every retained cell at its lower or upper end.
    for (i, corner) in CORNERS.into_iter().enumerate() {
        for low in [true, false] {
            let retained = std::array::from_fn(|j| if low { 1 - (1 << j) } else { 1 << j });
            case([corner; 8], retained, CORNERS[(i * 3 + low as usize) % 10]);
        }
    }
    // The accumulators one below their carry, the carries running through or stopping at one of them.
    for stop in 0..8 {
        let accumulators = std::array::from_fn(|j| if j == stop { 0 } else { u32::MAX });
        let retained = std::array::from_fn(|j| if (j + stop) % 2 == 0 { 1 - (1 << j) } else { 1 << j });
        case(accumulators, retained, 1);
    }
    for _ in 0..30 {
        let accumulators = std::array::from_fn(|_| draw.spread());
        let retained = std::array::from_fn(|j| 1 - (1 << j) + draw.below(2 << j) as i32);
        case(accumulators, retained, draw.spread());
    }
}

/// Inputs from zero under which the last of K accumulators swings between near 0 and near 2^32:
/// the K-th difference of that swing, since each accumulator sums the one before.
struct Swing {
    order: usize,
    step: u32,
    last: [u32; 8],
}

impl Swing {
    fn new(order: usize) -> Self {
        Self { order, step: 0, last: [0; 8] }
    }

    /// The next input, where the last accumulator comes within `margin` of the end whose turn it is.
    fn next(&mut self, margin: u32) -> u32 {
        let mut x = if self.step % 2 == 0 { 0u32.wrapping_sub(margin) } else { margin };
        for last in &mut self.last[..self.order] {
            (x, *last) = (x.wrapping_sub(*last), x);
        }
        self.step += 1;
        x
    }
}

/// 2: ten inputs from zero, the crate's outputs and document 01's; they reach both ends of the range.
fn ends<const K: usize>(out: &mut Answers) {
    if K == 0 {
        return;
    }
    let mut swing = Swing::new(K);
    let mut dsm = Dsm::<K>::default();
    let mut rule = Rule { order: K, ..Rule::default() };
    let xs: [u32; 10] = std::array::from_fn(|_| swing.next(1 << 20));
    let ys = xs.map(|x| dsm.process(x) as i32);
    let told = xs.map(|x| rule.step(x));
    assert!(told.contains(&(1 - (1 << (K - 1)))) && told.contains(&(1 << (K - 1))));
    out.line(2, &[&(K as u32), &xs, &ys, &told]);
}

/// 3: a run over spread inputs. 4: a run over a swing whose margin is a draw modulo 2^20.
fn run<const K: usize>(out: &mut Answers, code: u32, seed: u32, steps: u32) {
    let mut draw = Draw::new(seed);
    let mut swing = Swing::new(K);
    let mut dsm = Dsm::<K>::default();
    let mut rule = Rule { order: K, ..Rule::default() };
    let mut digests = [Digest::default(); 2];
    let mut differ = 0u32;
    for _ in 0..steps {
        let x = if code == 3 { draw.spread() } else { swing.next(draw.below(1 << 20)) };
        let (y, told) = (dsm.process(x) as i32, rule.step(x));
        digests[0].feed(&y);
        digests[1].feed(&told);
        differ += (y != told) as u32;
    }
    let states = [cells(&dsm), (rule.accumulators, rule.retained)];
    for (digest, (a, c)) in digests.iter_mut().zip(states) {
        digest.feed(&a[..K]);
        digest.feed(&c[..K.saturating_sub(1)]);
    }
    out.line(code, &[&(K as u32), &seed, &steps, &digests, &differ]);
}
