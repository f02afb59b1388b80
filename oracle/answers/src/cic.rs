// src/cic.rs: the decimator and interpolator on Word. main.rs names it and takes this text in once for each.

use crate::words::{longer, moved, Answers, Cell, Digest, Draw};
use dsp_process::Process;
use idsp::Cic;

const NONE: u32 = u32::MAX;
const RATES: [u32; 7] = [0, 1, 2, 4, 63, 1023, 65535];

/// A case: the filter's numbers, the seed of its cells and inputs, a run's length, in steps or blocks, and later rate,
/// and the sample that the filter is settled on.
#[derive(Clone, Copy)]
struct Case {
    order: u32,
    delay: u32,
    rate: u32,
    countdown: u32,
    seed: u32,
    steps: u32,
    later: u32,
    sample: Word,
}

pub fn write(root: &str) {
    let mut out = Answers::new(15);
    let mut draw = Draw::new(moved(3));
    short_runs(&mut out, &mut draw);
    block_runs(&mut out, &mut Draw::new(moved(4)));
    questions(&mut out, &mut draw);
    fits(&mut out, &mut Draw::new(moved(5)));
    out.write(root, NAME);
}

/// Every order with every delay; delays 4 to 7 at one rate only.
fn each_filter(mut f: impl FnMut(u32, u32, u32)) {
    for order in 0..=8 {
        for delay in 1..=8 {
            for rate in RATES {
                if rate == 2 || !(4..8).contains(&delay) {
                    f(order, delay, rate);
                }
            }
        }
    }
}

/// 1, 2: decimator and interpolator, the whole state digested after every step.
fn short_runs(out: &mut Answers, draw: &mut Draw) {
    each_filter(|order, delay, rate| {
        for code in [1, 2] {
            let mut case = Case {
                order,
                delay,
                rate,
                countdown: draw.below(rate.min(20) + 1),
                seed: draw.word(),
                steps: 48,
                later: NONE,
                sample: 0,
            };
            run(out, code, &case);
            // Another rate half way, and a countdown that may lie above the rate.
            case.countdown = match draw.below(8) {
                0 => 65535,
                1 => (rate + 1).min(65535),
                _ => draw.below(24),
            };
            case.seed = draw.word();
            case.later = RATES[draw.below(7) as usize];
            run(out, code, &case);
        }
    });
}

/// 3, 4: runs by blocks. Every order with every delay, then nine longer ones.
fn block_runs(out: &mut Answers, draw: &mut Draw) {
    for code in [3, 4] {
        for (order, delay) in (0..=8).flat_map(|n| (1..=8).map(move |m| (n, m))) {
            let rate = RATES[draw.below(6) as usize];
            let later = if draw.below(2) == 0 { NONE } else { RATES[draw.below(6) as usize] };
            let (countdown, seed, steps) = (draw.below(24), draw.word(), longer(60));
            blocks(out, code, &Case { order, delay, rate, countdown, seed, steps, later, sample: 0 });
        }
        for (order, delay, rate, steps, later) in [
            (3, 1, 4, 10_000, NONE),
            (3, 1, 63, 10_000, NONE),
            (0, 1, 7, 1_000, NONE),
            (1, 1, 1023, 3_000, NONE),
            (2, 3, 2, 3_000, 4),
            (5, 2, 15, 3_000, NONE),
            (8, 8, 0, 2_000, NONE),
            (8, 5, 1, 1_000, 0),
            (4, 1, 65535, 4_000, NONE),
        ] {
            let (seed, steps) = (moved(40 + order), longer(steps));
            blocks(out, code, &Case { order, delay, rate, countdown: order, seed, steps, later, sample: 0 });
        }
    }
}

fn blocks(out: &mut Answers, code: u32, c: &Case) {
    let line = [c.order, c.delay, c.rate, c.countdown, c.seed, c.steps, c.later];
    let (digest, taken) = by_blocks_filter(c, code);
    out.line(code, &[&line, &digest, &taken]);
}

fn run(out: &mut Answers, code: u32, c: &Case) {
    let digest = of_filter(c, code);
    let line = [c.order, c.delay, c.rate, c.countdown, c.seed, c.steps, c.later];
    out.line(code, &[&line, &digest]);
}

/// 5: the questions. 6: the state after `settle_interpolate`. 7: after `clear`.
fn questions(out: &mut Answers, draw: &mut Draw) {
    each_filter(|order, delay, rate| {
        let mut case = Case {
            order,
            delay,
            rate,
            countdown: draw.below(2) * draw.below(65536),
            seed: draw.word(),
            steps: 0,
            later: 0,
            sample: 0,
        };
        let line = |c: &Case| [c.order, c.delay, c.rate, c.countdown, c.seed];
        let (tick, [decimated, interpolated, gain], sizes) = asked_filter(&case);
        out.line(5, &[&line(&case), &tick, &decimated, &interpolated, &gain, &sizes]);
        if (order + delay + rate) % 2 == 0 {
            case.sample = Word::drawn(draw);
            out.line(6, &[&line(&case), &case.sample.bits(), &of_filter(&case, 6)]);
        }
        if rate == 2 {
            out.line(7, &[&line(&case), &0u64, &of_filter(&case, 7)]);
        }
    });
}

/// 8: the most bits whose inputs fit 32 bits, and 64, by document 02's rule in whole numbers (0: none). The crate has no
/// such question; its bound is `gain_log2`. Each order at a gain of no power of two, at powers of two, and drawn.
fn fits(out: &mut Answers, draw: &mut Draw) {
    for order in 0..=8 {
        fit(out, order, 1, 4);
        fit(out, order, 8, 63);
        fit(out, order, 1 + draw.below(8), draw.below(1024));
    }
    for order in [2, 3, 4, 8] {
        fit(out, order, 1, 65535);
    }
}

fn fit(out: &mut Answers, order: u32, delay: u32, rate: u32) {
    let case = Case { order, delay, rate, countdown: 0, seed: 0, steps: 0, later: 0, sample: 0 };
    let gain = ((rate as u128 + 1) * delay as u128).saturating_pow(order);
    let most = |width: u32| (1..=width).rev().find(|b| gain <= 1 << (width - b)).unwrap_or(0);
    let (_, _, [log2, _]) = asked_filter(&case);
    out.line(8, &[&[order, delay, rate, 0, 0], &[most(32), most(64)], &log2]);
}

/// The filter of a case. The cells are drawn as eight integrators, eight rows of eight comb cells, and the
/// hold; those beyond the order and delay are drawn too.
fn filter<const N: usize, const M: usize>(c: &Case, draw: &mut Draw) -> Cic<Word, N, M> {
    let integrators: [Word; 8] = draw.cells();
    let combs: [[Word; 8]; 8] = std::array::from_fn(|_| draw.cells());
    let mut cic = Cic::new(c.rate);
    cic.index = c.countdown;
    cic.zoh = Word::drawn(draw);
    for j in 0..N {
        cic.integrators[j] = integrators[j];
        cic.combs[j].copy_from_slice(&combs[j][..M]);
    }
    cic
}

fn feed_state<const N: usize, const M: usize>(digest: &mut Digest, cic: &Cic<Word, N, M>) {
    digest.feed(&cic.index);
    digest.feed(&cic.zoh);
    digest.feed(&cic.integrators);
    cic.combs.iter().for_each(|line| digest.feed(line));
}

fn digest<const N: usize, const M: usize>(c: &Case, code: u32) -> Digest {
    let mut draw = Draw::new(c.seed);
    let mut cic = filter::<N, M>(c, &mut draw);
    let mut digest = Digest::default();
    match code {
        6 => cic.settle_interpolate(c.sample),
        7 => cic.clear(),
        _ => {
            for i in 0..c.steps {
                if i == c.steps / 2 && c.later != NONE {
                    cic.set_rate(c.later);
                }
                let x = Word::drawn(&mut draw);
                let y: Option<Word> = if code % 2 == 1 {
                    cic.process(x)
                } else {
                    let sample = cic.tick().then_some(x);
                    Some(cic.process(sample))
                };
                digest.feed(&(y.is_some() as u32));
                y.iter().for_each(|y| digest.feed(y));
                feed_state(&mut digest, &cic);
            }
        }
    }
    if code > 2 {
        feed_state(&mut digest, &cic);
    }
    digest
}

/// The length of a run's next block: one time in four 0, 1 or 2, else up to 250.
fn length(draw: &mut Draw) -> u32 {
    let u = draw.word();
    if u % 4 == 0 { u / 4 % 3 } else { u / 4 % 251 }
}

/// A run by blocks, and its steps. The crate has none: a block is its steps in turn, the samples that are due taken
/// from the front of its inputs; what it answers is the count of the outputs, or of the samples taken.
fn by_blocks<const N: usize, const M: usize>(c: &Case, code: u32) -> (Digest, u32) {
    let mut draw = Draw::new(c.seed);
    let mut cic = filter::<N, M>(c, &mut draw);
    let mut digest = Digest::default();
    let mut taken = 0;
    for i in 0..c.steps {
        if i == c.steps / 2 && c.later != NONE {
            cic.set_rate(c.later);
        }
        let len = length(&mut draw);
        let words: [Word; 250] = draw.cells();
        let xs = &words[..len as usize];
        let (count, ys): (u32, Vec<Word>) = if code == 3 {
            let ys: Vec<Word> = xs.iter().filter_map(|x| cic.process(*x)).collect();
            (ys.len() as u32, ys)
        } else {
            let mut due = xs.iter();
            let ys =
                (0..len).map(|_| cic.process(if cic.tick() { due.next().copied() } else { None })).collect();
            (len - due.len() as u32, ys)
        };
        digest.feed(&count);
        digest.feed(&ys[..]);
        feed_state(&mut digest, &cic);
        taken += len;
    }
    (digest, taken)
}

/// `tick`; `get_decimate`, `get_interpolate`, `gain`; `gain_log2`, `response_length`.
fn asked<const N: usize, const M: usize>(c: &Case) -> (u32, [u64; 3], [u32; 2]) {
    let cic = filter::<N, M>(c, &mut Draw::new(c.seed));
    (
        cic.tick() as u32,
        [cic.get_decimate(), cic.get_interpolate(), cic.gain()].map(Word::bits),
        [cic.gain_log2(), cic.response_length() as u32],
    )
}

/// Order and delay are const generics in the crate: all 72 pairs are compiled in.
macro_rules! of_delay {
    ($f:ident, $n:literal, $c:expr $(, $more:expr)*) => {
        match $c.delay {
            1 => $f::<$n, 1>($c $(, $more)*),
            2 => $f::<$n, 2>($c $(, $more)*),
            3 => $f::<$n, 3>($c $(, $more)*),
            4 => $f::<$n, 4>($c $(, $more)*),
            5 => $f::<$n, 5>($c $(, $more)*),
            6 => $f::<$n, 6>($c $(, $more)*),
            7 => $f::<$n, 7>($c $(, $more)*),
            8 => $f::<$n, 8>($c $(, $more)*),
            _ => unreachable!(),
        }
    };
}

macro_rules! of_order {
    ($f:ident, $c:expr $(, $more:expr)*) => {
        match $c.order {
            0 => of_delay!($f, 0, $c $(, $more)*),
            1 => of_delay!($f, 1, $c $(, $more)*),
            2 => of_delay!($f, 2, $c $(, $more)*),
            3 => of_delay!($f, 3, $c $(, $more)*),
            4 => of_delay!($f, 4, $c $(, $more)*),
            5 => of_delay!($f, 5, $c $(, $more)*),
            6 => of_delay!($f, 6, $c $(, $more)*),
            7 => of_delay!($f, 7, $c $(, $more)*),
            8 => of_delay!($f, 8, $c $(, $more)*),
            _ => unreachable!(),
        }
    };
}

fn of_filter(c: &Case, code: u32) -> Digest {
    of_order!(digest, c, code)
}

fn by_blocks_filter(c: &Case, code: u32) -> (Digest, u32) {
    of_order!(by_blocks, c, code)
}

fn asked_filter(c: &Case) -> (u32, [u64; 3], [u32; 2]) {
    of_order!(asked, c)
}
