//! Runs each filter's block in the proved library and in the crate, on the same inputs, by turns; stops where their outputs differ.
//!   harness            a line per row: name, inputs or outputs a call, nanoseconds of the proved and of the crate, the least of many
//!   harness --count    a line per row, name and size; around each call a mark, at which the counts are noted (../../x86.py)
mod proved;
mod theirs;

use std::hint::black_box;
use std::time::Instant;

/// Numbers as the oracle draws them.
struct Draw(u64);

impl Draw {
    fn next(&mut self) -> u32 {
        self.0 = self.0.wrapping_mul(6364136223846793005).wrapping_add(1442695040888963407);
        (self.0 >> 32) as u32
    }

    fn ints(&mut self, n: usize) -> Vec<i32> {
        (0..n).map(|_| self.next() as i32).collect()
    }

    fn longs(&mut self, n: usize) -> Vec<i64> {
        (0..n).map(|_| (self.next() as i64) << 32 | self.next() as i64).collect()
    }
}

/// Whether calls are counted or timed.
struct Bench {
    count: bool,
}

impl Bench {
    /// `size`: how many inputs, or outputs, a call handles; `lent`: the length of the slice that is lent to each.
    fn row<T: PartialEq + Clone + Default>(
        &self,
        name: &str,
        size: usize,
        lent: usize,
        mut proved: impl FnMut(&mut [T]),
        mut theirs: impl FnMut(&mut [T]),
    ) {
        let (mut a, mut b) = (vec![T::default(); lent], vec![T::default(); lent]);
        proved(&mut a);
        theirs(&mut b);
        assert!(a == b, "{name}: the two differ");
        if self.count {
            bench_mark();
            proved(black_box(&mut a));
            bench_mark();
            theirs(black_box(&mut b));
            bench_mark();
            println!("{name}\t{size}");
        } else {
            let mut best = [f64::MAX; 2];
            let repeats = 1 + 100_000 / size.max(1);
            let rounds = if size > 1 << 20 { 5 } else { 60 };
            for _ in 0..rounds {
                let t = Instant::now();
                for _ in 0..repeats {
                    proved(black_box(&mut a));
                }
                let u = Instant::now();
                for _ in 0..repeats {
                    theirs(black_box(&mut b));
                }
                let v = Instant::now();
                let each = |d: std::time::Duration| d.as_nanos() as f64 / repeats as f64;
                best = [best[0].min(each(u - t)), best[1].min(each(v - u))];
            }
            println!("{name}\t{size}\t{}\t{}", best[0], best[1]);
        }
    }
}

/// The emulator's plugin notes its count at the getpid, callgrind at the call.
#[no_mangle]
#[inline(never)]
pub extern "C" fn bench_mark() {
    let _ = std::process::id();
}

const BLOCK: usize = 65_536;

fn decimators<const N: usize, const M: usize>(bench: &Bench, rate: u32, xs: &[i32]) {
    let lent = xs.len() / (rate as usize + 1) + 1;
    let name = format!("decimator ({N},{M},{rate})");
    bench.row(&name, xs.len(), lent, |y| proved::decimate(N, M, rate, xs, y), |y| theirs::decimate::<N, M>(rate, xs, y));
}

fn interpolators<const N: usize, const M: usize>(bench: &Bench, rate: u32, xs: &[i32]) {
    let lent = xs.len();
    let name = format!("interpolator ({N},{M},{rate})");
    bench.row(&name, lent, lent, |y| proved::interpolate(N, M, rate, xs, y), |y| theirs::interpolate::<N, M>(rate, xs, y));
}

fn decimators64<const N: usize, const M: usize>(bench: &Bench, rate: u32, xs: &[i64]) {
    let lent = xs.len() / (rate as usize + 1) + 1;
    let name = format!("decimator on i64 ({N},{M},{rate})");
    bench.row(&name, xs.len(), lent, |y| proved::decimate64(N, M, rate, xs, y), |y| theirs::decimate64::<N, M>(rate, xs, y));
}

fn interpolators64<const N: usize, const M: usize>(bench: &Bench, rate: u32, xs: &[i64]) {
    let lent = xs.len();
    let name = format!("interpolator on i64 ({N},{M},{rate})");
    bench.row(&name, lent, lent, |y| proved::interpolate64(N, M, rate, xs, y), |y| theirs::interpolate64::<N, M>(rate, xs, y));
}

/// The rows of i32 on i64.
fn wide(bench: &Bench, xs: &[i64]) {
    decimators64::<3, 1>(bench, 63, xs);
    decimators64::<3, 1>(bench, 4, xs);
    decimators64::<5, 2>(bench, 15, xs);
    decimators64::<1, 1>(bench, 1023, xs);
    decimators64::<8, 8>(bench, 0, xs);
    decimators64::<3, 1>(bench, 63, &xs[..256]);
    interpolators64::<3, 1>(bench, 63, xs);
    interpolators64::<3, 1>(bench, 4, xs);
    interpolators64::<5, 2>(bench, 15, xs);
    interpolators64::<1, 1>(bench, 1023, xs);
    interpolators64::<8, 8>(bench, 0, xs);
    interpolators64::<3, 1>(bench, 63, &xs[..256]);
}

fn main() {
    let bench = Bench { count: std::env::args().any(|a| a == "--count") };
    let mut draw = Draw(1);
    let xs = draw.ints(BLOCK);
    bench.row::<i32>("empty", 1, 1, |_| (), |_| ());
    decimators::<3, 1>(&bench, 63, &xs);
    decimators::<3, 1>(&bench, 4, &xs);
    decimators::<5, 2>(&bench, 15, &xs);
    decimators::<1, 1>(&bench, 1023, &xs);
    decimators::<8, 8>(&bench, 0, &xs);
    decimators::<3, 1>(&bench, 63, &xs[..256]);
    interpolators::<3, 1>(&bench, 63, &xs);
    interpolators::<3, 1>(&bench, 4, &xs);
    interpolators::<5, 2>(&bench, 15, &xs);
    interpolators::<1, 1>(&bench, 1023, &xs);
    interpolators::<8, 8>(&bench, 0, &xs);
    interpolators::<3, 1>(&bench, 63, &xs[..256]);
    bench.row("decimator (3,1,63), single steps on lent arrays", BLOCK, BLOCK, |y| proved::lent_steps(3, 1, 63, &xs, y), |y| theirs::steps::<3, 1>(63, &xs, y));
    bench.row("decimator (3,1,63), single steps", BLOCK, BLOCK, |y| proved::steps(3, 1, 63, &xs, y), |y| theirs::steps::<3, 1>(63, &xs, y));
    let lent = BLOCK / 64;
    bench.row("plain engine (3,1,63)", BLOCK, lent, |y| proved::fir(&xs, y), |y| {
        theirs::fir(&xs, y);
    });
    bench.row("plain engine (3,1,63)", 256, 4, |y| proved::fir(&xs[..256], y), |y| {
        theirs::fir(&xs[..256], y);
    });
    wide(&bench, &draw.longs(BLOCK));
    others(&bench, &xs);
    if std::env::args().any(|a| a == "--sizes") {
        let long = draw.ints(1 << 24);
        for n in [10, 12, 14, 16, 18, 20, 22, 24] {
            decimators::<3, 1>(&bench, 63, &long[..1 << n]);
        }
    }
}

fn others(bench: &Bench, xs: &[i32]) {
    let n = xs.len();
    let us: Vec<u32> = xs.iter().map(|x| *x as u32).collect();
    bench.row("modulator K 1", n, n, |y| proved::dsm(1, &us, y), |y| theirs::dsm::<1>(&us, y));
    bench.row("modulator K 3", n, n, |y| proved::dsm(3, &us, y), |y| theirs::dsm::<3>(&us, y));
    bench.row("modulator K 8", n, n, |y| proved::dsm(8, &us, y), |y| theirs::dsm::<8>(&us, y));
    let a = -0x2345_6789;
    bench.row("WDF, 1 section, A", n, n, |y| proved::wdf(1, 0xa, a, xs, y), |y| theirs::wdf::<1, 0xa>(a, xs, y));
    bench.row("WDF, 2 sections, A and C", n, n, |y| proved::wdf(2, 0xca, a, xs, y), |y| theirs::wdf::<2, 0xca>(a, xs, y));
    bench.row("WDF, 2 sections, B1 and C1", n, n, |y| proved::wdf(2, 0xfe, a, xs, y), |y| theirs::wdf::<2, 0xfe>(a, xs, y));
    bench.row("WDF, 3 sections", n, n, |y| proved::wdf(3, 0xbad, a, xs, y), |y| theirs::wdf::<3, 0xbad>(a, xs, y));
    bench.row("WDF, 4 sections", n, n, |y| proved::wdf(4, 0xcbad, a, xs, y), |y| theirs::wdf::<4, 0xcbad>(a, xs, y));
    bench.row("WDF, 5 sections", n, n, |y| proved::wdf(5, 0xdcbad, a, xs, y), |y| theirs::wdf::<5, 0xdcbad>(a, xs, y));
    bench.row("WDF, 8 sections", n, n, |y| proved::wdf(8, 0xfe1d_cbad, a, xs, y), |y| theirs::wdf::<8, 0xfe1d_cbad>(a, xs, y));
    let fs: Vec<f64> = xs.iter().map(|x| *x as f64 / 2147483648.0).collect();
    let c = [0.25, 0.5, 0.25, 0.6, -0.3, 0.01, -0.4, 0.4];
    bench.row("biquad, direct form 1", n, n, |y| proved::df1(&c, &fs, y), |y| theirs::df1(&c, &fs, y));
    bench.row("biquad, direct form 1, clamped", n, n, |y| proved::df1_clamp(&c, &fs, y), |y| theirs::df1_clamp(&c, &fs, y));
    bench.row("biquad, direct form 2 transposed", n, n, |y| proved::df2t(&c, &fs, y), |y| theirs::df2t(&c, &fs, y));
    bench.row("biquad, direct form 2 transposed, clamped", n, n, |y| proved::df2t_clamp(&c, &fs, y), |y| theirs::df2t_clamp(&c, &fs, y));
    let q = [1 << 28, 1 << 29, 1 << 28, 6 << 27, -(3 << 27), 1000, -(1 << 30), 1 << 30];
    bench.row("wide, F 30", n, n, |y| proved::wide(&q, 30, xs, y), |y| theirs::wide::<30>(&q, xs, y));
    bench.row("wide, F 30, clamped", n, n, |y| proved::wide_clamp(&q, 30, xs, y), |y| theirs::wide_clamp::<30>(&q, xs, y));
    bench.row("dither, F 30", n, n, |y| proved::dither(&q, 30, xs, y), |y| theirs::dither::<30>(&q, xs, y));
    bench.row("dither, F 30, clamped", n, n, |y| proved::dither_clamp(&q, 30, xs, y), |y| theirs::dither_clamp::<30>(&q, xs, y));
    let p = [-(1 << 24), 1 << 23, -(1 << 22)];
    bench.row("PLL", n, n, |y| proved::pll(&p, xs, y), |y| theirs::pll(&p, xs, y));
    bench.row("ClampWrap", n, n, |y| proved::clamp_wrap(xs, y), |y| theirs::clamp_wrap(xs, y));
    bench.row("Unwrapper", n, n, |y| proved::unwrapper(xs, y), |y| theirs::unwrapper(xs, y));
    let r = [8, 20, 19];
    let always = vec![true; n];
    let drawn: Vec<bool> = us.iter().map(|u| u >> 31 == 0).collect();
    bench.row("RPLL, a timestamp each step", n, 2 * n, |y| proved::rpll(&r, &always, xs, y), |y| theirs::rpll(&r, &always, xs, y));
    bench.row("RPLL, half the steps without", n, 2 * n, |y| proved::rpll(&r, &drawn, xs, y), |y| theirs::rpll(&r, &drawn, xs, y));
    bench.row("saturating_scale", n, n, |y| proved::scale(5, 16, xs, y), |y| theirs::scale(5, 16, xs, y));
}
