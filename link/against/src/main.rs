//! Drawn calls, refused ones among them, on the proved filters and on the crate's side by side: outputs and states must be equal, and a refused
//! call must leave the proved state as it was. The crate refuses nothing: there it isn't called. Here the decimator and interpolator of both words.
#[path = "../../../../link/mittenload.rs"]
mod mittenload;
mod others;

use dsp_process::Process;
use mittenload::{Cic, Cic64, Refused};

struct Draw(u64);

impl Draw {
    fn next(&mut self) -> u32 {
        self.0 = self.0.wrapping_mul(6364136223846793005).wrapping_add(1442695040888963407);
        (self.0 >> 32) as u32
    }

    fn below(&mut self, n: u32) -> u32 {
        self.next() % n
    }
}

struct Tally {
    calls: u64,
    refused: u64,
}

macro_rules! run {
    ($run:ident, $ours:ident, $word:ident) => {
        /// Calls on one filter, its ways not mixed: decimating, or interpolating.
        fn $run<const N: usize, const M: usize>(draw: &mut Draw, tally: &mut Tally, up: bool) {
            let rate = draw.below(9);
            let mut ours = $ours::new(N as u64, M as u64, rate).unwrap();
            let mut theirs = idsp::Cic::<$word, N, M>::new(rate);
            for _ in 0..20 {
                let before = ours;
                let word = |d: &mut Draw| ((d.next() as u64) << 32 | d.next() as u64) as $word;
                let length = draw.below(40) as usize;
                let xs: Vec<$word> = (0..length).map(|_| word(draw)).collect();
                let answer: Result<(), Refused> = match draw.below(8) {
                    0 => {
                        let rate = if draw.below(4) == 0 { 65536 + draw.below(9) } else { draw.below(9) };
                        ours.set_rate(rate).map(|()| theirs.set_rate(rate))
                    }
                    1 => ours.clear().map(|()| theirs.clear()),
                    2 => {
                        let mut broken = ours;
                        broken.countdown = 65536 + draw.below(9);
                        let copy = broken;
                        let refused = broken.decimate(1).map(|_| ());
                        assert!(refused == Err(Refused(13)) && broken == copy);
                        refused
                    }
                    3 | 4 if up => {
                        let sample = (draw.below(2) == 0).then(|| word(draw));
                        ours.interpolate(sample).map(|y| assert_eq!(y, theirs.process(sample)))
                    }
                    3 | 4 => {
                        let x = word(draw);
                        ours.decimate(x).map(|given| assert_eq!(given.map(|y| y.value), theirs.process(x)))
                    }
                    _ if up => {
                        let mut out = vec![0; draw.below(100) as usize];
                        ours.interpolate_block(&xs, &mut out).map(|read| {
                            let mut samples = xs.iter();
                            for y in &out {
                                let sample = if theirs.tick() { Some(*samples.next().unwrap()) } else { None };
                                assert_eq!(*y, theirs.process(sample));
                            }
                            assert_eq!(read as usize, length - samples.len());
                        })
                    }
                    _ => {
                        let mut out = vec![0; draw.below(40) as usize];
                        ours.decimate_block(&xs, &mut out).map(|w| {
                            let given: Vec<$word> = xs.iter().filter_map(|x| theirs.process(*x)).collect();
                            assert_eq!(w.outputs, &given[..]);
                            assert_eq!(w.settled(), &given[given.len().min(w.told as usize)..]);
                        })
                    }
                };
                tally.calls += 1;
                if answer.is_err() {
                    tally.refused += 1;
                    assert!(ours == before, "a refused call changed the state");
                }
                assert!(ours.rate == theirs.rate && ours.countdown == theirs.index && ours.hold == theirs.zoh);
                assert_eq!(ours.integrators[..N], theirs.integrators);
                for j in 0..N {
                    assert_eq!(ours.combs[8 * j..8 * j + M], theirs.combs[j]);
                }
            }
        }
    };
}
run!(on_i32, Cic, i32);
run!(on_i64, Cic64, i64);

fn main() {
    let (mut draw, mut tally) = (Draw(1), Tally { calls: 0, refused: 0 });
    macro_rules! each {
        ($(($n:literal, $m:literal)),*) => {
            $(for up in [false, true] {
                on_i32::<$n, $m>(&mut draw, &mut tally, up);
                on_i64::<$n, $m>(&mut draw, &mut tally, up);
            })*
        };
    }
    while tally.calls < 100_000 {
        each!((0, 1), (1, 1), (2, 1), (3, 1), (4, 1), (5, 1), (8, 1), (1, 2), (2, 3), (3, 2), (4, 8), (8, 8));
    }
    println!("decimator and interpolator: {} calls, {} refused, no difference", tally.calls, tally.refused);
    let mut tally = Tally { calls: 0, refused: 0 };
    while tally.calls < 100_000 {
        others::run(&mut draw, &mut tally);
    }
    println!("the other filters: {} calls, {} refused, no difference", tally.calls, tally.refused);
}
