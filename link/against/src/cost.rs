//! cost WHOSE SIZE CALLS: a decimator of order 3, delay 1 and R = 4, ours or theirs, called so often on so many inputs; size 0: single steps.
//! `link/cost` counts the instructions of two runs and divides their difference.
#[path = "../../../../link/mittenload.rs"]
mod mittenload;

use dsp_process::Process;
use std::hint::black_box;

type Theirs = idsp::Cic<i32, 3, 1>;

#[inline(never)]
fn step(filter: &mut Theirs, x: i32) -> Option<i32> {
    filter.process(x)
}

#[inline(never)]
fn block(filter: &mut Theirs, xs: &[i32], ys: &mut [i32]) -> usize {
    let mut k = 0;
    for x in xs {
        if let Some(y) = filter.process(*x) {
            ys[k] = y;
            k += 1;
        }
    }
    k
}

fn main() {
    let words: Vec<String> = std::env::args().collect();
    let (size, calls): (usize, usize) = (words[2].parse().unwrap(), words[3].parse().unwrap());
    let (xs, mut ys) = (vec![7; size], vec![0; size]);
    if words[1] == "ours" {
        let mut filter = mittenload::Cic::new(3, 1, 3).unwrap();
        for _ in 0..calls {
            if size == 0 {
                black_box(filter.decimate(black_box(7)).ok().flatten().map(|y| y.value));
            } else {
                black_box(filter.decimate_block(black_box(&xs), &mut ys).is_ok());
            }
        }
    } else {
        let mut filter = Theirs::new(3);
        for _ in 0..calls {
            if size == 0 {
                black_box(step(black_box(&mut filter), black_box(7)));
            } else {
                black_box(block(black_box(&mut filter), black_box(&xs), &mut ys));
            }
        }
    }
}
