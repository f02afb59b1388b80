//! Writes the answers of every module under the folder that is the first argument; at scale where a number follows,
//! by which every seed is moved.
//! The lines and runs are told in oracle/README.md.

mod biquad;
mod dsm;
mod fixed;
mod pll;
mod rpll;
mod unwrap;
mod wdf;
mod words;

/// src/cic.rs on each word: one text, the word named before it.
mod cic {
    type Word = i32;
    const NAME: &str = "cic";
    include!("cic.rs");
}

mod cic64 {
    type Word = i64;
    const NAME: &str = "cic64";
    include!("cic.rs");
}

fn main() {
    let mut words = std::env::args().skip(1);
    let root = words.next().expect("the project's root");
    if let Some(by) = words.next() {
        words::SCALE.set((by.parse().expect("a number"), 28)).unwrap();
    }
    unwrap::write(&root);
    dsm::write(&root);
    cic::write(&root);
    cic64::write(&root);
    wdf::write(&root);
    fixed::write(&root);
    pll::write(&root);
    rpll::write(&root);
    biquad::write(&root);
}
