//! Ours, in place of the crate's own lib.rs and iir/mod.rs: the nine files taken, which `run` copies beside it.
#![allow(warnings)]

mod accu;
pub use accu::*;
mod num;
pub use num::*;
mod unwrap;
pub use unwrap::*;
mod cic;
pub use cic::*;
mod dsm;
pub use dsm::*;
mod pll;
pub use pll::*;
mod rpll;
pub use rpll::*;
pub mod iir {
    mod biquad;
    pub use biquad::*;
    pub mod wdf;
}
