//! Where a checked build stops: one small case per place, as docs/DIFFERENCES.md lists them. Built with overflow
//! checks and debug assertions on; tells for each case where it stopped, or that it went on.

use dsp_fixedpoint::{Q, Q32};
use dsp_process::{Process, SplitProcess};
use idsp::iir::wdf::{Tpa, Wdf, WdfState};
use idsp::iir::{Biquad, BiquadClamp, DirectForm1, DirectForm1Dither, DirectForm1Wide};
use idsp::{saturating_scale, Cic, Dsm, PLLState, RPLLConfig, PLL, RPLL};
use std::hint::black_box;
use std::num::Wrapping as W;

const MIN: i32 = i32::MIN;
const MAX: i32 = i32::MAX;

fn main() {
    std::panic::set_hook(Box::new(|info| {
        let place = info.location().unwrap();
        let file = place.file().rsplit_once("src/").map_or("", |(_, file)| file);
        let said = info.payload();
        let said = match (said.downcast_ref::<&str>(), said.downcast_ref::<String>()) {
            (Some(said), _) => said,
            (_, Some(said)) => said.as_str(),
            _ => "",
        };
        println!("{file}:{}: {}", place.line(), said.lines().next().unwrap_or(""));
    }));
    let cases: [(&str, fn()); 42] = [
        ("saturating_scale shift 0", || scale(0, 0, 0)),
        ("saturating_scale shift 33", || scale(0, 0, 33)),
        ("saturating_scale hi -2^31 at every shift: goes on", || {
            (1..=32).for_each(|shift| scale(MIN, MIN, shift))
        }),
        ("dsm K 8, eight inputs to 128", modulator),
        ("cic gain N 2 M 1 rate 46340", || {
            black_box(Cic::<i32, 2>::new(46340).gain());
        }),
        ("cic gain N 8 M 1 rate 14", || {
            black_box(Cic::<i32, 8>::new(14).gain());
        }),
        ("cic settle_interpolate N 1 M 1 rate 1, x 2^30", || {
            Cic::<i32, 1>::new(1).settle_interpolate(black_box(1 << 30))
        }),
        ("cic interpolator N 1 M 1 rate 0, samples 1, -2^31", || upsample(0, [Some(1), Some(MIN)])),
        ("cic interpolator N 1 M 1 rate 1, sample 2^30, none", || upsample(1, [Some(1 << 30), None])),
        ("cic interpolator rate 1, two samples", || upsample(1, [Some(0), Some(0)])),
        ("cic interpolator rate 0, no sample", || upsample(0, [Some(0), None])),
        ("cic decimator N 8 M 1 rate 0, input -2^31 twenty times: goes on", || {
            let mut cic = Cic::<i32, 8>::new(0);
            for _ in 0..20 {
                let _: Option<i32> = black_box(cic.process(MIN));
            }
        }),
        ("wdf nibble a, x 1, -2^31", || adapt(0xa, [1, MIN])),
        ("wdf nibble b, x -2^31, 1", || adapt(0xb, [MIN, 1])),
        ("wdf nibble c, x 1, -2^31", || adapt(0xc, [1, MIN])),
        ("wdf nibble d, x -2^31, 1", || adapt(0xd, [MIN, 1])),
        ("wdf nibble e, x -2^31, 1", || adapt(0xe, [MIN, 1])),
        ("wdf nibble f, x 1, -2^31", || adapt(0xf, [1, MIN])),
        ("wdf no sections, architecture 1", || {
            black_box(Wdf::<0, 1>::default().process(&mut WdfState::default(), 0));
        }),
        ("wide F 0 b0 = b1 = x0 = x1 = -2^31 (our shim's sum)", || {
            wide::<0>([MIN, MIN, 0, 0, 0], [MIN, 0], [0, 0], MIN)
        }),
        ("wide F 0 b0 = a1 = x0 = -2^31, y1 = -2^63", || {
            wide::<0>([MIN, 0, 0, MIN, 0], [0, 0], [i64::MIN, 0], MIN)
        }),
        ("wide F 0 b0 = a2 = x0 = -2^31, y2 = -2^63", || {
            wide::<0>([MIN, 0, 0, 0, MIN], [0, 0], [0, i64::MIN], MIN)
        }),
        ("wide F 0 b0 = b1 = x0 = -2^31, x1 = 1 - 2^31, b2 1, x2 2^31 - 1, a1 2, y1 2^31", || {
            wide::<0>([MIN, MIN, 1, 2, 0], [-MAX, MAX], [1 << 31, 0], MIN)
        }),
        ("wide F 0, the same with a2 and y2", || {
            wide::<0>([MIN, MIN, 1, 0, 2], [-MAX, MAX], [0, 1 << 31], MIN)
        }),
        ("wide clamped F 0 b0 1, u 1, x 2^31 - 1", || wide_clamped(MAX, MIN, MAX)),
        ("wide clamped limits 1, 0", || wide_clamped(0, 1, 0)),
        ("dither F 31 b0 = b1 = x0 = -2^31, x1 = 1 - 2^31, b2 1, x2 2^31 - 1, e 1", || {
            dither::<31>([MIN, MIN, 1, 0, 0], [-MAX, MAX], 1, MIN)
        }),
        ("dither F 0", || dither::<0>([0; 5], [0; 2], 0, 0)),
        ("dither clamped F 1 b0 2, u 1, x 2^31 - 1", || dither_clamped::<1>(2)),
        ("dither clamped F 0 b0 1, u 1, x 2^31 - 1", || dither_clamped::<0>(1)),
        ("f64 clamped limits 1.0, 0.0", || {
            let mut filter = BiquadClamp::<f64>::from(Biquad::IDENTITY);
            (filter.min, filter.max) = (1.0, 0.0);
            black_box(filter.process(&mut DirectForm1::default(), 0.0));
        }),
        ("pll z0 2^31 - 1, x 2", || pll([0; 3], PLLState { z0: MAX, ..PLLState::default() }, 2)),
        ("pll from zero, b0 = b1 = 2^31 - 1, a1 0, x 2^31 - 1 three times", || {
            let ba = [MAX, MAX, 0].map(Q32::from_bits);
            let mut state = PLLState::default();
            for _ in 0..3 {
                black_box(PLL { ba }.process(&mut state, W(MAX)));
            }
        }),
        ("pll f0 2^63 - 1, b0 1, x 2", || {
            pll([1, 0, 0], PLLState { f0: i64::MAX, ..PLLState::default() }, 2)
        }),
        ("pll b0 = b1 = -2^31, a1 2^31 - 1, z0 -2^30, y0 1 - 2^31, f0 2^33 - 1, x -2^31", || {
            let state = PLLState { z0: MIN / 2, y0: -MAX, f0: (1 << 33) - 1, ..PLLState::default() };
            pll([MIN, MIN, MAX], state, MIN)
        }),
        ("rpll dt2 0, shifts 1, 0; timestamps 0, -1", || rpll([0, 1, 0], [0, -1])),
        ("rpll dt2 1, shifts 0, 1", || rpll([1, 0, 1], [0, 0])),
        ("rpll dt2 1, shifts 2, 0", || rpll([1, 2, 0], [0, 0])),
        ("rpll dt2 1, shifts 1, 1", || rpll([1, 1, 1], [0, 0])),
        ("rpll dt2 0, shifts 0, 0", || rpll([0, 0, 0], [0, 0])),
        ("rpll dt2 1, shifts 33, 1", || rpll([1, 33, 1], [0, 0])),
        ("rpll dt2 31, shifts 32, 31", || rpll([31, 32, 31], [0, 0])),
    ];
    for (case, call) in cases {
        print!("{case}: ");
        if std::panic::catch_unwind(call).is_ok() {
            println!("went on");
        }
    }
}

fn scale(lo: i32, hi: i32, shift: u32) {
    black_box(saturating_scale(lo, hi, black_box(shift)));
}

fn modulator() {
    let mut dsm = Dsm::<8>::default();
    for x in [0xfff00000, 0x00900000, 0xfdb00000, 0x05d00000, 0xf5d00000, 0x0db00000, 0xf0900000, 0x0ff00000]
    {
        black_box(dsm.process(x));
    }
}

fn upsample(rate: u32, samples: [Option<i32>; 2]) {
    let mut cic = Cic::<i32, 1>::new(rate);
    for sample in samples {
        let _: i32 = black_box(cic.process(black_box(sample)));
    }
}

fn adapt(nibble: u8, x: [i32; 2]) {
    black_box(Tpa::from(nibble).adapt(x, Q32::from_bits(0)));
}

fn wide<const F: i8>(ba: [i32; 5], x: [i32; 2], y: [i64; 2], x0: i32) {
    let filter = Biquad { ba: ba.map(Q::<i32, i64, F>::from_bits) };
    black_box(filter.process(&mut DirectForm1Wide { x, y }, x0));
}

fn wide_clamped(x0: i32, min: i32, max: i32) {
    let ba = [1, 0, 0, 0, 0].map(Q::<i32, i64, 0>::from_bits);
    let filter = BiquadClamp { coeff: Biquad { ba }, u: 1, min, max };
    black_box(filter.process(&mut DirectForm1Wide::default(), x0));
}

fn dither<const F: i8>(ba: [i32; 5], x: [i32; 2], e: u32, x0: i32) {
    let filter = Biquad { ba: ba.map(Q::<i32, i64, F>::from_bits) };
    let xy = DirectForm1 { x, y: [[0, 0]] };
    black_box(filter.process(&mut DirectForm1Dither { xy, e }, x0));
}

fn dither_clamped<const F: i8>(b0: i32) {
    let ba = [b0, 0, 0, 0, 0].map(Q::<i32, i64, F>::from_bits);
    let filter = BiquadClamp { coeff: Biquad { ba }, u: 1, min: MIN, max: MAX };
    black_box(filter.process(&mut DirectForm1Dither::default(), MAX));
}

fn pll(ba: [i32; 3], mut state: PLLState, x: i32) {
    let ba = ba.map(Q32::from_bits);
    black_box(PLL { ba }.process(&mut state, W(x)));
}

fn rpll([dt2, shift_frequency, shift_phase]: [u8; 3], timestamps: [i32; 2]) {
    let config = RPLLConfig { dt2: black_box(dt2), shift_frequency, shift_phase };
    let mut state = RPLL::default();
    for x in timestamps {
        black_box(config.process(&mut state, Some(W(x))));
    }
}
