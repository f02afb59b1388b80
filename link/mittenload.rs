//! The proved filters, safe to call: plain data that is `Copy` and needs no `Drop`. `mod` this file and link `-l static=mittenload`.
//! References rule out every overlap and every dangling pointer that the proof leaves to the caller.
//! Numbers of refusals and what each call does: mittenload.h.
#![allow(dead_code)]

/// A refusal's number.
#[derive(Clone, Copy, Debug, PartialEq, Eq)]
pub struct Refused(pub u32);

fn told(number: u32) -> Result<(), Refused> {
    if number == 0 { Ok(()) } else { Err(Refused(number)) }
}

/// What a call leaves where it was asked for a value.
fn asked<T: Default>(call: impl FnOnce(&mut T) -> u32) -> Result<T, Refused> {
    let mut value = T::default();
    told(call(&mut value))?;
    Ok(value)
}

extern "C" {
    fn mittenload_refusal(order: u64, delay: u64, rate: u32, countdown: u32, unsettled: u64) -> u32;
    fn mittenload_gain(order: u64, delay: u64, rate: u32, countdown: u32, unsettled: u64, value: &mut u64) -> u32;
    fn mittenload_gain_log2(order: u64, delay: u64, rate: u32, countdown: u32, unsettled: u64, value: &mut u64) -> u32;
    fn mittenload_response_length(order: u64, delay: u64, rate: u32, countdown: u32, unsettled: u64, value: &mut u64) -> u32;
    fn mittenload_low_rate_length(order: u64, delay: u64, rate: u32, countdown: u32, unsettled: u64, n: u64, value: &mut u64) -> u32;
    fn mittenload_fit(order: u64, delay: u64, rate: u32, countdown: u32, unsettled: u64, width: u32, b: u32, yes: &mut u32) -> u32;
}

/// What a decimator's block wrote: the outputs, and of the first the count told and its input's number (0 and 0 where there is none).
#[derive(Clone, Copy, Debug, PartialEq, Eq)]
pub struct Written<'a, W> {
    pub outputs: &'a [W],
    pub told: u64,
    pub number: u64,
}


/// An output, the unsettled count that it found (0: settled), and its input's number, from 1.
#[derive(Clone, Copy, Debug, PartialEq, Eq)]
pub struct Output<W> {
    pub value: W,
    pub told: u64,
    pub number: u64,
}

macro_rules! cic {
    ($name:ident, $word:ty, $new:ident, $resume:ident, $set_rate:ident, $clear:ident, $decimate:ident, $decimate_block:ident, $sample:ident, $held:ident, $block:ident, $settle:ident, $get:ident, $settled:ident) => {
        /// A decimator or interpolator. `resume` takes the fields as they stand.
        #[repr(C)]
        #[derive(Clone, Copy, Debug, PartialEq, Eq)]
        pub struct $name {
            pub order: u64,
            pub delay: u64,
            pub rate: u32,
            pub countdown: u32,
            pub unsettled: u64,
            pub inputs: u64,
            pub hold: $word,
            pub integrators: [$word; 8],
            pub combs: [$word; 64],
        }

        extern "C" {
            fn $new(o: &mut u64, d: &mut u64, r: &mut u32, c: &mut u32, u: &mut u64, i: &mut u64, h: &mut $word, s: &mut [$word; 8], k: &mut [$word; 64], order: u64, delay: u64, rate: u32) -> u32;
            fn $resume(o: &mut u64, d: &mut u64, r: &mut u32, c: &mut u32, u: &mut u64, i: &mut u64, h: &mut $word, s: &mut [$word; 8], k: &mut [$word; 64]) -> u32;
            fn $set_rate(o: &mut u64, d: &mut u64, r: &mut u32, c: &mut u32, u: &mut u64, i: &mut u64, h: &mut $word, s: &mut [$word; 8], k: &mut [$word; 64], rate: u32) -> u32;
            fn $clear(o: &mut u64, d: &mut u64, r: &mut u32, c: &mut u32, u: &mut u64, i: &mut u64, h: &mut $word, s: &mut [$word; 8], k: &mut [$word; 64]) -> u32;
            fn $decimate(o: u64, d: u64, r: u32, c: &mut u32, u: &mut u64, i: &mut u64, h: &mut $word, s: &mut [$word; 8], k: &mut [$word; 64], x: $word) -> u32;
            fn $decimate_block(o: &mut u64, d: &mut u64, r: &mut u32, c: &mut u32, u: &mut u64, i: &mut u64, h: &mut $word, s: &mut [$word; 8], k: &mut [$word; 64], input: *const $word, n: u64, out: *mut $word, m: u64, count: &mut u64, told: &mut u64, number: &mut u64) -> u32;
            fn $sample(o: &mut u64, d: &mut u64, r: &mut u32, c: &mut u32, u: &mut u64, i: &mut u64, h: &mut $word, s: &mut [$word; 8], k: &mut [$word; 64], x: $word, value: &mut $word) -> u32;
            fn $held(o: &mut u64, d: &mut u64, r: &mut u32, c: &mut u32, u: &mut u64, i: &mut u64, h: &mut $word, s: &mut [$word; 8], k: &mut [$word; 64], value: &mut $word) -> u32;
            fn $block(o: &mut u64, d: &mut u64, r: &mut u32, c: &mut u32, u: &mut u64, i: &mut u64, h: &mut $word, s: &mut [$word; 8], k: &mut [$word; 64], input: *const $word, n: u64, out: *mut $word, m: u64, count: &mut u64) -> u32;
            fn $settle(o: &mut u64, d: &mut u64, r: &mut u32, c: &mut u32, u: &mut u64, i: &mut u64, h: &mut $word, s: &mut [$word; 8], k: &mut [$word; 64], x: $word) -> u32;
            fn $settled(out: *const $word, m: u64, written: u64, told: u64, first: &mut u64, count: &mut u64) -> u32;
            fn $get(o: &u64, d: &u64, r: &u32, c: &u32, u: &u64, i: &u64, h: &$word, s: &[$word; 8], k: &[$word; 64], value: &mut $word) -> u32;
        }

        impl<'a> Written<'a, $word> {
            /// The outputs that may be believed.
            pub fn settled(&self) -> &'a [$word] {
                let (n, mut first, mut count) = (self.outputs.len() as u64, 0, 0);
                match unsafe { $settled(self.outputs.as_ptr(), n, n, self.told, &mut first, &mut count) } {
                    0 => &self.outputs[first as usize..(first + count) as usize],
                    _ => &[],
                }
            }
        }

        impl $name {
            pub fn new(order: u64, delay: u64, rate: u32) -> Result<Self, Refused> {
                let mut s = $name { order: 0, delay: 1, rate: 0, countdown: 0, unsettled: 0, inputs: 0, hold: 0, integrators: [0; 8], combs: [0; 64] };
                told(unsafe { $new(&mut s.order, &mut s.delay, &mut s.rate, &mut s.countdown, &mut s.unsettled, &mut s.inputs, &mut s.hold, &mut s.integrators, &mut s.combs, order, delay, rate) })?;
                Ok(s)
            }

            pub fn resume(mut self) -> Result<Self, Refused> {
                let s = &mut self;
                told(unsafe { $resume(&mut s.order, &mut s.delay, &mut s.rate, &mut s.countdown, &mut s.unsettled, &mut s.inputs, &mut s.hold, &mut s.integrators, &mut s.combs) })?;
                Ok(self)
            }

            pub fn set_rate(&mut self, rate: u32) -> Result<(), Refused> {
                let s = self;
                told(unsafe { $set_rate(&mut s.order, &mut s.delay, &mut s.rate, &mut s.countdown, &mut s.unsettled, &mut s.inputs, &mut s.hold, &mut s.integrators, &mut s.combs, rate) })
            }

            pub fn clear(&mut self) -> Result<(), Refused> {
                let s = self;
                told(unsafe { $clear(&mut s.order, &mut s.delay, &mut s.rate, &mut s.countdown, &mut s.unsettled, &mut s.inputs, &mut s.hold, &mut s.integrators, &mut s.combs) })
            }

            pub fn decimate(&mut self, x: $word) -> Result<Option<Output<$word>>, Refused> {
                let s = self;
                match unsafe { $decimate(s.order, s.delay, s.rate, &mut s.countdown, &mut s.unsettled, &mut s.inputs, &mut s.hold, &mut s.integrators, &mut s.combs, x) } {
                    0 => Ok(None),
                    1 => Ok(Some(Output { value: s.hold, told: 0, number: s.inputs })),
                    2 => Ok(Some(Output { value: s.hold, told: s.unsettled + 1, number: s.inputs })),
                    n => Err(Refused(n)),
                }
            }

            pub fn decimate_block<'a>(&mut self, input: &[$word], out: &'a mut [$word]) -> Result<Written<'a, $word>, Refused> {
                let (s, mut count, mut first, mut number) = (self, 0, 0, 0);
                told(unsafe { $decimate_block(&mut s.order, &mut s.delay, &mut s.rate, &mut s.countdown, &mut s.unsettled, &mut s.inputs, &mut s.hold, &mut s.integrators, &mut s.combs, input.as_ptr(), input.len() as u64, out.as_mut_ptr(), out.len() as u64, &mut count, &mut first, &mut number) })?;
                Ok(Written { outputs: &out[..count as usize], told: first, number })
            }

            /// With the sample that is due exactly where `countdown` is 0, and without.
            pub fn interpolate(&mut self, sample: Option<$word>) -> Result<$word, Refused> {
                let (s, mut y) = (self, 0);
                told(match sample {
                    Some(x) => unsafe { $sample(&mut s.order, &mut s.delay, &mut s.rate, &mut s.countdown, &mut s.unsettled, &mut s.inputs, &mut s.hold, &mut s.integrators, &mut s.combs, x, &mut y) },
                    None => unsafe { $held(&mut s.order, &mut s.delay, &mut s.rate, &mut s.countdown, &mut s.unsettled, &mut s.inputs, &mut s.hold, &mut s.integrators, &mut s.combs, &mut y) },
                })?;
                Ok(y)
            }

            /// How many inputs were read.
            pub fn interpolate_block(&mut self, input: &[$word], out: &mut [$word]) -> Result<u64, Refused> {
                let (s, mut count) = (self, 0);
                told(unsafe { $block(&mut s.order, &mut s.delay, &mut s.rate, &mut s.countdown, &mut s.unsettled, &mut s.inputs, &mut s.hold, &mut s.integrators, &mut s.combs, input.as_ptr(), input.len() as u64, out.as_mut_ptr(), out.len() as u64, &mut count) })?;
                Ok(count)
            }

            pub fn settle_interpolate(&mut self, x: $word) -> Result<(), Refused> {
                let s = self;
                told(unsafe { $settle(&mut s.order, &mut s.delay, &mut s.rate, &mut s.countdown, &mut s.unsettled, &mut s.inputs, &mut s.hold, &mut s.integrators, &mut s.combs, x) })
            }

            /// The first test that the state fails.
            pub fn refusal(&self) -> Result<(), Refused> {
                told(unsafe { mittenload_refusal(self.order, self.delay, self.rate, self.countdown, self.unsettled) })
            }

            /// (R·M)^N.
            pub fn gain(&self) -> Result<u64, Refused> {
                asked(|v| unsafe { mittenload_gain(self.order, self.delay, self.rate, self.countdown, self.unsettled, v) })
            }

            /// The right shift that undoes the gain.
            pub fn gain_log2(&self) -> Result<u64, Refused> {
                asked(|v| unsafe { mittenload_gain_log2(self.order, self.delay, self.rate, self.countdown, self.unsettled, v) })
            }

            /// The steps at the high rate until an input's answer is over.
            pub fn response_length(&self) -> Result<u64, Refused> {
                asked(|v| unsafe { mittenload_response_length(self.order, self.delay, self.rate, self.countdown, self.unsettled, v) })
            }

            /// The outputs of `n` inputs, or the inputs of `n` interpolated outputs.
            pub fn low_rate_length(&self, n: u64) -> Result<u64, Refused> {
                asked(|v| unsafe { mittenload_low_rate_length(self.order, self.delay, self.rate, self.countdown, self.unsettled, n, v) })
            }

            /// Whether inputs of `b` signed bits make no output of `width` bits wrap.
            pub fn fit(&self, width: u32, b: u32) -> Result<bool, Refused> {
                asked(|v: &mut u32| unsafe { mittenload_fit(self.order, self.delay, self.rate, self.countdown, self.unsettled, width, b, v) }).map(|yes| yes == 1)
            }

            pub fn get_interpolate(&self) -> Result<$word, Refused> {
                let (s, mut y) = (self, 0);
                told(unsafe { $get(&s.order, &s.delay, &s.rate, &s.countdown, &s.unsettled, &s.inputs, &s.hold, &s.integrators, &s.combs, &mut y) })?;
                Ok(y)
            }
        }
    };
}

cic!(Cic, i32, mittenload_cic_new, mittenload_cic_resume, mittenload_cic_set_rate, mittenload_cic_clear, mittenload_cic_decimate, mittenload_cic_decimate_block, mittenload_cic_interpolate_sample, mittenload_cic_interpolate_held, mittenload_cic_interpolate_block, mittenload_cic_settle_interpolate, mittenload_cic_get_interpolate, mittenload_cic_settled);
cic!(Cic64, i64, mittenload_cic64_new, mittenload_cic64_resume, mittenload_cic64_set_rate, mittenload_cic64_clear, mittenload_cic64_decimate, mittenload_cic64_decimate_block, mittenload_cic64_interpolate_sample, mittenload_cic64_interpolate_held, mittenload_cic64_interpolate_block, mittenload_cic64_settle_interpolate, mittenload_cic64_get_interpolate, mittenload_cic64_settled);

/// Filters with one output for each input. A block of one is a step; a state of zeros (`default`) is new.
macro_rules! block {
    ($name:ident { $($field:ident: $type:ty),* }, $block:ident($x:ty, $y:ty) = $export:ident) => {
        extern "C" {
            fn $export($($field: &mut $type,)* input: *const $x, n: u64, out: *mut $y, m: u64) -> u32;
        }

        impl $name {
            pub fn $block(&mut self, input: &[$x], out: &mut [$y]) -> Result<(), Refused> {
                told(unsafe { $export($(&mut self.$field,)* input.as_ptr(), input.len() as u64, out.as_mut_ptr(), out.len() as u64) })
            }
        }
    };
    ($name:ident { $($field:ident: $type:ty),* }, $block:ident($x:ty, $y:ty) = $export:ident, $of:ty { $($c:ident: $ct:ty),* }) => {
        extern "C" {
            fn $export($($c: &$ct,)* $($field: &mut $type,)* input: *const $x, n: u64, out: *mut $y, m: u64) -> u32;
        }

        impl $name {
            pub fn $block(&mut self, c: &$of, input: &[$x], out: &mut [$y]) -> Result<(), Refused> {
                told(unsafe { $export($(&c.$c,)* $(&mut self.$field,)* input.as_ptr(), input.len() as u64, out.as_mut_ptr(), out.len() as u64) })
            }
        }
    };
}

/// Coefficients of a biquad on doubles, and with an offset and limits.
#[derive(Clone, Copy, Debug, Default, PartialEq)]
pub struct Biquad { pub b0: f64, pub b1: f64, pub b2: f64, pub a1: f64, pub a2: f64 }
#[derive(Clone, Copy, Debug, Default, PartialEq)]
pub struct BiquadClamp { pub b0: f64, pub b1: f64, pub b2: f64, pub a1: f64, pub a2: f64, pub u: f64, pub min: f64, pub max: f64 }

/// Coefficients on words with `f` fraction bits, and with an offset and limits.
#[derive(Clone, Copy, Debug, Default, PartialEq, Eq)]
pub struct Words { pub b0: i32, pub b1: i32, pub b2: i32, pub a1: i32, pub a2: i32, pub f: u32 }
#[derive(Clone, Copy, Debug, Default, PartialEq, Eq)]
pub struct WordsClamp { pub b0: i32, pub b1: i32, pub b2: i32, pub a1: i32, pub a2: i32, pub f: u32, pub u: i32, pub min: i32, pub max: i32 }

/// A phase-locked loop's coefficients.
#[derive(Clone, Copy, Debug, Default, PartialEq, Eq)]
pub struct Loop { pub b0: i32, pub b1: i32, pub a1: i32 }

/// Differences of a phase word, summed in `y`.
#[derive(Clone, Copy, Debug, Default, PartialEq)]
pub struct Unwrapper { pub y: i64 }
block!(Unwrapper { y: i64 }, block(i32, i32) = mittenload_unwrapper);

/// `wrap`: 0 none, 1 positive, else negative.
#[derive(Clone, Copy, Debug, Default, PartialEq)]
pub struct ClampWrap { pub x0: i32, pub wrap: u32 }
block!(ClampWrap { x0: i32, wrap: u32 }, block(i32, i32) = mittenload_clamp_wrap);

/// The modulator.
#[derive(Clone, Copy, Debug, Default, PartialEq)]
pub struct Dsm { pub order: u64, pub accumulators: [u32; 8], pub retained: [i16; 8] }
block!(Dsm { order: u64, accumulators: [u32; 8], retained: [i16; 8] }, block(u32, i16) = mittenload_dsm);

/// The wave digital filter: a nibble of `architecture` for each section, the first one lowest.
#[derive(Clone, Copy, Debug, Default, PartialEq)]
pub struct Wdf { pub sections: u64, pub architecture: u32, pub a: [i32; 8], pub z: [i32; 8] }
block!(Wdf { sections: u64, architecture: u32, a: [i32; 8], z: [i32; 8] }, block(i32, i32) = mittenload_wdf);

/// Direct form 1.
#[derive(Clone, Copy, Debug, Default, PartialEq)]
pub struct DirectForm1 { pub x1: f64, pub x2: f64, pub y1: f64, pub y2: f64 }
block!(DirectForm1 { x1: f64, x2: f64, y1: f64, y2: f64 }, block(f64, f64) = mittenload_df1, Biquad { b0: f64, b1: f64, b2: f64, a1: f64, a2: f64 });
block!(DirectForm1 { x1: f64, x2: f64, y1: f64, y2: f64 }, block_clamp(f64, f64) = mittenload_df1_clamp, BiquadClamp { b0: f64, b1: f64, b2: f64, a1: f64, a2: f64, u: f64, min: f64, max: f64 });

/// Direct form 2, transposed.
#[derive(Clone, Copy, Debug, Default, PartialEq)]
pub struct DirectForm2Transposed { pub s1: f64, pub s2: f64 }
block!(DirectForm2Transposed { s1: f64, s2: f64 }, block(f64, f64) = mittenload_df2t, Biquad { b0: f64, b1: f64, b2: f64, a1: f64, a2: f64 });
block!(DirectForm2Transposed { s1: f64, s2: f64 }, block_clamp(f64, f64) = mittenload_df2t_clamp, BiquadClamp { b0: f64, b1: f64, b2: f64, a1: f64, a2: f64, u: f64, min: f64, max: f64 });

/// Direct form 1 on words with a wide state.
#[derive(Clone, Copy, Debug, Default, PartialEq)]
pub struct DirectForm1Wide { pub x1: i32, pub x2: i32, pub y1: i64, pub y2: i64 }
block!(DirectForm1Wide { x1: i32, x2: i32, y1: i64, y2: i64 }, block(i32, i32) = mittenload_wide, Words { b0: i32, b1: i32, b2: i32, a1: i32, a2: i32, f: u32 });
block!(DirectForm1Wide { x1: i32, x2: i32, y1: i64, y2: i64 }, block_clamp(i32, i32) = mittenload_wide_clamp, WordsClamp { b0: i32, b1: i32, b2: i32, a1: i32, a2: i32, f: u32, u: i32, min: i32, max: i32 });

/// Direct form 1 on words with its remainder fed back.
#[derive(Clone, Copy, Debug, Default, PartialEq)]
pub struct DirectForm1Dither { pub x1: i32, pub x2: i32, pub y1: i32, pub y2: i32, pub e: u32 }
block!(DirectForm1Dither { x1: i32, x2: i32, y1: i32, y2: i32, e: u32 }, block(i32, i32) = mittenload_dither, Words { b0: i32, b1: i32, b2: i32, a1: i32, a2: i32, f: u32 });
block!(DirectForm1Dither { x1: i32, x2: i32, y1: i32, y2: i32, e: u32 }, block_clamp(i32, i32) = mittenload_dither_clamp, WordsClamp { b0: i32, b1: i32, b2: i32, a1: i32, a2: i32, f: u32, u: i32, min: i32, max: i32 });

/// The phase-locked loop: its phases.
#[derive(Clone, Copy, Debug, Default, PartialEq)]
pub struct Pll { pub x0: i32, pub wrap: u32, pub z0: i32, pub y0: i32, pub f0: i64, pub f: i64, pub y: i32 }
block!(Pll { x0: i32, wrap: u32, z0: i32, y0: i32, f0: i64, f: i64, y: i32 }, block(i32, i32) = mittenload_pll, Loop { b0: i32, b1: i32, a1: i32 });

/// The reciprocal loop's numbers, and its state.
#[derive(Clone, Copy, Debug, Default, PartialEq, Eq)]
pub struct RpllConfig { pub dt2: u8, pub shift_frequency: u8, pub shift_phase: u8 }
#[derive(Clone, Copy, Debug, Default, PartialEq, Eq)]
pub struct Rpll { pub x: i32, pub ff: u32, pub f: u32, pub y: i32 }

extern "C" {
    fn mittenload_rpll_at(dt2: &u8, lock: &u8, gain: &u8, x: &mut i32, ff: &mut u32, f: &mut u32, y: &mut i32, at: i32, phase: &mut i32, frequency: &mut i32) -> u32;
    fn mittenload_rpll_missing(dt2: &u8, lock: &u8, gain: &u8, x: &mut i32, ff: &mut u32, f: &mut u32, y: &mut i32, phase: &mut i32, frequency: &mut i32) -> u32;
    fn mittenload_saturating_scale(lo: i32, hi: i32, shift: u32, value: &mut i32) -> u32;
}

impl Rpll {
    /// Phase and frequency after a step, with a timestamp or without.
    pub fn process(&mut self, c: &RpllConfig, timestamp: Option<i32>) -> Result<(i32, i32), Refused> {
        let (s, mut phase, mut frequency) = (self, 0, 0);
        told(match timestamp {
            Some(at) => unsafe { mittenload_rpll_at(&c.dt2, &c.shift_frequency, &c.shift_phase, &mut s.x, &mut s.ff, &mut s.f, &mut s.y, at, &mut phase, &mut frequency) },
            None => unsafe { mittenload_rpll_missing(&c.dt2, &c.shift_frequency, &c.shift_phase, &mut s.x, &mut s.ff, &mut s.f, &mut s.y, &mut phase, &mut frequency) },
        })?;
        Ok((phase, frequency))
    }
}

/// (hi·2^32 + lo) / 2^shift, rounded down and clamped to an i32.
pub fn saturating_scale(lo: i32, hi: i32, shift: u32) -> Result<i32, Refused> {
    let mut value = 0;
    told(unsafe { mittenload_saturating_scale(lo, hi, shift, &mut value) })?;
    Ok(value)
}

extern "C" {
    fn mittenload_unwrapper_wraps(y: i64) -> i32;
    fn mittenload_unwrapper_phase(y: i64) -> i32;
    fn mittenload_overflowing_sub(y: i32, x: i32, wrap: &mut u32) -> i32;
    fn mittenload_dsm_new(order: &mut u64, accumulators: &mut [u32; 8], retained: &mut [i16; 8], n: u64) -> u32;
    fn mittenload_dsm_output_range(order: &u64, accumulators: &[u32; 8], retained: &[i16; 8], least: &mut i16, greatest: &mut i16) -> u32;
    fn mittenload_wdf_new(sections: &mut u64, architecture: &mut u32, a: &mut [i32; 8], z: &mut [i32; 8]) -> u32;
    fn mittenload_wdf_from_form1(sections: &mut u64, architecture: &mut u32, a: &mut [i32; 8], z: &mut [i32; 8]) -> u32;
    fn mittenload_wdf_current_architecture(sections: u64, architecture: u32) -> u32;
    fn mittenload_wdf_quantize(nibble: u8, g: f64, bits: &mut i32) -> u32;
    fn mittenload_biquad_from_zpk(zeros: u32, zx: f64, zy: f64, poles: u32, px: f64, py: f64, gain: f64, b0: &mut f64, b1: &mut f64, b2: &mut f64, a1: &mut f64, a2: &mut f64);
    fn mittenload_biquad_forward_gain(b0: f64, b1: f64, b2: f64, a1: f64, a2: f64) -> f64;
    fn mittenload_biquad_input_offset(b0: &f64, b1: &f64, b2: &f64, a1: &f64, a2: &f64, u: &f64, min: &f64, max: &f64, value: &mut f64) -> u32;
    fn mittenload_biquad_set_input_offset(b0: &f64, b1: &f64, b2: &f64, a1: &f64, a2: &f64, u: &mut f64, min: &f64, max: &f64, i: f64);
    fn mittenload_pll_predict(x0: &i32, wrap: &u32, z0: &i32, y0: &i32, f0: &i64, f: &i64, y: &mut i32) -> i32;
    fn mittenload_pll_frequency(x0: &i32, wrap: &u32, z0: &i32, y0: &i32, f0: &i64, f: &i64, y: &i32) -> i32;
    fn mittenload_rpll_block(dt2: &u8, lock: &u8, gain: &u8, x: &mut i32, ff: &mut u32, f: &mut u32, y: &mut i32, there: *const bool, n: u64, xs: *const i32, m: u64, phases: *mut i32, k: u64, frequencies: *mut i32, l: u64) -> u32;
}

/// y - x modulo 2^32, and the sign of what the wrap added.
pub fn overflowing_sub(y: i32, x: i32) -> (i32, i32) {
    let mut wrap = 0;
    let delta = unsafe { mittenload_overflowing_sub(y, x, &mut wrap) };
    (delta, [0, 1, -1][wrap as usize])
}

impl Unwrapper {
    /// Turns, modulo 2^32.
    pub fn wraps(&self) -> i32 {
        unsafe { mittenload_unwrapper_wraps(self.y) }
    }

    pub fn phase(&self) -> i32 {
        unsafe { mittenload_unwrapper_phase(self.y) }
    }
}

impl Dsm {
    pub fn new(order: u64) -> Result<Self, Refused> {
        let mut s = Dsm::default();
        told(unsafe { mittenload_dsm_new(&mut s.order, &mut s.accumulators, &mut s.retained, order) })?;
        Ok(s)
    }

    /// The least and the greatest output.
    pub fn output_range(&self) -> Result<(i16, i16), Refused> {
        let (mut least, mut greatest) = (0, 0);
        told(unsafe { mittenload_dsm_output_range(&self.order, &self.accumulators, &self.retained, &mut least, &mut greatest) })?;
        Ok((least, greatest))
    }
}

impl Wdf {
    pub fn new(sections: u64, architecture: u32, a: [i32; 8]) -> Result<Self, Refused> {
        let mut s = Wdf { sections, architecture, a, z: [0; 8] };
        told(unsafe { mittenload_wdf_new(&mut s.sections, &mut s.architecture, &mut s.a, &mut s.z) })?;
        Ok(s)
    }

    /// Of settings of form 1, which may hold the retired adapters e and f.
    pub fn from_form1(sections: u64, architecture: u32, a: [i32; 8]) -> Result<Self, Refused> {
        let mut s = Wdf { sections, architecture, a, z: [0; 8] };
        told(unsafe { mittenload_wdf_from_form1(&mut s.sections, &mut s.architecture, &mut s.a, &mut s.z) })?;
        Ok(s)
    }

    /// The architecture with b and c in the places of e and f.
    pub fn current_architecture(sections: u64, architecture: u32) -> u32 {
        unsafe { mittenload_wdf_current_architecture(sections, architecture) }
    }

    /// The bits of a coefficient for the adapter of a nibble, from a pole.
    pub fn quantize(nibble: u8, g: f64) -> Result<i32, Refused> {
        asked(|bits| unsafe { mittenload_wdf_quantize(nibble, g, bits) })
    }
}

/// Two roots.
#[derive(Clone, Copy, Debug, PartialEq)]
pub enum Pair {
    Real(f64, f64),
    /// x + jy and x - jy.
    Complex(f64, f64),
}

impl Biquad {
    pub const IDENTITY: Biquad = Biquad::proportional(1.0);
    pub const HOLD: Biquad = Biquad { b0: 0.0, b1: 0.0, b2: 0.0, a1: 1.0, a2: 0.0 };

    pub const fn proportional(k: f64) -> Self {
        Biquad { b0: k, b1: 0.0, b2: 0.0, a1: 0.0, a2: 0.0 }
    }

    pub fn from_zpk(zeros: Pair, poles: Pair, gain: f64) -> Self {
        let parts = |pair| match pair {
            Pair::Real(x, y) => (0, x, y),
            Pair::Complex(x, y) => (1, x, y),
        };
        let (mut c, (z, zx, zy), (p, px, py)) = (Biquad::default(), parts(zeros), parts(poles));
        unsafe { mittenload_biquad_from_zpk(z, zx, zy, p, px, py, gain, &mut c.b0, &mut c.b1, &mut c.b2, &mut c.a1, &mut c.a2) };
        c
    }

    pub fn forward_gain(&self) -> f64 {
        unsafe { mittenload_biquad_forward_gain(self.b0, self.b1, self.b2, self.a1, self.a2) }
    }
}

impl BiquadClamp {
    /// The offset referred to the input.
    pub fn input_offset(&self) -> Result<f64, Refused> {
        asked(|value| unsafe { mittenload_biquad_input_offset(&self.b0, &self.b1, &self.b2, &self.a1, &self.a2, &self.u, &self.min, &self.max, value) })
    }

    pub fn set_input_offset(&mut self, i: f64) {
        unsafe { mittenload_biquad_set_input_offset(&self.b0, &self.b1, &self.b2, &self.a1, &self.a2, &mut self.u, &self.min, &self.max, i) }
    }
}

impl Pll {
    /// The phase an update on, without an input.
    pub fn predict(&mut self) -> i32 {
        unsafe { mittenload_pll_predict(&self.x0, &self.wrap, &self.z0, &self.y0, &self.f0, &self.f, &mut self.y) }
    }

    pub fn frequency(&self) -> i32 {
        unsafe { mittenload_pll_frequency(&self.x0, &self.wrap, &self.z0, &self.y0, &self.f0, &self.f, &self.y) }
    }
}

impl Rpll {
    /// Step i with the timestamp `xs[i]` where `there[i]`, else without.
    pub fn block(&mut self, c: &RpllConfig, there: &[bool], xs: &[i32], phases: &mut [i32], frequencies: &mut [i32]) -> Result<(), Refused> {
        let s = self;
        told(unsafe { mittenload_rpll_block(&c.dt2, &c.shift_frequency, &c.shift_phase, &mut s.x, &mut s.ff, &mut s.f, &mut s.y, there.as_ptr(), there.len() as u64, xs.as_ptr(), xs.len() as u64, phases.as_mut_ptr(), phases.len() as u64, frequencies.as_mut_ptr(), frequencies.len() as u64) })
    }
}

/// Settings stores: a text's records by place, a record put into a text, a text moved to the other form.
pub mod settings {
    use super::{told, Cic, Refused, Wdf};

    /// `kind`: 0 a decimator, 1 a wave digital filter, else a dithered biquad; what a kind has not is 0.
    #[derive(Clone, Copy, Debug, Default, PartialEq, Eq)]
    pub struct Setting {
        pub name: [u8; 16],
        pub length: u64,
        pub kind: u32,
        pub order: u32,
        pub delay: u32,
        pub rate: u32,
        pub sections: u64,
        pub architecture: u32,
        pub f: u32,
        pub a: [i32; 8],
    }

    extern "C" {
        fn mittenload_settings_form(text: *const u8, n: u64) -> u32;
        fn mittenload_settings_line(form: u32, text: *const u8, n: u64) -> u64;
        fn mittenload_settings_count(form: u32, text: *const u8, n: u64, count: &mut u64) -> u32;
        fn mittenload_settings_read(form: u32, text: *const u8, n: u64, place: u64, name: &mut [u8; 16], length: &mut u64, kind: &mut u32, order: &mut u32, delay: &mut u32, rate: &mut u32, sections: &mut u64, architecture: &mut u32, f: &mut u32, a: &mut [i32; 8]) -> u32;
        fn mittenload_settings_put(form: u32, text: *const u8, n: u64, place: u64, name: &[u8; 16], length: &u64, kind: &u32, order: &u32, delay: &u32, rate: &u32, sections: &u64, architecture: &u32, f: &u32, a: &[i32; 8], out: *mut u8, m: u64, count: &mut u64) -> u32;
        fn mittenload_settings_forth(text: *const u8, n: u64, out: *mut u8, m: u64, count: &mut u64) -> u32;
        fn mittenload_settings_back(text: *const u8, n: u64, out: *mut u8, m: u64, count: &mut u64) -> u32;
    }

    /// 2, or 1 also where the first line opens neither form.
    pub fn form(text: &[u8]) -> u32 {
        unsafe { mittenload_settings_form(text.as_ptr(), text.len() as u64) }
    }

    /// The first bad line, from 1, of a text that is refused; else 0.
    pub fn line(form: u32, text: &[u8]) -> u64 {
        unsafe { mittenload_settings_line(form, text.as_ptr(), text.len() as u64) }
    }

    pub fn count(form: u32, text: &[u8]) -> Result<u64, Refused> {
        super::asked(|n| unsafe { mittenload_settings_count(form, text.as_ptr(), text.len() as u64, n) })
    }

    /// The record at a place, from 0.
    pub fn read(form: u32, text: &[u8], place: u64) -> Result<Option<Setting>, Refused> {
        let mut r = Setting::default();
        told(unsafe { mittenload_settings_read(form, text.as_ptr(), text.len() as u64, place, &mut r.name, &mut r.length, &mut r.kind, &mut r.order, &mut r.delay, &mut r.rate, &mut r.sections, &mut r.architecture, &mut r.f, &mut r.a) })?;
        Ok(Some(r).filter(|r| r.length != 0))
    }

    /// The store with a record in the place of the one there, or after the last.
    pub fn put<'a>(form: u32, text: &[u8], place: u64, r: &Setting, out: &'a mut [u8]) -> Result<&'a [u8], Refused> {
        let mut n = 0;
        told(unsafe { mittenload_settings_put(form, text.as_ptr(), text.len() as u64, place, &r.name, &r.length, &r.kind, &r.order, &r.delay, &r.rate, &r.sections, &r.architecture, &r.f, &r.a, out.as_mut_ptr(), out.len() as u64, &mut n) })?;
        Ok(&out[..n as usize])
    }

    /// A store of form 1 in form 2.
    pub fn forth<'a>(text: &[u8], out: &'a mut [u8]) -> Result<&'a [u8], Refused> {
        let mut n = 0;
        told(unsafe { mittenload_settings_forth(text.as_ptr(), text.len() as u64, out.as_mut_ptr(), out.len() as u64, &mut n) })?;
        Ok(&out[..n as usize])
    }

    /// One of form 2 back in form 1.
    pub fn back<'a>(text: &[u8], out: &'a mut [u8]) -> Result<&'a [u8], Refused> {
        let mut n = 0;
        told(unsafe { mittenload_settings_back(text.as_ptr(), text.len() as u64, out.as_mut_ptr(), out.len() as u64, &mut n) })?;
        Ok(&out[..n as usize])
    }

    impl Setting {
        /// A decimator's record as its filter.
        pub fn cic(&self, form: u32) -> Result<Cic, Refused> {
            Cic::new(self.order as u64, self.delay as u64, if form == 2 { self.rate.wrapping_sub(1) } else { self.rate })
        }

        /// A wave digital filter's.
        pub fn wdf(&self, form: u32) -> Result<Wdf, Refused> {
            if form == 2 { Wdf::new(self.sections, self.architecture, self.a) } else { Wdf::from_form1(self.sections, self.architecture, self.a) }
        }
    }
}

/// RIFF WAVE of one channel and 16 bits.
pub mod wav {
    use super::{told, Refused};

    extern "C" {
        fn mittenload_wav_read_header(bytes: *const u8, n: u64, length: u64, rate: &mut u32, size: &mut u32) -> u32;
        fn mittenload_wav_write_header(rate: u32, size: u32, out: *mut u8, m: u64) -> u32;
        fn mittenload_wav_read_part(bytes: *const u8, n: u64, out: *mut i32, m: u64, count: &mut u64) -> u32;
        fn mittenload_wav_write_part(samples: *const i32, n: u64, out: *mut u8, m: u64, count: &mut u64) -> u32;
    }

    /// Samples a second and data bytes, by the header of a file of that length.
    pub fn read_header(bytes: &[u8], length: u64) -> Result<(u32, u32), Refused> {
        let (mut rate, mut size) = (0, 0);
        told(unsafe { mittenload_wav_read_header(bytes.as_ptr(), bytes.len() as u64, length, &mut rate, &mut size) })?;
        Ok((rate, size))
    }

    pub fn write_header(rate: u32, size: u32, out: &mut [u8]) -> Result<(), Refused> {
        told(unsafe { mittenload_wav_write_header(rate, size, out.as_mut_ptr(), out.len() as u64) })
    }

    pub fn read_part<'a>(bytes: &[u8], out: &'a mut [i32]) -> Result<&'a [i32], Refused> {
        let mut n = 0;
        told(unsafe { mittenload_wav_read_part(bytes.as_ptr(), bytes.len() as u64, out.as_mut_ptr(), out.len() as u64, &mut n) })?;
        Ok(&out[..n as usize])
    }

    pub fn write_part<'a>(samples: &[i32], out: &'a mut [u8]) -> Result<&'a [u8], Refused> {
        let mut n = 0;
        told(unsafe { mittenload_wav_write_part(samples.as_ptr(), samples.len() as u64, out.as_mut_ptr(), out.len() as u64, &mut n) })?;
        Ok(&out[..n as usize])
    }
}
