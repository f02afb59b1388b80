//! The proved library's exports: a slice goes as pointer and length.
extern "C" {
    fn bench_decimate(order: usize, delay: usize, rate: u32, x: *const i32, n: usize, y: *mut i32, m: usize);
    fn bench_fir(x: *const i32, n: usize, y: *mut i32, m: usize);
    fn bench_interpolate(order: usize, delay: usize, rate: u32, x: *const i32, n: usize, y: *mut i32, m: usize);
    fn bench_lent_steps(order: usize, delay: usize, rate: u32, x: *const i32, n: usize, y: *mut i32, m: usize);
    fn bench_steps(order: usize, delay: usize, rate: u32, x: *const i32, n: usize, y: *mut i32, m: usize);
    fn bench_decimate64(order: usize, delay: usize, rate: u32, x: *const i64, n: usize, y: *mut i64, m: usize);
    fn bench_interpolate64(order: usize, delay: usize, rate: u32, x: *const i64, n: usize, y: *mut i64, m: usize);
    fn bench_dsm(order: usize, x: *const u32, n: usize, y: *mut i16, m: usize);
    fn bench_wdf(sections: usize, architecture: u32, a: i32, x: *const i32, n: usize, y: *mut i32, m: usize);
    fn bench_df1(b0: f64, b1: f64, b2: f64, a1: f64, a2: f64, x: *const f64, n: usize, y: *mut f64, m: usize);
    fn bench_df2t(b0: f64, b1: f64, b2: f64, a1: f64, a2: f64, x: *const f64, n: usize, y: *mut f64, m: usize);
    fn bench_df1_clamp(b0: f64, b1: f64, b2: f64, a1: f64, a2: f64, u: f64, min: f64, max: f64, x: *const f64, n: usize, y: *mut f64, m: usize);
    fn bench_df2t_clamp(b0: f64, b1: f64, b2: f64, a1: f64, a2: f64, u: f64, min: f64, max: f64, x: *const f64, n: usize, y: *mut f64, m: usize);
    fn bench_wide(x: *const i32, n: usize, y: *mut i32, m: usize, b0: i32, b1: i32, b2: i32, a1: i32, a2: i32, f: u32);
    fn bench_dither(x: *const i32, n: usize, y: *mut i32, m: usize, b0: i32, b1: i32, b2: i32, a1: i32, a2: i32, f: u32);
    fn bench_wide_clamp(x: *const i32, n: usize, y: *mut i32, m: usize, b0: i32, b1: i32, b2: i32, a1: i32, a2: i32, f: u32, u: i32, min: i32, max: i32);
    fn bench_dither_clamp(x: *const i32, n: usize, y: *mut i32, m: usize, b0: i32, b1: i32, b2: i32, a1: i32, a2: i32, f: u32, u: i32, min: i32, max: i32);
    fn bench_pll(b0: i32, b1: i32, a1: i32, x: *const i32, n: usize, y: *mut i32, m: usize);
    fn bench_clamp_wrap(x: *const i32, n: usize, y: *mut i32, m: usize);
    fn bench_unwrapper(x: *const i32, n: usize, y: *mut i32, m: usize);
    fn bench_rpll(dt2: u8, frequency: u8, lock: u8, t: *const bool, k: usize, x: *const i32, n: usize, y: *mut i32, m: usize, f: *mut i32, l: usize);
    fn bench_scale(hi: i32, shift: u32, x: *const i32, n: usize, y: *mut i32, m: usize);
}

macro_rules! call {
    ($f:ident($($a:expr),*), $x:ident, $y:ident) => {
        unsafe { $f($($a,)* $x.as_ptr(), $x.len(), $y.as_mut_ptr(), $y.len()) }
    };
}

/// The same, the slices first: behind eight numbers they would come by the stack, and cost the loop a register.
macro_rules! lent {
    ($f:ident($($a:expr),*), $x:ident, $y:ident) => {
        unsafe { $f($x.as_ptr(), $x.len(), $y.as_mut_ptr(), $y.len(), $($a),*) }
    };
}

pub fn decimate(order: usize, delay: usize, rate: u32, x: &[i32], y: &mut [i32]) {
    call!(bench_decimate(order, delay, rate), x, y)
}
pub fn fir(x: &[i32], y: &mut [i32]) {
    call!(bench_fir(), x, y)
}
pub fn interpolate(order: usize, delay: usize, rate: u32, x: &[i32], y: &mut [i32]) {
    call!(bench_interpolate(order, delay, rate), x, y)
}
pub fn decimate64(order: usize, delay: usize, rate: u32, x: &[i64], y: &mut [i64]) {
    call!(bench_decimate64(order, delay, rate), x, y)
}
pub fn interpolate64(order: usize, delay: usize, rate: u32, x: &[i64], y: &mut [i64]) {
    call!(bench_interpolate64(order, delay, rate), x, y)
}
pub fn dsm(order: usize, x: &[u32], y: &mut [i16]) {
    call!(bench_dsm(order), x, y)
}
pub fn wdf(sections: usize, architecture: u32, a: i32, x: &[i32], y: &mut [i32]) {
    call!(bench_wdf(sections, architecture, a), x, y)
}
pub fn df1(c: &[f64; 8], x: &[f64], y: &mut [f64]) {
    call!(bench_df1(c[0], c[1], c[2], c[3], c[4]), x, y)
}
pub fn df2t(c: &[f64; 8], x: &[f64], y: &mut [f64]) {
    call!(bench_df2t(c[0], c[1], c[2], c[3], c[4]), x, y)
}
pub fn df1_clamp(c: &[f64; 8], x: &[f64], y: &mut [f64]) {
    call!(bench_df1_clamp(c[0], c[1], c[2], c[3], c[4], c[5], c[6], c[7]), x, y)
}
pub fn df2t_clamp(c: &[f64; 8], x: &[f64], y: &mut [f64]) {
    call!(bench_df2t_clamp(c[0], c[1], c[2], c[3], c[4], c[5], c[6], c[7]), x, y)
}
pub fn wide(c: &[i32; 8], f: u32, x: &[i32], y: &mut [i32]) {
    lent!(bench_wide(c[0], c[1], c[2], c[3], c[4], f), x, y)
}
pub fn dither(c: &[i32; 8], f: u32, x: &[i32], y: &mut [i32]) {
    lent!(bench_dither(c[0], c[1], c[2], c[3], c[4], f), x, y)
}
pub fn wide_clamp(c: &[i32; 8], f: u32, x: &[i32], y: &mut [i32]) {
    lent!(bench_wide_clamp(c[0], c[1], c[2], c[3], c[4], f, c[5], c[6], c[7]), x, y)
}
pub fn dither_clamp(c: &[i32; 8], f: u32, x: &[i32], y: &mut [i32]) {
    lent!(bench_dither_clamp(c[0], c[1], c[2], c[3], c[4], f, c[5], c[6], c[7]), x, y)
}
pub fn pll(c: &[i32; 3], x: &[i32], y: &mut [i32]) {
    call!(bench_pll(c[0], c[1], c[2]), x, y)
}
pub fn clamp_wrap(x: &[i32], y: &mut [i32]) {
    call!(bench_clamp_wrap(), x, y)
}
pub fn unwrapper(x: &[i32], y: &mut [i32]) {
    call!(bench_unwrapper(), x, y)
}
pub fn lent_steps(order: usize, delay: usize, rate: u32, x: &[i32], y: &mut [i32]) {
    call!(bench_lent_steps(order, delay, rate), x, y)
}
pub fn steps(order: usize, delay: usize, rate: u32, x: &[i32], y: &mut [i32]) {
    call!(bench_steps(order, delay, rate), x, y)
}
/// The first half of y is lent for phases, the second for frequencies.
pub fn rpll(c: &[u8; 3], there: &[bool], x: &[i32], y: &mut [i32]) {
    let (y, f) = y.split_at_mut(x.len());
    unsafe { bench_rpll(c[0], c[1], c[2], there.as_ptr(), there.len(), x.as_ptr(), x.len(), y.as_mut_ptr(), y.len(), f.as_mut_ptr(), f.len()) }
}
pub fn scale(hi: i32, shift: u32, x: &[i32], y: &mut [i32]) {
    call!(bench_scale(hi, shift), x, y)
}
