//! Reads and writes a recording's samples in parts, by the proved library and by a plain Rust twin, on the same drawn samples.
//!   harness            a line per row: name, nanoseconds a sample of the proved and of the twin, the least of many rounds
//!   harness NAME COUNT one call on COUNT samples, for an instruction counter; `none` draws and calls nothing
//! It stops where the two differ.
use std::hint::black_box;
use std::time::Instant;

extern "C" {
    fn bench_read_part(bytes: *const u8, n: usize, out: *mut i32, m: usize) -> usize;
    fn bench_write_part(samples: *const i32, n: usize, out: *mut u8, m: usize) -> usize;
}

fn proved_read(bytes: &[u8], out: &mut [i32]) -> usize {
    unsafe { bench_read_part(bytes.as_ptr(), bytes.len(), out.as_mut_ptr(), out.len()) }
}

fn proved_write(samples: &[i32], out: &mut [u8]) -> usize {
    unsafe { bench_write_part(samples.as_ptr(), samples.len(), out.as_mut_ptr(), out.len()) }
}

/// Reads a part as a Rust programmer would: refusals first, then a pass over pairs of bytes.
#[inline(never)]
fn twin_read(bytes: &[u8], out: &mut [i32]) -> usize {
    if out.len() < bytes.len() / 2 || bytes.len() % 2 != 0 {
        return 0;
    }
    for (pair, x) in bytes.chunks_exact(2).zip(out.iter_mut()) {
        *x = i16::from_le_bytes([pair[0], pair[1]]) as i32;
    }
    bytes.len() / 2
}

/// Writes a part: nothing is written where a sample is outside i16, so all are looked at first.
#[inline(never)]
fn twin_write(samples: &[i32], out: &mut [u8]) -> usize {
    if out.len() / 2 < samples.len() || samples.iter().any(|&x| i16::try_from(x).is_err()) {
        return 0;
    }
    for (pair, &x) in out.chunks_exact_mut(2).zip(samples) {
        pair.copy_from_slice(&(x as i16).to_le_bytes());
    }
    2 * samples.len()
}

/// The same, but the test has no early exit either.
#[inline(never)]
fn twin_write_whole(samples: &[i32], out: &mut [u8]) -> usize {
    if out.len() / 2 < samples.len() || samples.iter().fold(false, |bad, &x| bad | i16::try_from(x).is_err()) {
        return 0;
    }
    for (pair, &x) in out.chunks_exact_mut(2).zip(samples) {
        pair.copy_from_slice(&(x as i16).to_le_bytes());
    }
    2 * samples.len()
}

struct Drawn {
    bytes: Vec<u8>,
    samples: Vec<i32>,
}

fn drawn(count: usize) -> Drawn {
    let mut state = 7u64;
    let mut bytes = Vec::with_capacity(2 * count);
    let mut samples = Vec::with_capacity(count);
    for _ in 0..count {
        state = state.wrapping_mul(6364136223846793005).wrapping_add(1442695040888963407);
        let x = (state >> 48) as u16 as i16;
        bytes.extend_from_slice(&x.to_le_bytes());
        samples.push(x as i32);
    }
    Drawn { bytes, samples }
}

fn least(mut call: impl FnMut(), size: usize) -> f64 {
    let mut best = f64::MAX;
    for _ in 0..400 {
        let t = Instant::now();
        call();
        best = best.min(t.elapsed().as_nanos() as f64 / size as f64);
    }
    best
}

fn main() {
    let words: Vec<String> = std::env::args().collect();
    let size = words.get(2).map_or(65_536, |n| n.parse().unwrap());
    let d = drawn(size);
    let (mut xs, mut bytes) = (vec![0i32; size], vec![0u8; 2 * size]);
    match words.get(1).map(|s| s.as_str()) {
        Some("none") => (),
        Some("read") => assert!(proved_read(black_box(&d.bytes), &mut xs) == size),
        Some("read_twin") => assert!(twin_read(black_box(&d.bytes), &mut xs) == size),
        Some("write") => assert!(proved_write(black_box(&d.samples), &mut bytes) == 2 * size),
        Some("write_twin") => assert!(twin_write(black_box(&d.samples), &mut bytes) == 2 * size),
        Some("write_twin_whole") => assert!(twin_write_whole(black_box(&d.samples), &mut bytes) == 2 * size),
        _ => {
            assert!(proved_read(&d.bytes, &mut xs) == size && xs == d.samples);
            xs.fill(0);
            assert!(twin_read(&d.bytes, &mut xs) == size && xs == d.samples);
            for write in [proved_write as fn(&[i32], &mut [u8]) -> usize, twin_write, twin_write_whole] {
                bytes.fill(0);
                assert!(write(&d.samples, &mut bytes) == 2 * size && bytes == d.bytes);
                let mut bad = d.samples.clone();
                bad[size - 1] = 32768;
                bytes.fill(0);
                assert!(write(&bad, &mut bytes) == 0 && bytes.iter().all(|&b| b == 0));
            }
            let a = least(|| { proved_read(black_box(&d.bytes), black_box(&mut xs)); }, size);
            let b = least(|| { twin_read(black_box(&d.bytes), black_box(&mut xs)); }, size);
            println!("read\t{a:.3}\t{b:.3}");
            let a = least(|| { proved_write(black_box(&d.samples), black_box(&mut bytes)); }, size);
            let b = least(|| { twin_write(black_box(&d.samples), black_box(&mut bytes)); }, size);
            let c = least(|| { twin_write_whole(black_box(&d.samples), black_box(&mut bytes)); }, size);
            println!("write\t{a:.3}\t{b:.3}\nwrite, twin without early exit\t{a:.3}\t{c:.3}");
        }
    }
    black_box((xs, bytes));
}
