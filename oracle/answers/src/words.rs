//! The stored answers' words: how a value becomes words, the generator, the digest, and a file of lines.

use std::fmt::Write;
use std::sync::OnceLock;

/// At scale: how far every seed is moved, and how many times longer the decimator's and interpolator's runs by
/// blocks are.
pub static SCALE: OnceLock<(u32, u32)> = OnceLock::new();

/// A seed, moved at scale.
pub fn moved(seed: u32) -> u32 {
    seed.wrapping_add(SCALE.get().map_or(0, |s| s.0))
}

/// The blocks of a run, more of them at scale.
pub fn longer(blocks: u32) -> u32 {
    blocks * SCALE.get().map_or(1, |s| s.1)
}

/// Words that runs meet often.
pub const EDGES: [u32; 8] = [0, 1, 0x7fffffff, 0x80000000, 0xffffffff, 0x80000001, 0x40000000, 0xc0000000];

/// Words whose pairs the stored cases go through.
pub const CORNERS: [u32; 10] =
    [0, 1, 2, 0x7fffffff, 0x80000000, 0x80000001, 0xffffffff, 0xfffffffe, 0x40000000, 0xc0000000];

/// A value as words, high word first, every NaN alike.
pub trait Words {
    fn put(&self, to: &mut dyn FnMut(u32));
}

impl Words for u32 {
    fn put(&self, to: &mut dyn FnMut(u32)) {
        to(*self)
    }
}

impl Words for i32 {
    fn put(&self, to: &mut dyn FnMut(u32)) {
        to(*self as u32)
    }
}

impl Words for u64 {
    fn put(&self, to: &mut dyn FnMut(u32)) {
        to((*self >> 32) as u32);
        to(*self as u32)
    }
}

impl Words for i64 {
    fn put(&self, to: &mut dyn FnMut(u32)) {
        (*self as u64).put(to)
    }
}

impl Words for f64 {
    fn put(&self, to: &mut dyn FnMut(u32)) {
        let bits = if self.is_nan() { 0x7ff8_0000_0000_0000 } else { self.to_bits() };
        bits.put(to)
    }
}

impl<T: Words> Words for [T] {
    fn put(&self, to: &mut dyn FnMut(u32)) {
        self.iter().for_each(|w| w.put(to))
    }
}

impl<T: Words, const N: usize> Words for [T; N] {
    fn put(&self, to: &mut dyn FnMut(u32)) {
        self[..].put(to)
    }
}

/// A word of the decimator and interpolator: drawn by spread, the high word first, and a number by its bits.
pub trait Cell: Words {
    fn drawn(draw: &mut Draw) -> Self;
    fn bits(self) -> u64;
}

impl Cell for i32 {
    fn drawn(draw: &mut Draw) -> Self {
        draw.int()
    }

    fn bits(self) -> u64 {
        self as u32 as u64
    }
}

impl Cell for i64 {
    fn drawn(draw: &mut Draw) -> Self {
        draw.long()
    }

    fn bits(self) -> u64 {
        self as u64
    }
}

/// The generator: a linear congruence modulo 2^64 whose high word is the draw.
pub struct Draw(u64);

impl Draw {
    pub fn new(seed: u32) -> Self {
        Self(seed as u64)
    }

    pub fn word(&mut self) -> u32 {
        self.0 = self.0.wrapping_mul(6364136223846793005).wrapping_add(1442695040888963407);
        (self.0 >> 32) as u32
    }

    /// One time in four an edge word, else another draw.
    pub fn spread(&mut self) -> u32 {
        let u = self.word();
        if u % 4 == 0 {
            EDGES[(u / 4 % 8) as usize]
        } else {
            self.word()
        }
    }

    /// A spread word read as signed.
    pub fn int(&mut self) -> i32 {
        self.spread() as i32
    }

    /// Two spread words as one signed number, the high one first.
    pub fn long(&mut self) -> i64 {
        let high = self.spread() as i64;
        high << 32 | self.spread() as i64
    }

    /// `K` spread words.
    pub fn ints<const K: usize>(&mut self) -> [i32; K] {
        std::array::from_fn(|_| self.int())
    }

    /// `K` spread words of the decimator and interpolator.
    pub fn cells<T: Cell, const K: usize>(&mut self) -> [T; K] {
        std::array::from_fn(|_| T::drawn(self))
    }

    /// A draw below `n`.
    pub fn below(&mut self, n: u32) -> u32 {
        self.word() % n
    }
}

/// The digest of a run's words.
#[derive(Default, Clone, Copy, PartialEq)]
pub struct Digest(u64);

impl Digest {
    pub fn feed<T: Words + ?Sized>(&mut self, value: &T) {
        value.put(&mut |w| {
            self.0 = self.0.wrapping_mul(6364136223846793005).wrapping_add(w as u64).wrapping_add(1)
        })
    }
}

impl Words for Digest {
    fn put(&self, to: &mut dyn FnMut(u32)) {
        self.0.put(to)
    }
}

/// A file of lines of `width` words.
pub struct Answers {
    width: usize,
    lines: usize,
    text: String,
}

impl Answers {
    pub fn new(width: usize) -> Self {
        Self { width, lines: 0, text: String::new() }
    }

    /// One line: the function's code, then its values, filled up with zeros.
    pub fn line(&mut self, code: u32, values: &[&dyn Words]) {
        let mut row = vec![code];
        values.iter().for_each(|v| v.put(&mut |w| row.push(w)));
        assert!(row.len() <= self.width, "code {code}: {} words", row.len());
        row.resize(self.width, 0);
        for (i, w) in row.iter().enumerate() {
            let gap = if i == 0 { "" } else { " " };
            write!(self.text, "{gap}{w:08x}").unwrap();
        }
        self.text.push('\n');
        self.lines += 1;
    }

    /// Writes `crates/compare_NAME/stdin` under `root`.
    pub fn write(self, root: &str, name: &str) {
        assert!(self.text.len() < 250_000, "{name}: {} bytes", self.text.len());
        let folder = format!("{root}/crates/compare_{name}");
        std::fs::create_dir_all(&folder).unwrap();
        std::fs::write(format!("{folder}/stdin"), &self.text).unwrap();
        println!("compare_{name}: {} words, {} lines, {} bytes", self.width, self.lines, self.text.len());
    }
}
