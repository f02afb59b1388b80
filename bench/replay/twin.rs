// A plain Rust twin of the replay program: the same language, parsed by hand, one pass over each line.
// It is what bench.py holds the proved program's cost against.
use std::io::{Read, Write};

// A filter's word: i32 after `cic`, i64 after `cic64`.
trait Word: Copy + Default {
    fn plus(self, other: Self) -> Self;
    fn less(self, other: Self) -> Self;
}

impl Word for i32 {
    fn plus(self, other: i32) -> i32 {
        self.wrapping_add(other)
    }

    fn less(self, other: i32) -> i32 {
        self.wrapping_sub(other)
    }
}

impl Word for i64 {
    fn plus(self, other: i64) -> i64 {
        self.wrapping_add(other)
    }

    fn less(self, other: i64) -> i64 {
        self.wrapping_sub(other)
    }
}

struct Cic<W> {
    order: usize,
    delay: usize,
    rate: u32,
    countdown: u32,
    unsettled: usize,
    integrators: [W; 8],
    combs: [[W; 8]; 8],
}

impl<W: Word> Cic<W> {
    fn new(order: u32, delay: u32, rate: u32) -> Result<Cic<W>, u32> {
        if order > 8 {
            return Err(10);
        }
        if delay == 0 || delay > 8 {
            return Err(11);
        }
        if rate > 65535 {
            return Err(12);
        }
        Ok(Cic {
            order: order as usize,
            delay: delay as usize,
            rate,
            countdown: 0,
            unsettled: 0,
            integrators: [W::default(); 8],
            combs: [[W::default(); 8]; 8],
        })
    }

    fn set_rate(&mut self, rate: u32) -> Result<(), u32> {
        if rate > 65535 {
            return Err(12);
        }
        self.rate = rate;
        self.unsettled = self.order * self.delay;
        Ok(())
    }

    fn clear(&mut self) {
        self.countdown = 0;
        self.unsettled = 0;
        self.integrators = [W::default(); 8];
        self.combs = [[W::default(); 8]; 8];
    }

    fn decimate(&mut self, x: W) -> Option<(W, usize)> {
        let mut acc = x;
        for cell in self.integrators[..self.order].iter_mut() {
            *cell = cell.plus(acc);
            acc = *cell;
        }
        if self.countdown > 0 {
            self.countdown -= 1;
            return None;
        }
        self.countdown = self.rate;
        for line in self.combs[..self.order].iter_mut() {
            let oldest = line[0];
            line.copy_within(1..self.delay, 0);
            line[self.delay - 1] = acc;
            acc = acc.less(oldest);
        }
        let told = self.unsettled;
        self.unsettled = told.saturating_sub(1);
        Some((acc, told))
    }
}

fn digits(field: &[u8]) -> Option<u64> {
    if field.is_empty() || (field[0] == b'0' && field.len() > 1) {
        return None;
    }
    let mut v: u64 = 0;
    for &b in field {
        if !b.is_ascii_digit() {
            return None;
        }
        v = v.saturating_mul(10).saturating_add((b - b'0') as u64);
    }
    Some(v)
}

// What is wrong: a number, and the bad field's place in the line, or 0.
struct Bad {
    number: u32,
    place: u8,
}

impl From<u32> for Bad {
    fn from(number: u32) -> Bad {
        Bad { number, place: 0 }
    }
}

// A field at its place: 75 where it is no well-formed number, 76 where that is out of its range.
fn natural(field: &[u8], place: u8) -> Result<u32, Bad> {
    let (minus, v) = number(field, place)?;
    match u32::try_from(v) {
        Ok(v) if !minus => Ok(v),
        _ => Err(Bad { number: 76, place }),
    }
}

fn integer(field: &[u8], place: u8) -> Result<i64, Bad> {
    let (minus, v) = number(field, place)?;
    if minus && v <= 9223372036854775808 {
        return Ok(v.wrapping_neg() as i64);
    }
    match i64::try_from(v) {
        Ok(v) if !minus => Ok(v),
        _ => Err(Bad { number: 76, place }),
    }
}

fn number(field: &[u8], place: u8) -> Result<(bool, u64), Bad> {
    let wrong = Bad { number: 75, place };
    if field.first() == Some(&b'-') {
        return match digits(&field[1..]) {
            None | Some(0) => Err(wrong),
            Some(v) => Ok((true, v)),
        };
    }
    digits(field).map(|v| (false, v)).ok_or(wrong)
}

fn put_decimal(out: &mut Vec<u8>, n: u64) {
    let mut text = [0u8; 20];
    let mut i = 20;
    let mut left = n;
    loop {
        i -= 1;
        text[i] = b'0' + (left % 10) as u8;
        left /= 10;
        if left == 0 {
            break;
        }
    }
    out.extend_from_slice(&text[i..]);
}

fn put_output(out: &mut Vec<u8>, value: i64, told: usize) {
    out.extend_from_slice(b"y\t");
    if value < 0 {
        out.push(b'-');
    }
    put_decimal(out, value.unsigned_abs());
    if told == 0 {
        out.extend_from_slice(b"\t0\n");
        return;
    }
    out.push(b'\t');
    put_decimal(out, told as u64);
    out.push(b'\n');
}

enum Filter {
    Unopened,
    Narrow(Cic<i32>),
    Wide(Cic<i64>),
}

impl Filter {
    fn set_rate(&mut self, rate: u32) -> Result<(), u32> {
        match self {
            Filter::Unopened => Err(71),
            Filter::Narrow(f) => f.set_rate(rate),
            Filter::Wide(f) => f.set_rate(rate),
        }
    }

    fn clear(&mut self) -> Result<(), u32> {
        match self {
            Filter::Unopened => return Err(71),
            Filter::Narrow(f) => f.clear(),
            Filter::Wide(f) => f.clear(),
        }
        Ok(())
    }

    fn decimate(&mut self, v: i64) -> Result<Option<(i64, usize)>, Bad> {
        let outside = |_| Bad { number: 76, place: 2 };
        match self {
            Filter::Unopened => {
                i32::try_from(v).map_err(outside)?;
                Err(Bad::from(71))
            }
            Filter::Narrow(f) => {
                let x = i32::try_from(v).map_err(outside)?;
                Ok(f.decimate(x).map(|(y, told)| (y as i64, told)))
            }
            Filter::Wide(f) => Ok(f.decimate(v)),
        }
    }
}

struct Replay {
    filter: Filter,
    outputs: u64,
}

impl Replay {
    fn line(&mut self, line: &[u8], out: &mut Vec<u8>) -> Result<(), Bad> {
        if line.len() > 64 {
            return Err(Bad::from(72));
        }
        let mut fields = line.split(|&b| b == b'\t');
        let name = fields.next().unwrap_or(b"");
        match name {
            b"x" => {
                let (Some(v), None) = (fields.next(), fields.next()) else { return Err(Bad::from(74)) };
                let v = integer(v, 2)?;
                if let Some((value, told)) = self.filter.decimate(v)? {
                    self.outputs += 1;
                    put_output(out, value, told);
                }
            }
            b"rate" => {
                let (Some(r), None) = (fields.next(), fields.next()) else { return Err(Bad::from(74)) };
                let r = natural(r, 2)?;
                self.filter.set_rate(r)?;
            }
            b"cic" | b"cic64" => {
                let (Some(n), Some(m), Some(r), None) = (fields.next(), fields.next(), fields.next(), fields.next()) else {
                    return Err(Bad::from(74));
                };
                let (n, m, r) = (natural(n, 2)?, natural(m, 3)?, natural(r, 4)?);
                if !matches!(self.filter, Filter::Unopened) {
                    return Err(Bad::from(71));
                }
                self.filter = if name == b"cic" { Filter::Narrow(Cic::new(n, m, r)?) } else { Filter::Wide(Cic::new(n, m, r)?) };
            }
            b"clear" => {
                if fields.next().is_some() {
                    return Err(Bad::from(74));
                }
                self.filter.clear()?;
            }
            _ => return Err(Bad::from(73)),
        }
        Ok(())
    }
}

fn put_bad(out: &mut Vec<u8>, line: u64, bad: Bad) {
    out.extend_from_slice(b"bad\t");
    put_decimal(out, line);
    out.push(b'\t');
    put_decimal(out, bad.number as u64);
    out.push(b'\t');
    put_decimal(out, bad.place as u64);
    out.push(b'\n');
}

fn main() -> std::io::Result<()> {
    let mut input = std::io::stdin().lock();
    let mut output = std::io::stdout().lock();
    let mut buffer = vec![0u8; 65536];
    let mut held = 0;
    let mut out = Vec::with_capacity(1 << 18);
    let mut replay = Replay { filter: Filter::Unopened, outputs: 0 };
    let mut lines = 0u64;
    loop {
        let got = input.read(&mut buffer[held..])?;
        if got == 0 {
            break;
        }
        let end = held + got;
        let mut from = 0;
        while let Some(n) = buffer[from..end].iter().position(|&b| b == b'\n') {
            lines += 1;
            if let Err(bad) = replay.line(&buffer[from..from + n], &mut out) {
                put_bad(&mut out, lines, bad);
                return output.write_all(&out);
            }
            from += n + 1;
        }
        if end - from > 64 {
            put_bad(&mut out, lines + 1, Bad::from(72));
            return output.write_all(&out);
        }
        buffer.copy_within(from..end, 0);
        held = end - from;
        output.write_all(&out)?;
        out.clear();
    }
    if held > 0 {
        put_bad(&mut out, lines + 1, Bad::from(77));
    } else {
        out.extend_from_slice(b"end\t");
        put_decimal(&mut out, replay.outputs);
        out.push(b'\n');
    }
    output.write_all(&out)
}
