// A plain Rust twin of the recorder's program: the same records (docs/RECORDER.md but saved states), parsed by hand, one pass over each
// line. It is what bench.py holds the proved program's cost against.
use std::io::{Read, Write};

struct Recorder {
    order: usize,
    delay: usize,
    rate: u32,
    countdown: u32,
    unsettled: usize,
    inputs: u64,
    y: i64,
    plugged: bool,
    integrators: [i64; 8],
    combs: [[i64; 8]; 8],
}

impl Recorder {
    fn open(argument: u32) -> Result<Recorder, u32> {
        let (order, delay) = ((argument >> 24) as usize, (argument >> 16 & 255) as usize);
        if order > 8 {
            return Err(10);
        }
        if delay == 0 || delay > 8 {
            return Err(11);
        }
        Ok(Recorder {
            order,
            delay,
            rate: argument & 65535,
            countdown: 0,
            unsettled: 0,
            inputs: 0,
            y: 0,
            plugged: true,
            integrators: [0; 8],
            combs: [[0; 8]; 8],
        })
    }

    fn word(&mut self, word: i32) -> Result<Option<(i64, usize)>, u32> {
        if !self.plugged {
            return Err(87);
        }
        if self.inputs == u64::MAX {
            return Err(16);
        }
        self.inputs += 1;
        self.y = self.y.wrapping_add(word.wrapping_sub(self.y as i32) as i64);
        let mut x = self.y;
        for sum in &mut self.integrators[..self.order] {
            *sum = sum.wrapping_add(x);
            x = *sum;
        }
        if self.countdown > 0 {
            self.countdown -= 1;
            return Ok(None);
        }
        self.countdown = self.rate;
        for line in &mut self.combs[..self.order] {
            let oldest = line[0];
            line.copy_within(1..self.delay, 0);
            line[self.delay - 1] = x;
            x = x.wrapping_sub(oldest);
        }
        let told = self.unsettled;
        self.unsettled = told.saturating_sub(1);
        Ok(Some((x, told)))
    }
}

fn hex(digits: &[u8]) -> Option<u64> {
    let mut v = 0;
    for &b in digits {
        let d = match b {
            b'0'..=b'9' => b - b'0',
            b'a'..=b'f' => b - b'a' + 10,
            _ => return None,
        };
        v = v << 4 | d as u64;
    }
    Some(v)
}

fn put_decimal(out: &mut Vec<u8>, n: u64) {
    let mut digits = [0; 20];
    let mut i = 20;
    let mut left = n;
    loop {
        i -= 1;
        digits[i] = b'0' + (left % 10) as u8;
        left /= 10;
        if left == 0 {
            break;
        }
    }
    out.extend_from_slice(&digits[i..]);
}

fn put_output(out: &mut Vec<u8>, value: i64, told: usize, number: u64) {
    out.extend_from_slice(b"y\t");
    if value < 0 {
        out.push(b'-');
    }
    put_decimal(out, value.unsigned_abs());
    out.push(b'\t');
    put_decimal(out, told as u64);
    out.push(b'\t');
    put_decimal(out, number);
    out.push(b'\n');
}

fn take(recorder: &mut Option<Recorder>, line: &[u8], out: &mut Vec<u8>) -> Result<(), u32> {
    if line[17] != b'\n' {
        return Err(72);
    }
    let bits = hex(&line[1..17]).ok_or(75u32)?;
    let (number, argument) = ((bits >> 32) as u32, bits as u32);
    if line[0] == b'o' {
        if recorder.is_some() {
            return Err(71);
        }
        if number != 0 {
            return Err(85);
        }
        *recorder = Some(Recorder::open(argument)?);
        return Ok(());
    }
    if matches!(line[0], b'p' | b'q') && argument != 0 {
        return Err(76);
    }
    let r = recorder.as_mut().ok_or(71u32)?;
    match line[0] {
        b'w' => {
            if number != (r.inputs as u32).wrapping_add(1) {
                return Err(85);
            }
            if let Some((value, told)) = r.word(argument as i32)? {
                put_output(out, value, told, r.inputs);
            }
        }
        b'r' | b'p' | b'q' => {
            if number != r.inputs as u32 {
                return Err(85);
            }
            if line[0] == b'p' {
                r.plugged = false;
                return Ok(());
            }
            if line[0] == b'r' {
                if argument > 65535 {
                    return Err(12);
                }
                r.rate = argument;
            } else {
                r.plugged = true;
            }
            r.unsettled = r.order * r.delay;
        }
        _ => return Err(73),
    }
    Ok(())
}

fn main() {
    let (mut input, mut output) = (std::io::stdin().lock(), std::io::stdout().lock());
    let mut recorder = None;
    let (mut held, mut out) = (vec![0; 65536], Vec::new());
    let mut left = 0;
    loop {
        let got = input.read(&mut held[left..]).unwrap();
        if got == 0 {
            break;
        }
        let have = left + got;
        let mut at = 0;
        while have - at >= 18 {
            if let Err(number) = take(&mut recorder, &held[at..at + 18], &mut out) {
                let inputs = recorder.map_or(0, |r| r.inputs);
                out.extend_from_slice(format!("bad\t{}\t{}\n", inputs, number).as_bytes());
                output.write_all(&out).unwrap();
                return;
            }
            at += 18;
        }
        held.copy_within(at..have, 0);
        left = have - at;
        output.write_all(&out).unwrap();
        out.clear();
    }
    let inputs = recorder.map_or(0, |r| r.inputs);
    let last = if left == 0 { format!("end\t{}\n", inputs) } else { format!("bad\t{}\t77\n", inputs) };
    output.write_all(last.as_bytes()).unwrap();
}
