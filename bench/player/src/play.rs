//! A player of traces in plain Rust, written for speed from docs/SCOPE.md: the proved players are timed beside it. It reads
//! standard input through a window and needs no more memory for a longer trace.

use plain_switch::ARRIVAL_BYTES;
use std::io::{stdin, stdout, Read, Write};

/// A switch that a trace is played on.
pub trait Switch: Sized {
    /// A fresh switch, if it has 1 to 16 ports.
    fn fresh(ports: u32, first: u32) -> Option<Self>;

    /// Runs a slot: 0, or the refusal and 256 times the record's place.
    fn slot(&mut self, arrivals: &[u8]) -> u64;

    /// What the last slot sent, outputs rising: output, input, flow, rank and tag.
    fn departures(&self) -> impl Iterator<Item = [u32; 5]>;
}

const WINDOW_BYTES: usize = 1 << 16;

/// No block and the key after it are longer.
const BLOCK_BYTES: usize = 2048;

/// Why the rest of the trace is not played: the refusal's number, and the line that it names.
struct Refused {
    number: u64,
    line: u64,
}

/// A window on standard input: the bytes in `from..to` are not read yet, and `line` is the number of their first line.
struct Reader {
    window: [u8; WINDOW_BYTES],
    from: usize,
    to: usize,
    ended: bool,
    line: u64,
}

impl Reader {
    fn new() -> Reader {
        Reader { window: [0; WINDOW_BYTES], from: 0, to: 0, ended: false, line: 1 }
    }

    /// Makes sure that a whole block is in the window, or the last of the text.
    fn fill(&mut self) {
        if self.to - self.from < BLOCK_BYTES {
            self.window.copy_within(self.from..self.to, 0);
            self.to -= self.from;
            self.from = 0;
        }
        while self.to < BLOCK_BYTES && !self.ended {
            let bytes = stdin().read(&mut self.window[self.to..]).expect("standard input is read");
            self.ended = bytes == 0;
            self.to += bytes;
        }
    }

    fn rest(&self) -> &[u8] {
        &self.window[self.from..self.to]
    }

    fn bad_line(&self) -> Refused {
        Refused { number: 9, line: self.line }
    }

    /// Passes a line of this key and gives its number. The key has its `=`.
    fn number(&mut self, key: &[u8]) -> Result<u32, Refused> {
        let (number, length) = line(self.rest(), key).ok_or(self.bad_line())?;
        self.from += length;
        self.line += 1;
        Ok(number)
    }

    /// Passes a line of this key and number.
    fn expected(&mut self, key: &[u8], number: u32) -> Result<(), Refused> {
        let bad = self.bad_line();
        if self.number(key)? == number { Ok(()) } else { Err(bad) }
    }

    /// Reads the block of a slot into the arrivals and gives their number of bytes.
    fn block(&mut self, slot: u32, arrivals: &mut [u8; 16 * ARRIVAL_BYTES]) -> Result<usize, Refused> {
        self.expected(b"slot=", slot)?;
        let mut bytes = 0;
        while bytes < arrivals.len() && self.rest().starts_with(b"in=") {
            for key in [&b"in="[..], b"out=", b"flow=", b"rank=", b"tag="] {
                let number = self.number(key)?;
                arrivals[bytes..bytes + 4].copy_from_slice(&number.to_le_bytes());
                bytes += 4;
            }
        }
        Ok(bytes)
    }
}

/// The number of the first line and the line's length, if it has this key.
fn line(text: &[u8], key: &[u8]) -> Option<(u32, usize)> {
    let digits = text.strip_prefix(key)?;
    let mut number = 0u64;
    for (k, &byte) in digits.iter().enumerate() {
        match byte {
            b'\n' if k > 0 => return Some((number as u32, key.len() + k + 1)),
            b'0'..=b'9' if k == 0 || number > 0 => number = 10 * number + (byte - b'0') as u64,
            _ => return None,
        }
        if number > u32::MAX as u64 {
            return None;
        }
    }
    None
}

fn put(out: &mut Vec<u8>, key: &[u8], mut number: u64) {
    let mut digits = [0; 20];
    let mut at = digits.len();
    loop {
        at -= 1;
        digits[at] = b'0' + (number % 10) as u8;
        number /= 10;
        if number == 0 {
            break;
        }
    }
    out.extend_from_slice(key);
    out.extend_from_slice(&digits[at..]);
    out.push(b'\n');
}

fn put_slot(out: &mut Vec<u8>, clock: u32, switch: &impl Switch) {
    put(out, b"slot=", clock as u64);
    for departure in switch.departures() {
        for (key, field) in [&b"out="[..], b"in=", b"flow=", b"rank=", b"tag="].into_iter().zip(departure) {
            put(out, key, field as u64);
        }
    }
}

fn write(out: &mut Vec<u8>) {
    stdout().write_all(out).expect("standard output is written");
    out.clear();
}

fn play<S: Switch>(reader: &mut Reader, out: &mut Vec<u8>) -> Result<(), Refused> {
    let mut arrivals = [0; 16 * ARRIVAL_BYTES];
    let bad_size = Refused { number: 1, line: 1 };
    reader.fill();
    let ports = reader.number(b"ports=")?;
    if !(1..=16).contains(&ports) {
        return Err(bad_size);
    }
    let first = reader.number(b"first=")?;
    let mut switch = S::fresh(ports, first).ok_or(bad_size)?;
    put(out, b"ports=", ports as u64);
    put(out, b"first=", first as u64);
    let mut clock = first;
    reader.fill();
    while !reader.rest().starts_with(b"end=") {
        let slot_line = reader.line;
        let bytes = reader.block(clock, &mut arrivals)?;
        let result = switch.slot(&arrivals[..bytes]);
        if result != 0 {
            let (number, place) = (result % 256, result / 256);
            let line = if place == 0 { slot_line } else { slot_line + 5 * place - 4 };
            return Err(Refused { number, line });
        }
        put_slot(out, clock, &switch);
        if out.len() >= WINDOW_BYTES {
            write(out);
        }
        clock += 1;
        reader.fill();
    }
    reader.expected(b"end=", clock)?;
    if !reader.rest().is_empty() {
        return Err(reader.bad_line());
    }
    put(out, b"end=", clock as u64);
    Ok(())
}

/// Plays standard input to standard output.
pub fn play_all<S: Switch>() {
    let mut out = Vec::with_capacity(2 * WINDOW_BYTES);
    if let Err(refused) = play::<S>(&mut Reader::new(), &mut out) {
        put(&mut out, b"refused=", refused.number);
        put(&mut out, b"line=", refused.line);
    }
    write(&mut out);
}
