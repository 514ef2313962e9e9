//! A player of traces written from docs/SCOPE.md, 7 and 8: the whole text in, the whole text out.

use super::{Cell, Crossbar, Pifo, Record};
use std::fmt::Display;

/// A switch that a trace can be played on. No output is fair.
pub trait Switch {
    fn fresh(ports: u32, first: u32) -> Self;

    /// For each output the cell that it sends in this slot, or the refusal's number and the record's place.
    fn departures(&mut self, records: &[Record]) -> Result<Vec<Option<Cell>>, (u32, u32)>;
}

impl Switch for Crossbar {
    fn fresh(ports: u32, first: u32) -> Crossbar {
        Crossbar::fresh(ports, first, 0)
    }

    fn departures(&mut self, records: &[Record]) -> Result<Vec<Option<Cell>>, (u32, u32)> {
        self.slot(records).map(|answer| answer.departures)
    }
}

impl Switch for Pifo {
    fn fresh(ports: u32, first: u32) -> Pifo {
        Pifo::fresh(ports, first, 0)
    }

    fn departures(&mut self, records: &[Record]) -> Result<Vec<Option<Cell>>, (u32, u32)> {
        self.slot(records)
    }
}

/// What the player writes for a text.
pub fn play<S: Switch>(text: &[u8]) -> Vec<u8> {
    let mut out = Vec::new();
    if let Err(refused) = play_lines::<S>(Reader { rest: text, line: 1 }, &mut out) {
        put(&mut out, "refused", refused.number);
        put(&mut out, "line", refused.line);
    }
    out
}

/// Why the rest of a text is not played: the refusal's number, and the line that it names.
struct Refused {
    number: u32,
    line: u64,
}

/// The part of the text that is not read yet, and the number of its first line.
struct Reader<'a> {
    rest: &'a [u8],
    line: u64,
}

fn play_lines<S: Switch>(mut text: Reader, out: &mut Vec<u8>) -> Result<(), Refused> {
    let ports = text.number("ports")?;
    if ports < 1 || ports > 16 {
        return Err(Refused { number: 1, line: 1 });
    }
    let first = text.number("first")?;
    put(out, "ports", ports);
    put(out, "first", first);
    let mut switch = S::fresh(ports, first);
    let mut clock = first;
    while !text.rest.starts_with(b"end=") {
        let slot_line = text.line;
        let records = text.block(clock)?;
        let departures = switch.departures(&records).map_err(|fault| refused_slot(fault, slot_line))?;
        put_slot(out, clock, &departures);
        clock += 1;
    }
    text.expected("end", clock)?;
    if !text.rest.is_empty() {
        return Err(text.bad_line());
    }
    put(out, "end", clock);
    Ok(())
}

/// A refusal of a record names its `in` line, five lines a record; one that names none names the `slot` line.
fn refused_slot((number, place): (u32, u32), slot_line: u64) -> Refused {
    let line = if place == 0 { slot_line } else { slot_line + 1 + 5 * (place as u64 - 1) };
    Refused { number, line }
}

impl Reader<'_> {
    /// The arrivals of the block of this slot.
    fn block(&mut self, slot: u32) -> Result<Vec<Record>, Refused> {
        self.expected("slot", slot)?;
        let mut records = Vec::new();
        while records.len() < 16 && self.rest.starts_with(b"in=") {
            let keys = ["in", "out", "flow", "rank", "tag"];
            let mut record = [0; 5];
            for (field, key) in record.iter_mut().zip(keys) {
                *field = self.number(key)?;
            }
            records.push(record);
        }
        Ok(records)
    }

    /// Passes a line of this key and number.
    fn expected(&mut self, key: &str, number: u32) -> Result<(), Refused> {
        let bad = self.bad_line();
        if self.number(key)? == number { Ok(()) } else { Err(bad) }
    }

    /// Passes a line of this key and gives its number.
    fn number(&mut self, key: &str) -> Result<u32, Refused> {
        let length = self.rest.iter().position(|&byte| byte == b'\n').ok_or(self.bad_line())?;
        let number = number_of(&self.rest[..length], key).ok_or(self.bad_line())?;
        self.rest = &self.rest[length + 1..];
        self.line += 1;
        Ok(number)
    }

    fn bad_line(&self) -> Refused {
        Refused { number: 9, line: self.line }
    }
}

/// The number of a line without its line feed, if it has this key.
fn number_of(line: &[u8], key: &str) -> Option<u32> {
    let decimal = std::str::from_utf8(line).ok()?.strip_prefix(key)?.strip_prefix('=')?;
    let number: u32 = decimal.parse().ok()?;
    // The parser also takes a sign and leading zeros.
    (number.to_string() == decimal).then_some(number)
}

fn put(out: &mut Vec<u8>, key: &str, number: impl Display) {
    out.extend(format!("{key}={number}\n").bytes());
}

fn put_slot(out: &mut Vec<u8>, slot: u32, departures: &[Option<Cell>]) {
    put(out, "slot", slot);
    for cell in departures.iter().flatten() {
        put(out, "out", cell.output);
        put(out, "in", cell.input);
        put(out, "flow", cell.flow);
        put(out, "rank", cell.rank);
        put(out, "tag", cell.tag);
    }
}
