//! What both plain switches do with a cell in the table: how it is written there, the order in which cells leave an output,
//! as one number, and their departure.

use crate::table::{clock, count, offset, priority, record, slot, Record, Table, CELLS, ENTRIES, PORTS, RECORD_BYTES};
use crate::{Arrival, Departure};

/// A cell as one number: rank and slot in the upper half, the turn of its input on top of the lower half, and last the
/// number of its entry. The cell with the smaller number goes first.
pub type Cell = u128;

pub const NONE: Cell = u128::MAX;

pub fn entry_of(cell: Cell) -> usize {
    cell as usize % ENTRIES
}

pub fn input_of(cell: Cell) -> usize {
    entry_of(cell) / CELLS
}

pub fn position_of(cell: Cell) -> usize {
    entry_of(cell) % CELLS
}

/// What a turn counts: an Nth of 2^64, rounded down to a multiple of ENTRIES. As numbers wrap at 2^64, (input - slot) times
/// this is the turn of the input times this, without a division. Rounding adds less than 2^43 to it.
#[derive(Clone, Copy)]
pub struct Turn(u64);

impl Turn {
    pub fn new(ports: usize) -> Turn {
        let nth = u64::MAX / ports as u64;
        Turn(nth - nth % ENTRIES as u64)
    }

    /// The cell of a record at a position of its input's section.
    pub fn cell(self, input: usize, at: usize, r: &Record) -> Cell {
        let entry = CELLS * input + at;
        let turns = self.0.wrapping_mul((input as u64).wrapping_sub(slot(r) as u64));
        (priority(r) as u128) << 64 | (turns | entry as u64) as u128
    }
}

/// A new cell of this rank joins its input's section as this entry, in this place.
pub fn write_cell(table: &mut Table, entry: usize, r: &Arrival, rank: u32, place: u8) {
    let (from, slot) = (offset(entry), clock(table).to_le_bytes());
    let e = &mut table[from..from + RECORD_BYTES];
    e[..4].copy_from_slice(&[r[4], r[8], place, 0]);
    e[4..8].copy_from_slice(&rank.to_le_bytes());
    e[8..12].copy_from_slice(&r[16..20]);
    e[12..].copy_from_slice(&slot);
    table[16 + entry / CELLS] += 1;
}

/// For each output the best of the cells that were offered.
pub type Best = [Cell; PORTS];

pub fn offer(best: &mut Best, output: usize, cell: Cell) {
    best[output] = best[output].min(cell);
}

/// Every output sends its best cell, and the clock rises: the number of cells sent.
pub fn depart(table: &mut Table, best: &Best, departures: &mut [Departure]) -> u64 {
    let mut sent = [0; PORTS];
    for (&cell, departure) in best.iter().zip(departures) {
        if cell != NONE {
            write_departure(departure, input_of(cell), record(table, entry_of(cell)));
            sent[input_of(cell)] |= 1 << position_of(cell);
        }
    }
    for (input, sent) in sent.iter().enumerate() {
        remove(table, input, *sent);
    }
    let next = clock(table) + 1;
    table[8..12].copy_from_slice(&next.to_le_bytes());
    sent.iter().map(|s: &u64| s.count_ones() as u64).sum()
}

/// Takes cells out of a section, the last first.
fn remove(table: &mut Table, input: usize, mut cells: u64) {
    while cells != 0 {
        let at = cells.ilog2() as usize;
        let to = offset(CELLS * input + at);
        let end = offset(CELLS * input) + RECORD_BYTES * count(table, input);
        table.copy_within(to + RECORD_BYTES..end, to);
        table[end - RECORD_BYTES..end].fill(0);
        table[16 + input] -= 1;
        cells &= !(1 << at);
    }
}

fn write_departure(departure: &mut Departure, input: usize, r: &Record) {
    departure[0] = 1;
    departure[4] = input as u8;
    departure[8] = r[0];
    departure[12] = r[1];
    departure[16..].copy_from_slice(&r[4..]);
}
