//! The output-queued switch on the bytes of its table: one pass over the entries tells whether they are sound; then the new
//! cells join, a second pass finds the best cell of each output, and these depart.

use crate::cells::{depart, offer, write_cell, Best, Turn, NONE};
use crate::fair::{framed, framed_mut, marks, remember, start_framed, TABLE_BYTES};
use crate::table::{
    self, all_zero, clock, count, entries, output, ports, section, share_slot, slot, word, Record, Table, BUFFERED, CELLS,
    PORTS, UNUSED_BITS,
};
use crate::{accept, counted, Accepted, Arrival, Refused, BROKEN_TABLE, CLOCK_END, DEPARTURE_BYTES, SHORT_BUFFER};

const NUMBER: u32 = 102;

pub const OQ_TABLE_BYTES: usize = TABLE_BYTES;
pub const OQ_ANSWER_BYTES: usize = PORTS * DEPARTURE_BYTES;

/// Writes the table of a fresh switch with these fair outputs into the first bytes of the buffer: 0, or the refusal.
pub fn oq_start(ports: u32, first: u32, fair: u32, buffer: &mut [u8]) -> u32 {
    start_framed(NUMBER, ports, first, fair, buffer)
}

/// 0 for the table of a sound state, 2 for any other bytes.
pub fn oq_check(table: &[u8]) -> u32 {
    match framed(NUMBER, table) {
        Some((cells, _)) if sound(cells) => 0,
        _ => BROKEN_TABLE,
    }
}

/// Runs one slot: 0, or the refusal and 256 times the record's place.
pub fn oq_slot(table: &mut [u8], arrivals: &[u8], answer: &mut [u8], tally: &mut [u8]) -> u64 {
    counted(tally, || run(table, arrivals, answer))
}

/// Runs one slot on table and answer: the numbers of cells in and out. A refusal changes nothing.
fn run(table: &mut [u8], arrivals: &[u8], answer: &mut [u8]) -> Result<(u64, u64), Refused> {
    let (table, memory) = framed_mut(NUMBER, table).ok_or((BROKEN_TABLE, 0))?;
    if !sound(table) {
        return Err((BROKEN_TABLE, 0));
    }
    let memory = (marks(memory) != 0).then_some(memory);
    let (records, []) = arrivals.as_chunks() else {
        return Err((BROKEN_TABLE, 0));
    };
    let answer: &mut [u8; OQ_ANSWER_BYTES] = answer.first_chunk_mut().ok_or((SHORT_BUFFER, 0))?;
    if clock(table) == u32::MAX {
        return Err((CLOCK_END, 0));
    }
    let position = |input: usize, r: &Arrival, rank| position(table, input, r, rank);
    let Accepted { ranks, positions } = accept(table, memory.as_deref(), records, position)?;
    for ((r, rank), at) in records.iter().zip(ranks).zip(positions) {
        write_cell(table, CELLS * (r[0] as usize % PORTS) + at, r, rank, BUFFERED);
    }
    answer.fill(0);
    let departed = depart(table, &best(table), answer.as_chunks_mut().0);
    if let Some(memory) = memory {
        remember(memory, records, &ranks, answer.as_chunks().0);
    }
    Ok((records.len() as u64, departed))
}

/// Behind the last cell of the section; none if a cell of the record's flow has a higher rank.
fn position(table: &Table, input: usize, r: &Arrival, rank: u32) -> Option<usize> {
    let flow = u16::from_le_bytes([r[4], r[8]]);
    let higher = |e: &Record| (table::flow(e) == flow) & (table::rank(e) > rank);
    let falls = entries(table, input).iter().fold(false, |falls, e| falls | higher(e));
    (!falls).then_some(count(table, input))
}

/// Whether a table is sound and all its cells are in buffers.
fn sound(table: &Table) -> bool {
    let (ports, clock) = (ports(table), clock(table));
    if word(table, 0) != 1 || ports == 0 || ports > PORTS || word(table, 12) != 0 {
        return false;
    }
    (0..PORTS).all(|input| {
        let most = if input < ports { CELLS } else { 0 };
        let (entries, unused) = section(table, input).split_at(count(table, input).min(most));
        count(table, input) <= most && all_zero(unused) && sound_section(entries, ports, clock)
    })
}

fn sound_section(entries: &[Record], ports: usize, clock: u32) -> bool {
    // The bits that some first word of a record has, and those that all have.
    let (mut some, mut all) = (0, u32::MAX);
    // 1 for each low byte of a slot.
    let mut low_bytes = [0u8; 256];
    for r in entries {
        let (kind, slot) = (word(r, 0), slot(r));
        if (kind & 255) as usize >= ports || slot >= clock {
            return false;
        }
        some |= kind;
        all &= kind;
        low_bytes[slot as usize % 256] = 1;
    }
    let buffered = (BUFFERED as u32) << 16;
    // Different low bytes are different slots, and the slots of waiting cells are mostly close together.
    let different = low_bytes.iter().sum::<u8>() as usize == entries.len() || !share_slot(entries);
    some & UNUSED_BITS == 0 && all & buffered == buffered && different
}

/// The best cell of each output.
fn best(table: &Table) -> Best {
    let mut best = [NONE; PORTS];
    let turn = Turn::new(ports(table));
    for input in 0..ports(table) {
        for (at, r) in entries(table, input).iter().enumerate() {
            offer(&mut best, output(r), turn.cell(input, at, r));
        }
    }
    best
}
