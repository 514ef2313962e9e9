//! The table as a host keeps it, by docs/LAYOUT.md: a number, the cells, and the memory of fair outputs; and the ranks that
//! are made there.

use crate::table::{ports, word, Table, CELL_TABLE_BYTES, PORTS};
use crate::{start_cells, Arrival, Departure, BAD_WEIGHT, NO_SUCH_PORT, RANK_END, SHORT_BUFFER};

const NUMBER_BYTES: usize = 4;
const FLOWS: usize = 8;
const MEMORY_BYTES: usize = 4 * (1 + PORTS + PORTS * PORTS * FLOWS);
pub const TABLE_BYTES: usize = NUMBER_BYTES + CELL_TABLE_BYTES + MEMORY_BYTES;

/// The marks, the rank that left each output, and the rank given to each flow.
pub type Memory = [u8; MEMORY_BYTES];

/// By weight; there is none for 0.
const STRIDES: [u32; 1025] = {
    let mut strides = [0; 1025];
    let mut weight = 1;
    while weight <= 1024 {
        strides[weight] = 1_048_576 / weight as u32;
        weight += 1;
    }
    strides
};

/// Writes the table of a fresh switch into the first bytes of the buffer: 0, or the refusal.
pub fn start_framed(number: u32, ports: u32, first: u32, fair: u32, buffer: &mut [u8]) -> u32 {
    let mut cells = [0; CELL_TABLE_BYTES];
    let refusal = start_cells(ports, first, &mut cells);
    if refusal != 0 {
        return refusal;
    }
    if fair >> ports != 0 {
        return NO_SUCH_PORT;
    }
    let Some(table) = buffer.first_chunk_mut::<TABLE_BYTES>() else {
        return SHORT_BUFFER;
    };
    table.fill(0);
    table[..NUMBER_BYTES].copy_from_slice(&number.to_le_bytes());
    table[NUMBER_BYTES..][..CELL_TABLE_BYTES].copy_from_slice(&cells);
    table[NUMBER_BYTES + CELL_TABLE_BYTES..][..4].copy_from_slice(&fair.to_le_bytes());
    0
}

/// The cells and the memory of a table with this number, if its length and its marks are sound. The number of ports may be
/// any.
pub fn framed(number: u32, table: &[u8]) -> Option<(&Table, &Memory)> {
    let table: &[u8; TABLE_BYTES] = table.try_into().ok()?;
    let (cells, memory) = table[NUMBER_BYTES..].split_first_chunk()?;
    let memory: &Memory = memory.try_into().ok()?;
    (word(table, 0) == number && marks_in_range(cells, memory)).then_some((cells, memory))
}

pub fn framed_mut(number: u32, table: &mut [u8]) -> Option<(&mut Table, &mut Memory)> {
    let table: &mut [u8; TABLE_BYTES] = table.try_into().ok()?;
    if word(table, 0) != number {
        return None;
    }
    let (cells, memory) = table[NUMBER_BYTES..].split_first_chunk_mut()?;
    let memory: &mut Memory = memory.try_into().ok()?;
    marks_in_range(cells, memory).then_some((cells, memory))
}

fn marks_in_range(cells: &Table, memory: &Memory) -> bool {
    marks(memory).checked_shr(ports(cells) as u32).unwrap_or(0) == 0
}

pub fn marks(memory: &Memory) -> u32 {
    word(memory, 0)
}

/// The rank of a record's cell, or the refusal. Its input, output and flow are in range.
pub fn made_rank(memory: &Memory, r: &Arrival) -> Result<u32, u32> {
    let (output, weight) = (word(r, 4), word(r, 12));
    if marks(memory) >> output & 1 == 0 {
        return Ok(weight);
    }
    if weight == 0 || weight > 1024 {
        return Err(BAD_WEIGHT);
    }
    let start = word(memory, given_at(r)).max(word(memory, left_at(output as usize)));
    start.checked_add(STRIDES[weight as usize]).ok_or(RANK_END)
}

/// What an accepted slot leaves: the ranks of its records, and those of the cells that depart.
pub fn remember(memory: &mut Memory, records: &[Arrival], ranks: &[u32; PORTS], departures: &[Departure]) {
    let marks = marks(memory);
    for (r, rank) in records.iter().zip(ranks) {
        if marks >> word(r, 4) & 1 != 0 {
            memory[given_at(r)..][..4].copy_from_slice(&rank.to_le_bytes());
        }
    }
    for (output, d) in departures.iter().enumerate() {
        if marks >> output & 1 != 0 && d[0] != 0 {
            memory[left_at(output)..][..4].copy_from_slice(&d[16..20]);
        }
    }
}

fn left_at(output: usize) -> usize {
    4 + 4 * (output % PORTS)
}

fn given_at(r: &Arrival) -> usize {
    let [input, output, flow] = [r[0], r[4], r[8]].map(usize::from);
    4 + 4 * PORTS + 4 * (FLOWS * (PORTS * (input % PORTS) + output % PORTS) + flow % FLOWS)
}
