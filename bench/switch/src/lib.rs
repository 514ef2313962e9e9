//! A crossbar and an output-queued switch in plain Rust, written for speed from docs/SCOPE.md and docs/LAYOUT.md. They have
//! the bytes, the checks and the results of the proved ones and share nothing with them, so that they can be timed side by
//! side. `queues` is an output-queued switch without a table, for a player. No player has a fair output.

mod cells;
mod fabric;
mod fair;
pub mod load;
mod oq;
pub mod queues;
mod table;

use fabric::Fabric;
use fair::{framed, framed_mut, made_rank, marks, remember, start_framed, Memory};
use table::{count, entries, rows, word, CELLS};

pub use fair::TABLE_BYTES;
pub use oq::{oq_check, oq_slot, oq_start, OQ_ANSWER_BYTES, OQ_TABLE_BYTES};
pub use table::{Table, CELL_TABLE_BYTES, PORTS};
pub const ARRIVAL_BYTES: usize = 20;
pub const DEPARTURE_BYTES: usize = 28;
pub const ANSWER_BYTES: usize = PORTS * DEPARTURE_BYTES + PROPOSALS_BYTES + 2 * PORTS * 4;
pub const TALLY_BYTES: usize = 32;

const PROPOSALS_BYTES: usize = 2 * 4;

type Arrival = [u8; ARRIVAL_BYTES];
type Departure = [u8; DEPARTURE_BYTES];

const BAD_SIZE: u32 = 1;
const BROKEN_TABLE: u32 = 2;
const CLOCK_END: u32 = 3;
const NO_SUCH_PORT: u32 = 4;
const NO_SUCH_FLOW: u32 = 5;
const INPUT_ORDER: u32 = 6;
const RANK_ORDER: u32 = 7;
const FULL: u32 = 8;
const SHORT_BUFFER: u32 = 10;
const BAD_WEIGHT: u32 = 14;
const RANK_END: u32 = 15;

const NUMBER: u32 = 2;

/// A refusal and its record's place, from 1, or 0.
type Refused = (u32, usize);

/// Writes the table of a fresh switch with these fair outputs into the first bytes of the buffer: 0, or the refusal.
pub fn start(ports: u32, first: u32, fair: u32, buffer: &mut [u8]) -> u32 {
    start_framed(NUMBER, ports, first, fair, buffer)
}

/// Writes the cells of a fresh switch, of which there are none: 0, or the refusal.
pub fn start_cells(ports: u32, first: u32, table: &mut Table) -> u32 {
    if ports == 0 || ports as usize > PORTS {
        return BAD_SIZE;
    }
    table.fill(0);
    table[0] = 1;
    table[4] = ports as u8;
    table[8..12].copy_from_slice(&first.to_le_bytes());
    0
}

/// 0 for the table of a sound state, 2 for any other bytes.
pub fn check(table: &[u8]) -> u32 {
    match framed(NUMBER, table) {
        Some((cells, _)) if rows::<false>(cells).is_some() => 0,
        _ => BROKEN_TABLE,
    }
}

/// Runs one slot: 0, or the refusal and 256 times the record's place.
pub fn slot(table: &mut [u8], arrivals: &[u8], answer: &mut [u8], tally: &mut [u8]) -> u64 {
    counted(tally, || {
        let (cells, memory) = framed_mut(NUMBER, table).ok_or((BROKEN_TABLE, 0))?;
        let memory = (marks(memory) != 0).then_some(memory);
        run::<false>(cells, memory, arrivals, answer)
    })
}

/// The same on the cells of a table that the caller kept itself and trusts to be sound, as a player does. No output is fair.
pub fn trusted_slot(table: &mut Table, arrivals: &[u8], answer: &mut [u8], tally: &mut [u8]) -> u64 {
    counted(tally, || run::<true>(table, None, arrivals, answer))
}

/// Runs a slot and counts it in the tally.
fn counted(tally: &mut [u8], run: impl FnOnce() -> Result<(u64, u64), Refused>) -> u64 {
    let Ok(tally) = tally.try_into() else {
        return BROKEN_TABLE as u64;
    };
    match run() {
        Ok((arrived, departed)) => {
            raise(tally, [1, 0, arrived, departed]);
            0
        }
        Err((refusal, place)) => {
            raise(tally, [0, 1, 0, 0]);
            refusal as u64 + 256 * place as u64
        }
    }
}

fn raise(tally: &mut [u8; TALLY_BYTES], by: [u64; 4]) {
    for (count, by) in tally.as_chunks_mut().0.iter_mut().zip(by) {
        *count = u64::from_le_bytes(*count).saturating_add(by).to_le_bytes();
    }
}

/// Runs one slot on cells, memory and answer: the numbers of cells in and out. There is a memory where some output is fair. A
/// refusal changes nothing.
fn run<const TRUSTED: bool>(
    table: &mut Table,
    memory: Option<&mut Memory>,
    arrivals: &[u8],
    answer: &mut [u8],
) -> Result<(u64, u64), Refused> {
    let rows = rows::<TRUSTED>(table).ok_or((BROKEN_TABLE, 0))?;
    let (records, []) = arrivals.as_chunks() else {
        return Err((BROKEN_TABLE, 0));
    };
    let answer: &mut [u8; ANSWER_BYTES] = answer.first_chunk_mut().ok_or((SHORT_BUFFER, 0))?;
    if table::clock(table) == u32::MAX {
        return Err((CLOCK_END, 0));
    }
    let position = |input: usize, r: &Arrival, rank| position(table, input, rows[input].listed, r, rank);
    let Accepted { ranks, positions } = accept(table, memory.as_deref(), records, position)?;
    let mut fabric = Fabric::new(table, rows);
    for ((r, rank), at) in records.iter().zip(ranks).zip(positions) {
        fabric.arrive(r, rank, at);
    }
    let ([first, second], buffers) = fabric.run_phases();
    let (departures, counts) = answer.split_at_mut(PORTS * DEPARTURE_BYTES);
    let (proposals, occupancies) = counts.split_at_mut(PROPOSALS_BYTES);
    write_words(proposals, &[first.proposals, second.proposals]);
    write_words(occupancies, [first.occupancies, second.occupancies].as_flattened());
    departures.fill(0);
    let departed = fabric.depart(&buffers, departures.as_chunks_mut().0);
    if let Some(memory) = memory {
        remember(memory, records, &ranks, departures.as_chunks().0);
    }
    Ok((records.len() as u64, departed))
}

fn write_words(bytes: &mut [u8], words: &[u32]) {
    for (bytes, word) in bytes.as_chunks_mut().0.iter_mut().zip(words) {
        *bytes = word.to_le_bytes();
    }
}

/// Of the cell of each record its rank, and the position in its input's section that it takes. Inputs rise, so at most sixteen
/// records are accepted.
struct Accepted {
    ranks: [u32; PORTS],
    positions: [usize; PORTS],
}

/// What the records come to, or the first refusal. `position` has none for a cell whose rank falls.
fn accept(
    table: &Table,
    memory: Option<&Memory>,
    records: &[Arrival],
    position: impl Fn(usize, &Arrival, u32) -> Option<usize>,
) -> Result<Accepted, Refused> {
    let ports = table::ports(table) as u32;
    let (mut ranks, mut positions) = ([0; PORTS], [0; PORTS]);
    let mut lowest = 0;
    for (k, r) in records.iter().enumerate() {
        let [input, output, flow] = [0, 4, 8].map(|at| word(r, at));
        let refused = |refusal| (refusal, k + 1);
        if input >= ports || output >= ports {
            return Err(refused(NO_SUCH_PORT));
        }
        if flow > 7 {
            return Err(refused(NO_SUCH_FLOW));
        }
        if input < lowest {
            return Err(refused(INPUT_ORDER));
        }
        lowest = input + 1;
        let input = input as usize;
        ranks[k] = memory.map_or(Ok(word(r, 12)), |memory| made_rank(memory, r)).map_err(refused)?;
        positions[k] = position(input, r, ranks[k]).ok_or(refused(RANK_ORDER))?;
        if count(table, input) == CELLS {
            return Err(refused(FULL));
        }
    }
    Ok(Accepted { ranks, positions })
}

/// Right after the last cell of the record's flow in the list, or the front; none if a cell of its flow has a higher
/// rank.
fn position(table: &Table, input: usize, listed: u64, r: &Arrival, rank: u32) -> Option<usize> {
    let flow = u16::from_le_bytes([r[4], r[8]]);
    let mut position = 0;
    for (at, e) in entries(table, input).iter().enumerate() {
        if table::flow(e) == flow {
            if table::rank(e) > rank {
                return None;
            }
            if listed >> at & 1 != 0 {
                position = at + 1;
            }
        }
    }
    Some(position)
}

#[cfg(test)]
mod queue_lists;
#[cfg(test)]
mod soundness;

// The hosts' lists of slot calls, beside the reference switches, run here on these switches under the names that they call.
#[cfg(test)]
extern crate self as crossbar_host;
#[cfg(test)]
use {check as check_bytes, slot as slot_bytes, start as start_bytes};
#[cfg(test)]
use {oq_check as oq_check_bytes, oq_slot as oq_slot_bytes, oq_start as oq_start_bytes};
#[cfg(test)]
#[path = "../../../host/tests/slots.rs"]
mod slots;
#[cfg(test)]
#[path = "../../../host/tests/oq.rs"]
mod oq_slots;
#[cfg(test)]
#[path = "../../../host/tests/fair.rs"]
mod fair_slots;
