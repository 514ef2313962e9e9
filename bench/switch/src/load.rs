//! Arrivals that keep a switch of sixteen ports steadily about as full as wanted.
//!
//! The inputs send in bursts, for some slots to one output, then to the next: outputs take two cells a slot, so cells
//! wait in lists and crosspoints only where more than two inputs have cells for an output. A rank is a deadline, the
//! clock and the delay of the flow number, so that cells overtake others that came before: that makes heads blocked
//! and urgent.
//!
//! Or they starve: a cell goes to any output, and its rank is its flow number, so that cells of the last flows wait for
//! hundreds of slots while others come. Or they tie: a cell goes to any output, and every rank is 0, so that the turn
//! decides among cells of one slot. Or every output is fair, and a flow has the weight of its number.

use crate::table::{clock, count, Table, CELLS, PORTS};

/// The delay of flow 1 in slots; flow f has f times as much.
const DELAY: u32 = 16;

pub struct Load {
    most: usize,
    burst: u32,
    any_output: bool,
    /// The marks of the outputs.
    pub fair: u32,
    /// A cell's rank, or its weight, by the clock and its flow number.
    rank: fn(u32, u32) -> u32,
    random: Random,
}

impl Load {
    /// A load of about so many cells an input.
    pub fn new(cells: usize) -> Load {
        let burst = (cells as u32 / 5).max(2);
        let most = (cells + cells / 16 + 1).min(CELLS);
        let rank = |clock, flow| clock + DELAY * flow;
        Load { most, burst, any_output: false, fair: 0, rank, random: Random(88172645463325252) }
    }

    pub fn starving(cells: usize) -> Load {
        Load { any_output: true, rank: |_, flow| flow, ..Load::new(cells) }
    }

    pub fn ties(cells: usize) -> Load {
        Load { any_output: true, rank: |_, _| 0, ..Load::new(cells) }
    }

    /// Weights are 64 to 960, so that no list gets to the end of ranks.
    pub fn fair(cells: usize) -> Load {
        Load { fair: (1 << PORTS) - 1, rank: |_, flow| 64 + 128 * flow, ..Load::new(cells) }
    }

    /// The arrivals of the next slot: a cell of every input that has room, one in ten (or each) to any output.
    pub fn arrivals(&mut self, table: &Table) -> Vec<u8> {
        let clock = clock(table);
        let mut records = Vec::new();
        for input in (0..PORTS).filter(|&i| count(table, i) < self.most) {
            let hot = clock / self.burst % PORTS as u32;
            let any = self.any_output || self.random.below(10) == 0;
            let output = if any { self.random.below(PORTS as u32) } else { hot };
            let flow = self.random.below(8);
            let rank = (self.rank)(clock, flow);
            let tag = self.random.below(u32::MAX);
            for field in [input as u32, output, flow, rank, tag] {
                records.extend(field.to_le_bytes());
            }
        }
        records
    }
}

/// Marsaglia's xorshift.
pub struct Random(pub u64);

impl Random {
    pub fn below(&mut self, n: u32) -> u32 {
        self.0 ^= self.0 << 13;
        self.0 ^= self.0 >> 7;
        self.0 ^= self.0 << 17;
        ((self.0 >> 11) % n as u64) as u32
    }
}
