//! An output-queued switch that keeps for each output a heap of its cells and has no table: what a player in plain Rust would
//! be built on. It has the rules and the refusals of the others (docs/SCOPE.md 4 and 6).

use crate::table::{word, CELLS, PORTS};
use crate::{Arrival, CLOCK_END, FULL, INPUT_ORDER, NO_SUCH_FLOW, NO_SUCH_PORT, RANK_ORDER};
use std::cmp::Reverse;
use std::collections::BinaryHeap;

const FLOWS: usize = 8;

/// A cell as one number: rank, slot and turn, by which it leaves, then input, flow and tag. The smallest goes first.
#[derive(Clone, Copy, PartialEq, Eq, PartialOrd, Ord)]
pub struct Cell(u128);

impl Cell {
    pub fn rank(self) -> u32 {
        (self.0 >> 96) as u32
    }

    pub fn slot(self) -> u32 {
        (self.0 >> 64) as u32
    }

    pub fn input(self) -> u32 {
        (self.0 >> 40) as u8 as u32
    }

    pub fn flow(self) -> u32 {
        (self.0 >> 32) as u8 as u32
    }

    pub fn tag(self) -> u32 {
        self.0 as u32
    }
}

/// Of a flow: how many cells wait, and the rank of the last that came, which none of them is above.
#[derive(Clone, Copy, Default)]
struct Flow {
    waiting: u8,
    rank: u32,
}

pub struct Queues {
    ports: u32,
    clock: u32,
    heaps: [BinaryHeap<Reverse<Cell>>; PORTS],
    flows: [[[Flow; FLOWS]; PORTS]; PORTS],
    held: [usize; PORTS],
}

impl Queues {
    /// A fresh switch, if it has 1 to 16 ports.
    pub fn fresh(ports: u32, first: u32) -> Option<Queues> {
        let flows = [[[Flow::default(); FLOWS]; PORTS]; PORTS];
        let heaps = std::array::from_fn(|_| BinaryHeap::with_capacity(PORTS * CELLS));
        (1..=PORTS as u32).contains(&ports).then_some(Queues { ports, clock: first, heaps, flows, held: [0; PORTS] })
    }

    /// Runs one slot and writes what each output sends: 0, or the refusal and 256 times the record's place.
    pub fn slot(&mut self, records: &[Arrival], departures: &mut [Option<Cell>; PORTS]) -> u64 {
        if self.clock == u32::MAX {
            return CLOCK_END as u64;
        }
        for (k, r) in records.iter().enumerate() {
            let lowest = if k == 0 { 0 } else { word(&records[k - 1], 0) + 1 };
            if let Some(refusal) = self.refusal(r, lowest) {
                return refusal as u64 + 256 * (k as u64 + 1);
            }
        }
        for r in records {
            self.join(r);
        }
        for (output, departure) in departures.iter_mut().enumerate() {
            *departure = self.send(output);
        }
        self.clock += 1;
        0
    }

    fn refusal(&self, r: &Arrival, lowest: u32) -> Option<u32> {
        let [input, output, flow, rank] = [0, 4, 8, 12].map(|at| word(r, at));
        if input >= self.ports || output >= self.ports {
            return Some(NO_SUCH_PORT);
        }
        if flow >= FLOWS as u32 {
            return Some(NO_SUCH_FLOW);
        }
        if input < lowest {
            return Some(INPUT_ORDER);
        }
        let last = &self.flows[input as usize][output as usize][flow as usize];
        if last.waiting > 0 && rank < last.rank {
            return Some(RANK_ORDER);
        }
        (self.held[input as usize] == CELLS).then_some(FULL)
    }

    fn join(&mut self, r: &Arrival) {
        let [input, output, flow, rank, tag] = [0, 4, 8, 12, 16].map(|at| word(r, at));
        let turn = (input + self.ports - self.clock % self.ports) % self.ports;
        let order = (rank as u128) << 96 | (self.clock as u128) << 64 | (turn as u128) << 48;
        let cell = Cell(order | (input as u128) << 40 | (flow as u128) << 32 | tag as u128);
        self.heaps[output as usize].push(Reverse(cell));
        let last = &mut self.flows[input as usize][output as usize][flow as usize];
        *last = Flow { waiting: last.waiting + 1, rank };
        self.held[input as usize] += 1;
    }

    fn send(&mut self, output: usize) -> Option<Cell> {
        let Reverse(cell) = self.heaps[output].pop()?;
        self.flows[cell.input() as usize][output][cell.flow() as usize].waiting -= 1;
        self.held[cell.input() as usize] -= 1;
        Some(cell)
    }
}
