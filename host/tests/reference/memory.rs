//! Fair outputs and the ranks that are made there, by docs/SCOPE.md 15. Each switch has a memory of its own.

use super::{Cell, Fault, Record};
use std::collections::BTreeMap;

/// Which outputs are fair, by the bits of a number; the rank of the last cell that left each output; and the last rank given
/// to each flow, by input, output and flow number. A rank that is not there is 0.
#[derive(Clone, Debug, Default, PartialEq, Eq)]
pub struct Memory {
    pub fair: u32,
    pub left: BTreeMap<u32, u32>,
    pub given: BTreeMap<(u32, u32, u32), u32>,
    pub(super) fault: Option<Fault>,
}

impl Memory {
    pub fn marked(fair: u32) -> Memory {
        Memory { fair, ..Memory::default() }
    }

    fn has(&self, fault: Fault) -> bool {
        self.fault == Some(fault)
    }

    pub fn is_fair(&self, output: u32) -> bool {
        output < 32 && self.fair >> output & 1 == 1
    }

    fn flow_of(&self, input: u32, output: u32, flow: u32) -> (u32, u32, u32) {
        (input, output, if self.has(Fault::OneMemoryPerPairOfPorts) { 0 } else { flow })
    }

    /// The record with the rank of its cell, or 14 or 15.
    pub fn made(&self, record: &Record) -> Result<Record, u32> {
        let [input, output, flow, weight, tag] = *record;
        if !self.is_fair(output) {
            return Ok(*record);
        }
        if !(1..=1024).contains(&weight) {
            return Err(14);
        }
        let given = u64::from(*self.given.get(&self.flow_of(input, output, flow)).unwrap_or(&0));
        let left = u64::from(*self.left.get(&output).unwrap_or(&0));
        let start = match self.fault {
            Some(Fault::GivenRankForgotten) => left,
            Some(Fault::LeftRankForgotten) => given,
            _ => given.max(left),
        };
        let up = if self.has(Fault::StrideRoundedUp) { u64::from(weight) - 1 } else { 0 };
        let rank = start + (1_048_576 + up) / u64::from(weight);
        let rank = u32::try_from(rank).map_err(|_| 15u32)?;
        Ok([input, output, flow, rank, tag])
    }

    /// The ranks given in a slot, its records those made.
    pub fn gives(&mut self, records: &[Record]) {
        for &[input, output, flow, rank, _] in records {
            if self.is_fair(output) {
                self.given.insert(self.flow_of(input, output, flow), rank);
            }
        }
    }

    /// The ranks that leave in a slot.
    pub fn leave(&mut self, departures: &[Option<Cell>]) {
        for cell in departures.iter().flatten() {
            if self.is_fair(cell.output) {
                self.left.insert(cell.output, cell.rank);
            }
        }
    }

    /// The memory's bytes, by docs/LAYOUT.md.
    pub fn bytes(&self) -> Vec<u8> {
        let mut words = vec![0; 1 + 16 + 2048];
        words[0] = self.fair;
        for (&output, &rank) in &self.left {
            words[1 + output as usize] = rank;
        }
        for (&(input, output, flow), &rank) in &self.given {
            words[17 + (128 * input + 8 * output + flow) as usize] = rank;
        }
        words.iter().flat_map(|n: &u32| n.to_le_bytes()).collect()
    }
}
