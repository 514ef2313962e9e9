//! The PIFO switch on the sections of a table, by docs/SCOPE.md 4 and docs/LAYOUT.md: the cells of each input stand in the
//! order in which the table has them, so that it can begin with any sound table of the output-queued switch.

use super::{accepted, made, oq_table_bytes, Cell, Fault, Memory, Record, Sent, Waiting, CLOCK_END};

#[derive(Clone, Debug)]
pub struct OutputQueued {
    pub ports: u32,
    pub clock: u32,
    pub sections: Vec<Vec<Cell>>,
    pub memory: Memory,
    fault: Option<Fault>,
}

impl OutputQueued {
    /// Fresh, with the outputs fair whose bits are set.
    pub fn fresh(ports: u32, first: u32, fair: u32) -> OutputQueued {
        let sections = vec![Vec::new(); ports as usize];
        OutputQueued { ports, clock: first, sections, memory: Memory::marked(fair), fault: None }
    }

    pub fn with_fault(self, fault: Fault) -> OutputQueued {
        OutputQueued { fault: Some(fault), ..self }
    }

    fn has(&self, fault: Fault) -> bool {
        self.fault == Some(fault)
    }

    pub fn slot(&mut self, records: &[Record]) -> Sent {
        if self.clock == CLOCK_END {
            return Err((3, 0));
        }
        let records = made(self.ports, &self.cells(), &self.memory, records)?;
        for r in &records {
            self.join(accepted(r, self.clock));
        }
        self.clock += 1;
        let departures: Vec<Option<Cell>> = (0..self.ports).map(|output| self.send(output)).collect();
        self.memory.gives(&records);
        self.memory.leave(&departures);
        Ok(departures)
    }

    /// A new cell stands last in the section of its input.
    fn join(&mut self, cell: Cell) {
        let first = self.has(Fault::NewCellStandsFirst);
        let section = &mut self.sections[cell.input as usize];
        section.insert(if first { 0 } else { section.len() }, cell);
    }

    /// The best cell for an output leaves, and the later ones of its section close up.
    fn send(&mut self, output: u32) -> Option<Cell> {
        let best = self.cells().into_iter().filter(|c| c.output == output).min_by_key(|c| c.priority(self.ports))?;
        let last_fills_the_gap = self.has(Fault::LastCellFillsTheGap);
        let section = &mut self.sections[best.input as usize];
        let at = section.iter().position(|c| *c == best).unwrap();
        Some(if last_fills_the_gap { section.swap_remove(at) } else { section.remove(at) })
    }

    pub fn table(&self) -> Vec<u8> {
        oq_table_bytes(self.ports, self.clock, &self.sections, &self.memory)
    }
}

impl Waiting for OutputQueued {
    fn ports(&self) -> u32 {
        self.ports
    }

    fn clock(&self) -> u32 {
        self.clock
    }

    fn cells(&self) -> Vec<Cell> {
        self.sections.concat()
    }

    fn memory(&self) -> &Memory {
        &self.memory
    }
}
