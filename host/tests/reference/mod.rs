//! A crossbar and a PIFO switch written from docs/SCOPE.md alone, clear rather than clever. They share the cell, its order,
//! the checks of a record and how a rank is made, as the scope says, and nothing with the proved code. `player` plays a trace on either, and
//! either keeps cues. `oq` is the PIFO switch on the sections of a table. Each can be given one wrong rule, so that a test
//! can show that it is noticed.
#![allow(dead_code)] // each test uses a part of it

pub mod cues;
mod fault;
pub mod memory;
pub mod oq;
pub mod player;

pub use fault::Fault;
pub use memory::Memory;

#[derive(Clone, Copy, Debug, PartialEq, Eq)]
pub struct Cell {
    pub input: u32,
    pub output: u32,
    pub flow: u32,
    pub rank: u32,
    pub tag: u32,
    pub slot: u32,
}

impl Cell {
    /// Output priority in a switch of so many ports, the smallest first (scope 2.3): rank, slot, and the input's turn in the
    /// round of that slot, which begins with input `slot mod ports`.
    fn priority(&self, ports: u32) -> (u32, u32, u32) {
        (self.rank, self.slot, (self.input + ports - self.slot % ports) % ports)
    }

    fn flow_of(&self) -> (u32, u32, u32) {
        (self.input, self.output, self.flow)
    }
}

/// input, output, flow, rank, tag
pub type Record = [u32; 5];

#[derive(Clone, Copy, Debug, PartialEq, Eq)]
pub enum Place {
    List = 1,
    Crosspoint = 2,
    Buffer = 3,
}

#[derive(Clone, Debug, PartialEq, Eq)]
pub struct Entry {
    pub cell: Cell,
    pub place: Place,
}

pub const CLOCK_END: u32 = u32::MAX;

/// The records with the ranks of their cells, or the first refusal and the record's place: 4, 5, 6, then 14 and 15, then 7
/// and 8, with the cells that wait before the slot and the ranks remembered then.
fn made(ports: u32, waiting: &[Cell], memory: &Memory, records: &[Record]) -> Result<Vec<Record>, (u32, u32)> {
    let mut before: Option<u32> = None;
    let mut out = Vec::new();
    for (k, record) in records.iter().enumerate() {
        let (place, &[input, output, flow, weight, _]) = (k as u32 + 1, record);
        if input >= ports || output >= ports {
            return Err((4, place));
        }
        if flow > 7 {
            return Err((5, place));
        }
        if before.is_some_and(|b| input <= b) {
            return Err((6, place));
        }
        let cell = memory.made(record).map_err(|n| (n, place))?;
        let rank = if memory.fault == Some(Fault::FallingRankByWeight) { weight } else { cell[3] };
        if waiting.iter().any(|c| c.flow_of() == (input, output, flow) && c.rank > rank) {
            return Err((7, place));
        }
        if waiting.iter().filter(|c| c.input == input).count() >= 64 {
            return Err((8, place));
        }
        before = Some(input);
        out.push(cell);
    }
    Ok(out)
}

fn accepted(record: &Record, slot: u32) -> Cell {
    let [input, output, flow, rank, tag] = *record;
    Cell { input, output, flow, rank, tag, slot }
}

/// What arrivals are drawn by: the size of a switch, its clock, the cells that wait in it, and which outputs are fair.
pub trait Waiting {
    fn ports(&self) -> u32;
    fn clock(&self) -> u32;
    fn cells(&self) -> Vec<Cell>;
    fn memory(&self) -> &Memory;
}

/// What departs in a slot, or the number of the refusal and the record's place.
pub type Sent = Result<Vec<Option<Cell>>, (u32, u32)>;

/// The bytes of departures, by docs/LAYOUT.md.
pub fn departure_bytes(departures: &[Option<Cell>]) -> Vec<u8> {
    let mut out = vec![0; 448];
    for (o, d) in departures.iter().enumerate() {
        if let Some(c) = d {
            for (k, n) in [1, c.input, c.output, c.flow, c.rank, c.tag, c.slot].iter().enumerate() {
                out[28 * o + 4 * k..][..4].copy_from_slice(&n.to_le_bytes());
            }
        }
    }
    out
}

/// The bytes of a table of the older layout, by docs/LAYOUT.md.
fn older_table_bytes(ports: u32, clock: u32, sections: &[Vec<Entry>]) -> Vec<u8> {
    let mut t = vec![0; 16416];
    t[0] = 1;
    t[4..8].copy_from_slice(&ports.to_le_bytes());
    t[8..12].copy_from_slice(&clock.to_le_bytes());
    for (input, section) in sections.iter().enumerate() {
        t[16 + input] = section.len() as u8;
        for (at, e) in section.iter().enumerate() {
            let r = &mut t[32 + 1024 * input + 16 * at..][..16];
            r[0] = e.cell.output as u8;
            r[1] = e.cell.flow as u8;
            r[2] = e.place as u8;
            r[4..8].copy_from_slice(&e.cell.rank.to_le_bytes());
            r[8..12].copy_from_slice(&e.cell.tag.to_le_bytes());
            r[12..16].copy_from_slice(&e.cell.slot.to_le_bytes());
        }
    }
    t
}

/// The bytes of a table, by docs/LAYOUT.md: the number of its layout, the cells as the older layout has them, the memory.
fn table_bytes(number: u32, older: Vec<u8>, memory: &Memory) -> Vec<u8> {
    [number.to_le_bytes().to_vec(), older, memory.bytes()].concat()
}

/// The bytes of an output-queued switch's table: a number of its own, and every cell in a buffer.
fn oq_table_bytes(ports: u32, clock: u32, sections: &[Vec<Cell>], memory: &Memory) -> Vec<u8> {
    let buffered = |cells: &Vec<Cell>| cells.iter().map(|&cell| Entry { cell, place: Place::Buffer }).collect();
    let entries: Vec<Vec<Entry>> = sections.iter().map(buffered).collect();
    table_bytes(102, older_table_bytes(ports, clock, &entries), memory)
}

/// Proposals and occupancies are those of the first phase and of the second.
#[derive(Clone, Debug, PartialEq, Eq)]
pub struct Answer {
    pub departures: Vec<Option<Cell>>,
    pub proposals: [u32; 2],
    pub occupancies: [Vec<u32>; 2],
}

impl Answer {
    /// The answer's bytes, by docs/LAYOUT.md.
    pub fn bytes(&self) -> Vec<u8> {
        let mut out = departure_bytes(&self.departures);
        out.resize(584, 0);
        out[448..452].copy_from_slice(&self.proposals[0].to_le_bytes());
        out[452..456].copy_from_slice(&self.proposals[1].to_le_bytes());
        for (first, occupancies) in [456, 520].into_iter().zip(&self.occupancies) {
            for (o, n) in occupancies.iter().enumerate() {
                out[first + 4 * o..][..4].copy_from_slice(&n.to_le_bytes());
            }
        }
        out
    }
}

/// The bytes of arrivals, by docs/LAYOUT.md.
pub fn record_bytes(records: &[Record]) -> Vec<u8> {
    records.iter().flatten().flat_map(|n| n.to_le_bytes()).collect()
}

/// Raises the counts of a tally; one at its top stays there.
pub fn raised(tally: &mut [u8], counts: [u64; 4]) {
    for (k, by) in counts.iter().enumerate() {
        let at = &mut tally[8 * k..8 * k + 8];
        let n = u64::from_le_bytes(at.try_into().unwrap());
        at.copy_from_slice(&n.saturating_add(*by).to_le_bytes());
    }
}

#[derive(Clone, Debug, PartialEq, Eq)]
pub struct Crossbar {
    pub ports: u32,
    pub clock: u32,
    pub sections: Vec<Vec<Entry>>,
    pub memory: Memory,
    fault: Option<Fault>,
}

/// What an input chooses in a phase, as positions in its section.
struct Choice {
    scheduled: Option<usize>,
    urgent: Vec<usize>,
}

/// By output the input whose proposal it holds, and the position of that cell.
type Matching = Vec<Option<(usize, usize)>>;

impl Crossbar {
    /// Fresh, with the outputs fair whose bits are set.
    pub fn fresh(ports: u32, first: u32, fair: u32) -> Crossbar {
        let sections = vec![Vec::new(); ports as usize];
        Crossbar { ports, clock: first, sections, memory: Memory::marked(fair), fault: None }
    }

    pub fn with_fault(mut self, fault: Fault) -> Crossbar {
        self.fault = Some(fault);
        self.memory.fault = Some(fault);
        self
    }

    fn has(&self, fault: Fault) -> bool {
        self.fault == Some(fault)
    }

    /// A cell's output priority in this switch.
    fn priority(&self, cell: &Cell) -> (u32, u32, u32) {
        let (rank, slot, turn) = cell.priority(self.ports);
        let turn = match self.fault {
            Some(Fault::CrossbarTieToSmallerInput) => cell.input,
            Some(Fault::RoundBackwards) => (self.ports - turn) % self.ports,
            Some(Fault::RoundFromSlotWithoutMod) => cell.input + if cell.input < slot { self.ports } else { 0 },
            Some(Fault::RoundOfTheClock) => Cell { slot: self.clock, ..*cell }.priority(self.ports).2,
            _ => turn,
        };
        (rank, slot, turn)
    }

    pub fn cells(&self) -> Vec<Cell> {
        self.sections.iter().flatten().map(|e| e.cell).collect()
    }

    /// The cells by which 7 and 8 go.
    fn checked(&self) -> Vec<Cell> {
        if self.has(Fault::Checks7And8OnTheListAlone) {
            return self.sections.iter().flatten().filter(|e| e.place == Place::List).map(|e| e.cell).collect();
        }
        self.cells()
    }

    /// Runs a slot, or gives the refusal's number and place.
    pub fn slot(&mut self, records: &[Record]) -> Result<Answer, (u32, u32)> {
        if self.clock == CLOCK_END {
            return Err((3, 0));
        }
        let records = made(self.ports, &self.checked(), &self.memory, records).map_err(|(n, place)| {
            if self.has(Fault::RefusedSlotRemembers) {
                let before = made(self.ports, &[], &self.memory, &records[..place as usize - 1]).unwrap();
                self.memory.gives(&before);
            }
            (n, place)
        })?;
        for r in &records {
            self.arrive(accepted(r, self.clock));
        }
        let first = self.phase();
        let second = if self.has(Fault::PhaseTwoLeftOut) { (0, self.filled()) } else { self.phase() };
        let departures: Vec<Option<Cell>> = (0..self.ports).map(|o| self.depart(o)).collect();
        self.clock += 1;
        self.memory.gives(&records);
        self.memory.leave(&departures);
        Ok(Answer { departures, proposals: [first.0, second.0], occupancies: [first.1, second.1] })
    }

    /// A new cell goes right after the last cell of its flow in the list, or to the front.
    fn arrive(&mut self, cell: Cell) {
        let section = &mut self.sections[cell.input as usize];
        let last = section.iter().rposition(|e| e.place == Place::List && e.cell.flow_of() == cell.flow_of());
        let at = if self.fault == Some(Fault::ArrivalsAtTheEnd) { section.len() } else { last.map_or(0, |at| at + 1) };
        section.insert(at, Entry { cell, place: Place::List });
    }

    /// The crosspoint cells of an output.
    fn crossed(&self, output: u32) -> Vec<Cell> {
        let here = |e: &&Entry| e.place == Place::Crosspoint && e.cell.output == output;
        self.sections.iter().flatten().filter(here).map(|e| e.cell).collect()
    }

    /// For each output the number of its crosspoints that hold a cell.
    fn filled(&self) -> Vec<u32> {
        (0..self.ports).map(|o| self.crossed(o).len() as u32).collect()
    }

    /// One phase: the number of proposals made, and the occupancy of each output.
    fn phase(&mut self) -> (u32, Vec<u32>) {
        let crossed: Vec<Vec<Cell>> = (0..self.ports).map(|o| self.crossed(o)).collect();
        let choices: Vec<Choice> = (0..self.ports as usize).map(|i| self.choose(i, &crossed)).collect();
        let (matched, proposals) = self.find_matching(&self.candidates(&choices));
        let (inputs, outputs) = self.go_straight(&choices, &matched);
        self.send_scheduled(&choices, &inputs);
        let filled = self.filled();
        self.take_from_crosspoints(&outputs);
        let occupancies = match self.fault {
            Some(Fault::OccupancyBeforeCellsAreSent) => crossed.iter().map(|cells| cells.len() as u32).collect(),
            Some(Fault::OccupancyAfterCellsAreTaken) => self.filled(),
            Some(Fault::NoOccupancyWhereACellCameStraight) => {
                filled.iter().zip(&outputs).map(|(&cells, &came)| if came { 0 } else { cells }).collect()
            }
            _ => filled,
        };
        (proposals, occupancies)
    }

    /// The positions of an input's heads.
    fn heads(&self, input: usize) -> Vec<usize> {
        let section = &self.sections[input];
        let mut seen = Vec::new();
        let mut heads = Vec::new();
        for at in (0..section.len()).filter(|&at| section[at].place == Place::List) {
            let flow = section[at].cell.flow_of();
            if !seen.contains(&flow) {
                seen.push(flow);
                heads.push(at);
            }
        }
        heads
    }

    fn choose(&self, input: usize, crossed: &[Vec<Cell>]) -> Choice {
        let cell = |at: usize| self.sections[input][at].cell;
        let (mut scheduled, mut blocked) = (None, Vec::new());
        for at in self.heads(input) {
            let opposite = crossed[cell(at).output as usize].iter().find(|c| c.input == cell(at).input);
            match opposite {
                Some(c) if self.priority(&cell(at)) < self.priority(c) => blocked.push(at),
                Some(_) => (),
                None => scheduled = scheduled.or(Some(at)),
            }
        }
        let mut urgent: Vec<usize> = blocked
            .into_iter()
            .filter(|&at| scheduled.map_or(true, |s| at < s))
            .filter(|&at| self.presses(&cell(at), crossed))
            .collect();
        if self.has(Fault::OneUrgentCellPerPairOfPorts) {
            let first = |at: usize| urgent.iter().find(|&&other| cell(other).output == cell(at).output) == Some(&at);
            urgent = urgent.iter().copied().filter(|&at| first(at)).collect();
        }
        Choice { scheduled, urgent }
    }

    /// Whether a cell is ahead of all in the crosspoints of its output.
    fn presses(&self, cell: &Cell, crossed: &[Vec<Cell>]) -> bool {
        self.has(Fault::UrgentWithoutTheOutputsCrosspoints)
            || crossed[cell.output as usize].iter().all(|c| self.priority(cell) < self.priority(c))
    }

    /// The positions of each input's candidates, in the order in which it proposes them; none where no cell is urgent.
    fn candidates(&self, choices: &[Choice]) -> Vec<Vec<usize>> {
        if choices.iter().all(|c| c.urgent.is_empty()) {
            return vec![Vec::new(); choices.len()];
        }
        let mut candidates: Vec<Vec<usize>> = choices.iter().map(|c| c.urgent.clone()).collect();
        for (input, choice) in choices.iter().enumerate() {
            let first = self.sections[input].iter().position(|e| e.place == Place::List);
            if choice.scheduled.is_some() && choice.scheduled == first {
                candidates[input].extend(first);
            }
            candidates[input].sort();
            if self.has(Fault::SmallestCushionProposedFirst) {
                candidates[input].sort_by_key(|&at| self.cushion(&self.sections[input][at].cell));
            }
        }
        candidates
    }

    /// How many cells of higher output priority are in the buffer of a cell's output.
    fn cushion(&self, cell: &Cell) -> usize {
        let here = |e: &&Entry| e.place == Place::Buffer && e.cell.output == cell.output;
        self.sections.iter().flatten().filter(here).filter(|e| self.priority(&e.cell) < self.priority(cell)).count()
    }

    /// Deferred acceptance, one round after the other: every free input proposes its next candidate.
    fn find_matching(&self, candidates: &[Vec<usize>]) -> (Matching, u32) {
        let ports = candidates.len();
        let (mut matched, mut proposals, mut next) = (vec![None; ports], 0, vec![0; ports]);
        loop {
            let free: Vec<usize> = (0..ports)
                .filter(|&i| next[i] < candidates[i].len())
                .filter(|&i| !matched.iter().flatten().any(|&(held, _)| held == i))
                .collect();
            if free.is_empty() {
                return (matched, proposals);
            }
            for i in free {
                let at = candidates[i][next[i]];
                let cell = self.sections[i][at].cell;
                proposals += 1;
                let output = cell.output as usize;
                let ahead = |held: &Cell| self.priority(held) < self.priority(&cell);
                match matched[output] {
                    Some((j, other)) if ahead(&self.sections[j][other].cell) => next[i] += 1,
                    Some((j, _)) => {
                        next[j] += 1;
                        matched[output] = Some((i, at));
                    }
                    None => matched[output] = Some((i, at)),
                }
            }
        }
    }

    /// Moves the matched urgent cells: which inputs and which outputs have one.
    fn go_straight(&mut self, choices: &[Choice], matched: &Matching) -> (Vec<bool>, Vec<bool>) {
        let (mut inputs, mut outputs) = (vec![false; choices.len()], vec![false; choices.len()]);
        for (output, held) in matched.iter().enumerate() {
            if let Some((input, at)) = *held {
                if choices[input].urgent.contains(&at) || self.has(Fault::MatchedScheduledCellGoesStraight) {
                    inputs[input] = true;
                    outputs[output] = true;
                    self.sections[input][at].place = Place::Buffer;
                }
            }
        }
        (inputs, outputs)
    }

    fn send_scheduled(&mut self, choices: &[Choice], straight: &[bool]) {
        for (input, choice) in choices.iter().enumerate() {
            if straight[input] && !self.has(Fault::UrgentAndScheduledBothSent) {
                continue;
            }
            if let Some(at) = choice.scheduled {
                self.sections[input][at].place = Place::Crosspoint;
            }
        }
    }

    fn take_from_crosspoints(&mut self, straight: &[bool]) {
        for (output, &came) in straight.iter().enumerate() {
            if came && !self.has(Fault::StraightOutputAlsoReadsACrosspoint) {
                continue;
            }
            let best = self.crossed(output as u32).into_iter().min_by_key(|c| self.priority(c));
            if let Some(best) = best {
                let entry = self.sections[best.input as usize].iter_mut().find(|e| e.cell == best).unwrap();
                entry.place = Place::Buffer;
            }
        }
    }

    fn depart(&mut self, output: u32) -> Option<Cell> {
        let here = |e: &&Entry| e.place == Place::Buffer && e.cell.output == output;
        let best = self.sections.iter().flatten().filter(here).map(|e| e.cell).min_by_key(|c| self.priority(c))?;
        self.sections[best.input as usize].retain(|e| e.cell != best);
        Some(best)
    }

    /// The bytes of its cells alone, as the older layout has them.
    pub fn older_table(&self) -> Vec<u8> {
        older_table_bytes(self.ports, self.clock, &self.sections)
    }

    /// The table's bytes, by docs/LAYOUT.md.
    pub fn table(&self) -> Vec<u8> {
        table_bytes(2, self.older_table(), &self.memory)
    }
}

impl Waiting for Crossbar {
    fn ports(&self) -> u32 {
        self.ports
    }

    fn clock(&self) -> u32 {
        self.clock
    }

    fn cells(&self) -> Vec<Cell> {
        Crossbar::cells(self)
    }

    fn memory(&self) -> &Memory {
        &self.memory
    }
}

#[derive(Clone, Debug)]
pub struct Pifo {
    pub ports: u32,
    pub clock: u32,
    pub queues: Vec<Vec<Cell>>,
    pub memory: Memory,
    fault: Option<Fault>,
}

impl Pifo {
    /// Fresh, with the outputs fair whose bits are set.
    pub fn fresh(ports: u32, first: u32, fair: u32) -> Pifo {
        let queues = vec![Vec::new(); ports as usize];
        Pifo { ports, clock: first, queues, memory: Memory::marked(fair), fault: None }
    }

    pub fn with_fault(self, fault: Fault) -> Pifo {
        Pifo { fault: Some(fault), ..self }
    }

    /// A cell's output priority in this switch.
    fn priority(&self, cell: &Cell) -> (u32, u32, u32) {
        let (rank, slot, turn) = cell.priority(self.ports);
        match self.fault {
            Some(Fault::PifoBySlotBeforeRank) => (slot, rank, turn),
            Some(Fault::PifoTieToSmallerInput) => (rank, slot, cell.input),
            _ => (rank, slot, turn),
        }
    }

    fn has(&self, fault: Fault) -> bool {
        self.fault == Some(fault)
    }

    pub fn slot(&mut self, records: &[Record]) -> Sent {
        if self.clock == CLOCK_END {
            return Err((3, 0));
        }
        let records = made(self.ports, &self.cells(), &self.memory, records)?;
        let early = self.has(Fault::PifoSendsBeforeTheArrivalsJoin).then(|| self.depart());
        for r in &records {
            self.queues[r[1] as usize].push(accepted(r, self.clock));
        }
        self.clock += 1;
        let departures = early.unwrap_or_else(|| self.depart());
        self.memory.gives(&records);
        self.memory.leave(&departures);
        Ok(departures)
    }

    /// What each output sends.
    fn depart(&mut self) -> Vec<Option<Cell>> {
        (0..self.queues.len()).map(|output| self.send(output)).collect()
    }

    fn send(&mut self, output: usize) -> Option<Cell> {
        let queue = &self.queues[output];
        let best = (0..queue.len()).min_by_key(|&at| self.priority(&queue[at]))?;
        let sent = if self.has(Fault::PifoSendsTheOldest) { 0 } else { best };
        if self.has(Fault::PifoKeepsADepartedCell) {
            return Some(queue[sent]);
        }
        Some(self.queues[output].remove(sent))
    }

    /// The table of an output-queued switch that has played the same slots from a fresh one on: there the cells of an input
    /// stand in the order in which they were accepted.
    pub fn table(&self) -> Vec<u8> {
        let mut sections = vec![Vec::new(); self.ports as usize];
        for cell in self.cells() {
            sections[cell.input as usize].push(cell);
        }
        sections.iter_mut().for_each(|cells| cells.sort_by_key(|c| c.slot));
        oq_table_bytes(self.ports, self.clock, &sections, &self.memory)
    }
}

impl Waiting for Pifo {
    fn ports(&self) -> u32 {
        self.ports
    }

    fn clock(&self) -> u32 {
        self.clock
    }

    fn cells(&self) -> Vec<Cell> {
        self.queues.concat()
    }

    fn memory(&self) -> &Memory {
        &self.memory
    }
}
