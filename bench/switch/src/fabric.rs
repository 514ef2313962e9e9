//! One slot on the bytes of a sound table, once its arrivals are accepted: arrival, two phases, departure. A phase
//! writes places and nothing else; cells move in the table only when one comes or goes.

use crate::cells::{self, entry_of, input_of, offer, position_of, Best, Cell, Turn, NONE};
use crate::table::{
    count, flow, offset, output, ports, record, Members, Row, Table, BUFFERED, CELLS, CROSSED, LISTED, PORTS, RECORD_BYTES,
};
use crate::{Arrival, Departure};

/// The cells in the crosspoints of each output: the best of them, and how many they are.
struct Crossed {
    best: Best,
    counts: [u32; PORTS],
}

impl Crossed {
    fn enter(&mut self, output: usize, cell: Cell) {
        offer(&mut self.best, output, cell);
        self.counts[output] += 1;
    }
}

/// What a phase tells: its proposals, and how many crosspoints of each output are filled when it chooses.
pub struct Phase {
    pub proposals: u32,
    pub occupancies: [u32; PORTS],
}

/// What the inputs may send in a phase: positions, and the inputs that have a scheduled cell.
struct Choice {
    urgent: [u64; PORTS],
    scheduled: [u8; PORTS],
    ready: u16,
}

/// The ports between which a cell went straight.
#[derive(Default)]
struct Straight {
    inputs: u16,
    outputs: u16,
}

pub struct Fabric<'a> {
    table: &'a mut Table,
    rows: [Row; PORTS],
    ports: usize,
    turn: Turn,
}

impl<'a> Fabric<'a> {
    pub fn new(table: &'a mut Table, rows: [Row; PORTS]) -> Fabric<'a> {
        let ports = ports(table);
        Fabric { table, rows, ports, turn: Turn::new(ports) }
    }

    fn cell_at(&self, input: usize, at: usize) -> Cell {
        self.turn.cell(input, at, record(self.table, CELLS * input + at))
    }

    /// A new cell joins its input's section, at the front or right after the last cell of its flow in the list.
    pub fn arrive(&mut self, r: &Arrival, rank: u32, at: usize) {
        let input = r[0] as usize % PORTS;
        let from = offset(CELLS * input + at);
        let end = offset(CELLS * input) + RECORD_BYTES * count(self.table, input);
        self.table.copy_within(from..end, from + RECORD_BYTES);
        cells::write_cell(self.table, CELLS * input + at, r, rank, LISTED);
        self.rows[input].open(at);
    }

    /// Both phases, and then the best cell in each output's buffer.
    pub fn run_phases(&mut self) -> ([Phase; 2], Best) {
        let mut buffers = self.buffers();
        let phases = [self.run_phase(&mut buffers), self.run_phase(&mut buffers)];
        (phases, buffers)
    }

    /// The best cell in each output's buffer.
    fn buffers(&self) -> Best {
        let mut best = [NONE; PORTS];
        for (input, row) in self.rows[..self.ports].iter().enumerate() {
            for at in Members(row.buffered) {
                let entry = CELLS * input + at;
                offer(&mut best, output(record(self.table, entry)), self.cell_at(input, at));
            }
        }
        best
    }

    /// One phase. The best cell in each output's buffer is kept up to date.
    fn run_phase(&mut self, buffers: &mut Best) -> Phase {
        let mut crossed = self.crossed();
        let choice = self.choose(&crossed.best);
        let mut straight = Straight::default();
        let mut proposals = 0;
        if choice.urgent.iter().any(|u| *u != 0) {
            let matched;
            (matched, proposals) = self.matching(self.proposers(&choice));
            straight = self.send_straight(&matched, &choice.urgent, buffers);
        }
        self.fill_crosspoints(&choice, straight.inputs, &mut crossed);
        self.read_crosspoints(&crossed.best, straight.outputs, buffers);
        Phase { proposals, occupancies: crossed.counts }
    }

    fn crossed(&self) -> Crossed {
        let mut crossed = Crossed { best: [NONE; PORTS], counts: [0; PORTS] };
        for (input, row) in self.rows[..self.ports].iter().enumerate() {
            for output in Members(row.filled as u64) {
                crossed.enter(output, self.cell_at(input, row.crossed[output] as usize));
            }
        }
        crossed
    }

    /// Scheduled and urgent cells. A head that is over every cell in the crosspoints of its output, its own
    /// crosspoint among them, is blocked.
    fn choose(&self, crossed: &Best) -> Choice {
        let mut choice = Choice { urgent: [0; PORTS], scheduled: [0; PORTS], ready: 0 };
        for (input, row) in self.rows[..self.ports].iter().enumerate() {
            for at in Members(row.heads) {
                let entry = CELLS * input + at;
                let output = output(record(self.table, entry));
                if row.filled >> output & 1 == 0 {
                    choice.scheduled[input] = at as u8;
                    choice.ready |= 1 << input;
                    break;
                }
                choice.urgent[input] |= ((self.cell_at(input, at) < crossed[output]) as u64) << at;
            }
        }
        choice
    }

    /// The cells that take part in the matching. Before a scheduled cell that stands first there is no urgent one.
    fn proposers(&self, choice: &Choice) -> [u64; PORTS] {
        let mut cells = choice.urgent;
        for input in Members(choice.ready as u64) {
            let at = choice.scheduled[input];
            if self.rows[input].listed.trailing_zeros() == at as u32 {
                cells[input] = 1 << at;
            }
        }
        cells
    }

    /// The stable matching that is best for the inputs, and the number of proposals.
    fn matching(&self, mut cells: [u64; PORTS]) -> (Best, u32) {
        let mut held = [NONE; PORTS];
        let mut proposals = 0;
        for input in 0..self.ports {
            let mut free = input;
            while cells[free] != 0 {
                let at = cells[free].trailing_zeros() as usize;
                let cell = self.cell_at(free, at);
                let held = &mut held[output(record(self.table, CELLS * free + at))];
                let refused = cell.max(*held);
                *held = cell.min(*held);
                proposals += 1;
                if refused == NONE {
                    break;
                }
                free = input_of(refused);
                cells[free] &= cells[free] - 1;
            }
        }
        (held, proposals)
    }

    /// The matched urgent cells go to their outputs' buffers.
    fn send_straight(&mut self, matched: &Best, urgent: &[u64; PORTS], buffers: &mut Best) -> Straight {
        let mut straight = Straight::default();
        for (output, &cell) in matched.iter().enumerate() {
            let (input, at) = (input_of(cell), position_of(cell));
            if cell != NONE && urgent[input] >> at & 1 != 0 {
                self.leave_list(input, at, BUFFERED);
                offer(buffers, output, cell);
                straight.inputs |= 1 << input;
                straight.outputs |= 1 << output;
            }
        }
        straight
    }

    /// Every input that sent no straight cell sends its scheduled cell.
    fn fill_crosspoints(&mut self, choice: &Choice, straight: u16, crossed: &mut Crossed) {
        for input in Members((choice.ready & !straight) as u64) {
            let at = choice.scheduled[input] as usize;
            let entry = CELLS * input + at;
            let output = output(record(self.table, entry));
            self.leave_list(input, at, CROSSED);
            self.rows[input].filled |= 1 << output;
            self.rows[input].crossed[output] = at as u8;
            crossed.enter(output, self.cell_at(input, at));
        }
    }

    /// Every output that got no straight cell takes the best of its crosspoints.
    fn read_crosspoints(&mut self, crossed: &Best, straight: u16, buffers: &mut Best) {
        for (output, &cell) in crossed.iter().enumerate() {
            if cell != NONE && straight >> output & 1 == 0 {
                self.set_place(entry_of(cell), BUFFERED);
                self.rows[input_of(cell)].filled &= !(1 << output);
                offer(buffers, output, cell);
            }
        }
    }

    fn set_place(&mut self, entry: usize, place: u8) {
        self.table[offset(entry) + 2] = place;
    }

    /// A head leaves its list; the next cell of its flow, if there is one, is then a head.
    fn leave_list(&mut self, input: usize, at: usize, place: u8) {
        let first = CELLS * input;
        self.set_place(first + at, place);
        let row = &mut self.rows[input];
        row.listed &= !(1 << at);
        row.heads &= !(1 << at);
        let after = row.listed & u64::MAX << at;
        let next = after.trailing_zeros() as usize;
        if after != 0 && flow(record(self.table, first + next)) == flow(record(self.table, first + at)) {
            row.heads |= 1 << next;
        }
    }

    /// Every output sends the best cell of its buffer, and the clock rises: the number of cells sent.
    pub fn depart(&mut self, buffers: &Best, departures: &mut [Departure]) -> u64 {
        cells::depart(self.table, buffers, departures)
    }
}

impl Row {
    /// A listed cell comes to this position, and those from there on move up. It is a head if it comes to the front.
    fn open(&mut self, at: usize) {
        let shifted = |set: u64| set & !(u64::MAX << at) | (set & u64::MAX << at) << 1;
        self.listed = shifted(self.listed) | 1 << at;
        self.heads = shifted(self.heads) | (at == 0) as u64;
        self.buffered = shifted(self.buffered);
        for position in &mut self.crossed {
            *position += (*position as usize >= at) as u8;
        }
    }
}
