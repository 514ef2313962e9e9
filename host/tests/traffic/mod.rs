//! Random arrivals for the tests of slots, mostly such that the slot runs, some spoiled; random marks of fair outputs, where
//! weights arrive; random calls of a rehearsal, and random states of either switch.
#![allow(dead_code)] // each test uses a part of it

use super::random::Random;
use super::reference::cues::Call;
use super::reference::oq::OutputQueued;
use super::reference::{Cell, Crossbar, Entry, Memory, Place, Record, Waiting, CLOCK_END};

/// Names of cues: more than a store has places, some alike but for their ends.
const NAMES: [&str; 7] = ["a", "z", "intro", "intros", "prologue", "prologus", "finale"];

/// What is no name.
const NO_NAMES: [&str; 4] = ["", "Intro", "act one", "interlude"];

/// Marks of fair outputs: in half of the cases none, else some or all of the switch's.
pub fn marks(r: &mut Random, ports: u32) -> u32 {
    let all = (1u32 << ports) - 1;
    match r.below(4) {
        0 | 1 => 0,
        2 => r.next() as u32 & all,
        _ => all,
    }
}

/// A weight at a fair output, now and then one out of range.
fn weight(r: &mut Random, most: u64) -> u32 {
    if r.one_in(200) {
        return r.pick(&[0, 1025, 2000, 65536, u32::MAX]);
    }
    let any = 1 + r.below(most);
    r.pick(&[any, any, most, 1]) as u32
}

/// How a list of arrivals is drawn.
pub struct Traffic {
    outputs: u64,
    flows: u64,
    ranks: u64,
    weights: u64,
    load: u64,
    falling: bool,
    faults: u64,
}

impl Traffic {
    pub fn new(r: &mut Random, ports: u32) -> Traffic {
        Traffic {
            outputs: r.pick(&[1, 1, 2, 3, ports as u64]).min(ports as u64),
            flows: r.pick(&[1, 2, 4, 8]),
            ranks: r.pick(&[1, 2, 5, 20, 1000, 1 << 32]),
            weights: r.pick(&[1, 2, 8, 1024]),
            load: r.pick(&[5, 30, 60, 95]),
            falling: r.one_in(2),
            faults: r.pick(&[3, 30, 1000]),
        }
    }

    /// The same, but all cells have the rank 0.
    pub fn of_one_rank(r: &mut Random, ports: u32) -> Traffic {
        Traffic { ranks: 1, falling: false, ..Traffic::new(r, ports) }
    }

    pub fn records(&mut self, r: &mut Random, s: &impl Waiting) -> Vec<Record> {
        let (ports, cells) = (s.ports(), s.cells());
        if r.one_in(12) {
            self.load = r.pick(&[0, 5, 30, 60, 95, 100]);
        }
        let mut out = Vec::new();
        for input in 0..ports as u64 {
            if r.below(100) >= self.load {
                continue;
            }
            let (output, mut flow) = (r.below(self.outputs.min(ports as u64)), r.below(self.flows));
            let mut rank = r.below(self.ranks);
            if self.falling && output != 0 {
                rank = (1u64 << 20).saturating_sub(10 * (s.clock() as u64 & 0xffff)) + r.below(10);
            }
            if s.memory().is_fair(output as u32) {
                let weight = weight(r, self.weights);
                out.push([input as u32, output as u32, flow as u32, weight, r.next() as u32]);
                continue;
            }
            let highest = |flow: u64| {
                let same = |c: &&Cell| (c.input as u64, c.output as u64, c.flow as u64) == (input, output, flow);
                cells.iter().filter(same).map(|c| c.rank as u64).max()
            };
            if highest(flow).is_some_and(|h| h > rank) {
                match (0..8).find(|&f| highest(f).map_or(true, |h| h <= rank)) {
                    Some(f) => flow = f,
                    None => rank = highest(flow).unwrap(),
                }
            }
            out.push([input as u32, output as u32, flow as u32, rank.min(u32::MAX as u64) as u32, r.next() as u32]);
        }
        if r.one_in(self.faults) {
            self.spoil(r, &mut out, ports);
        }
        out
    }

    /// A call of a rehearsal, slots for the most part.
    pub fn call(&mut self, r: &mut Random, s: &Crossbar) -> Call {
        let name = if r.one_in(30) { r.pick(&NO_NAMES) } else { r.pick(&NAMES) }.as_bytes().to_vec();
        match r.below(12) {
            0 | 1 => Call::Set(name),
            2 => Call::Drop(name),
            3 => Call::Return(name),
            _ if r.one_in(60) => {
                let ports = 1 + r.below(16) as u32;
                Call::Start(ports, s.clock, marks(r, ports))
            }
            _ => Call::Slot(self.records(r, s)),
        }
    }

    fn spoil(&self, r: &mut Random, out: &mut Vec<Record>, ports: u32) {
        if out.is_empty() {
            out.push([r.below(20) as u32, r.below(20) as u32, r.below(10) as u32, 0, 0]);
        }
        let at = r.below(out.len() as u64) as usize;
        match r.below(7) {
            0 => out[at][0] = r.pick(&[ports, 16, u32::MAX]),
            1 => out[at][1] = r.pick(&[ports, 16, u32::MAX]),
            2 => out[at][2] = r.pick(&[8, 255, 256, u32::MAX]),
            3 => out.insert(at, out[at]),
            4 => out.reverse(),
            5 => out[at][3] = 0,
            _ => {
                let more = r.below(40);
                for _ in 0..more {
                    out.push([r.below(ports as u64 + 1) as u32, 0, 0, 0, 0]);
                }
            }
        }
    }
}

/// Any ranks that a switch of any size may remember, at outputs that are not fair and at ports that it does not have too;
/// in half of the cases next to none.
fn any_memory(r: &mut Random, ports: u32) -> Memory {
    let mut memory = Memory::marked(marks(r, ports));
    let (words, ranks) = (r.pick(&[0, 3, 100, 2048]), r.pick(&[10, 1 << 21, 1 << 32]));
    // close to the end, so that a stride passes it
    let rank = |r: &mut Random| if r.one_in(3) { (u32::MAX as u64 - r.below(1 << 21)) as u32 } else { r.below(ranks) as u32 };
    for _ in 0..words {
        memory.given.insert((r.below(16) as u32, r.below(16) as u32, r.below(8) as u32), rank(r));
    }
    for output in 0..words.min(16) {
        if r.one_in(2) {
            memory.left.insert(output as u32, rank(r));
        }
    }
    memory
}

/// A sound state with so many cells an input at most, not only those that a fresh switch can reach.
pub fn any_state(r: &mut Random, ports: u32, most: u64) -> Crossbar {
    let clock = r.pick(&[5000, 1 << 20, CLOCK_END, CLOCK_END - 1]);
    let mut s = Crossbar::fresh(ports, clock, 0);
    s.memory = any_memory(r, ports);
    let outputs = r.pick(&[1, 2, ports as u64]).min(ports as u64);
    let ranks = r.pick(&[2, 10, 1 << 32]);
    for input in 0..ports {
        let size = r.below(most + 1) as usize;
        let mut slot = r.below(100) as u32;
        let mut crossed = [false; 16];
        let mut used = [[false; 8]; 16];
        let mut tries = 0;
        while s.sections[input as usize].len() < size && tries < 500 {
            tries += 1;
            let (output, flow) = (r.below(outputs) as u32, r.below(8) as u32);
            let mut rank = r.below(ranks) as u32;
            let place = r.pick(&[Place::List, Place::List, Place::Crosspoint, Place::Buffer]);
            let mut run = 1;
            match place {
                Place::Crosspoint if crossed[output as usize] => continue,
                Place::Crosspoint => crossed[output as usize] = true,
                Place::List if used[output as usize][flow as usize] => continue,
                Place::List => {
                    used[output as usize][flow as usize] = true;
                    run = 1 + r.below(3);
                }
                Place::Buffer => (),
            }
            for _ in 0..run {
                if s.sections[input as usize].len() == size {
                    break;
                }
                slot += 1 + r.below(40) as u32;
                let cell = Cell { input, output, flow, rank, tag: r.next() as u32, slot };
                s.sections[input as usize].push(Entry { cell, place });
                rank = rank.saturating_add(r.below(2) as u32);
            }
        }
        // Entries that are in no list may stand anywhere between.
        for _ in 0..3 {
            let section = &mut s.sections[input as usize];
            if section.is_empty() {
                continue;
            }
            let at = r.below(section.len() as u64) as usize;
            if section[at].place != Place::List {
                let e = section.remove(at);
                let to = r.below(section.len() as u64 + 1) as usize;
                section.insert(to, e);
            }
        }
    }
    s
}

/// A sound state of the output-queued switch with so many cells an input at most. The cells of a section stand in any order,
/// and those of one flow have any ranks.
pub fn any_queues(r: &mut Random, ports: u32, most: u64) -> OutputQueued {
    let clock = r.pick(&[5000, 5001, 1 << 20, 1 << 31, CLOCK_END - 5, CLOCK_END]);
    let mut s = OutputQueued::fresh(ports, clock, 0);
    s.memory = any_memory(r, ports);
    let outputs = r.pick(&[1, 2, ports as u64]).min(ports as u64);
    let ranks = r.pick(&[1, 2, 10, 1 << 32]);
    // With no gap between the slots of an input, many cells of one slot wait at an output, and their turns decide.
    let gap = r.pick(&[1, 3, 40]);
    for input in 0..ports {
        let mut slot = r.below(gap) as u32;
        for _ in 0..r.below(most + 1) {
            slot += 1 + r.below(gap) as u32;
            let (output, flow) = (r.below(outputs) as u32, r.below(8) as u32);
            let cell = Cell { input, output, flow, rank: r.below(ranks) as u32, tag: r.next() as u32, slot };
            let section = &mut s.sections[input as usize];
            section.insert(r.below(section.len() as u64 + 1) as usize, cell);
        }
    }
    s
}
