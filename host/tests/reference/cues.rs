//! Cues, by docs/SCOPE.md 13: a plain list of four places, each free or with a name and a whole switch. One text for the
//! crossbar and the PIFO switch, each of which keeps cues of its own.

use super::{Cell, Crossbar, Fault, Memory, Pifo, Record};

/// A name is 1 to 8 lower-case letters (scope 13.1).
pub fn is_name(name: &[u8]) -> bool {
    (1..=8).contains(&name.len()) && name.iter().all(|b| (b'a'..=b'z').contains(b))
}

/// What a cue can hold.
pub trait Switch: Clone {
    fn fresh(ports: u32, first: u32, fair: u32) -> Self;
    fn departures(&mut self, records: &[Record]) -> Result<Vec<Option<Cell>>, (u32, u32)>;
    fn clock(&mut self) -> &mut u32;
    fn memory(&mut self) -> &mut Memory;
}

impl Switch for Crossbar {
    fn fresh(ports: u32, first: u32, fair: u32) -> Crossbar {
        Crossbar::fresh(ports, first, fair)
    }

    fn departures(&mut self, records: &[Record]) -> Result<Vec<Option<Cell>>, (u32, u32)> {
        self.slot(records).map(|answer| answer.departures)
    }

    fn clock(&mut self) -> &mut u32 {
        &mut self.clock
    }

    fn memory(&mut self) -> &mut Memory {
        &mut self.memory
    }
}

impl Switch for Pifo {
    fn fresh(ports: u32, first: u32, fair: u32) -> Pifo {
        Pifo::fresh(ports, first, fair)
    }

    fn departures(&mut self, records: &[Record]) -> Result<Vec<Option<Cell>>, (u32, u32)> {
        self.slot(records)
    }

    fn clock(&mut self) -> &mut u32 {
        &mut self.clock
    }

    fn memory(&mut self) -> &mut Memory {
        &mut self.memory
    }
}

/// The cues that are held. Each call gives 0, or the number of its refusal.
#[derive(Clone, Debug)]
pub struct Cues<S> {
    places: Vec<Option<(Vec<u8>, S)>>,
    fault: Option<Fault>,
}

impl<S: Switch> Cues<S> {
    pub fn none() -> Cues<S> {
        Cues { places: vec![None; 4], fault: None }
    }

    fn has(&self, fault: Fault) -> bool {
        self.fault == Some(fault)
    }

    fn same_name(&self, a: &[u8], b: &[u8]) -> bool {
        let counted = |name: &[u8]| name.len().min(if self.has(Fault::NamesBySevenLetters) { 7 } else { 8 });
        a[..counted(a)] == b[..counted(b)]
    }

    fn held(&self, name: &[u8]) -> Option<usize> {
        self.places.iter().position(|p| p.as_ref().is_some_and(|(held, _)| self.same_name(held, name)))
    }

    fn free(&self) -> Option<usize> {
        if self.has(Fault::NewNameTakesTheHighestFreePlace) {
            return self.places.iter().rposition(|p| p.is_none());
        }
        self.places.iter().position(|p| p.is_none())
    }

    pub fn set(&mut self, name: &[u8], switch: &S) -> u32 {
        if !is_name(name) {
            return 11;
        }
        let mut held = self.held(name);
        if held.is_some() && self.has(Fault::HeldNameKeepsItsSwitch) {
            return 0;
        }
        if self.has(Fault::HeldNameTakesASecondPlace) || self.has(Fault::FullBeforeAHeldName) && self.free().is_none() {
            held = None;
        }
        let fifth = self.has(Fault::FifthNameTakesTheLastPlace).then_some(3);
        match held.or(self.free()).or(fifth) {
            Some(place) => self.places[place] = Some((name.to_vec(), switch.clone())),
            None => return 12,
        }
        0
    }

    pub fn drop_cue(&mut self, name: &[u8]) -> u32 {
        if !is_name(name) {
            return 11;
        }
        match self.held(name) {
            Some(place) if !self.has(Fault::DroppedCueStays) => self.places[place] = None,
            Some(_) => (),
            None => return 13,
        }
        0
    }

    pub fn return_to(&mut self, name: &[u8], switch: &mut S) -> u32 {
        if !is_name(name) {
            return 11;
        }
        let Some(place) = self.held(name) else {
            return 13;
        };
        let (clock, memory) = (*switch.clock(), switch.memory().clone());
        if !self.has(Fault::PifoKeptOnReturn) {
            *switch = self.places[place].clone().unwrap().1;
        }
        if self.has(Fault::ClockKeptOnReturn) {
            *switch.clock() = clock;
        }
        if self.has(Fault::MemoryKeptOnReturn) {
            *switch.memory() = memory;
        }
        if self.has(Fault::ReturnDropsTheCue) {
            self.places[place] = None;
        }
        0
    }
}

impl Cues<Crossbar> {
    /// The store's bytes, by docs/LAYOUT.md.
    pub fn store(&self) -> Vec<u8> {
        let mut store = vec![0; 98768];
        store[0] = 2;
        for (place, cue) in store[16..].chunks_mut(24688).zip(&self.places) {
            if let Some((name, switch)) = cue {
                place[..name.len()].copy_from_slice(name);
                place[8..].copy_from_slice(&switch.table());
            }
        }
        store
    }
}

/// A call of a rehearsal: a fresh switch of so many ports, with this first slot and these outputs fair, a slot, or a cue
/// set, dropped or returned to.
#[derive(Clone, Debug)]
pub enum Call {
    Start(u32, u32, u32),
    Slot(Vec<Record>),
    Set(Vec<u8>),
    Drop(Vec<u8>),
    Return(Vec<u8>),
}

/// A switch and the cues that are held.
#[derive(Clone, Debug)]
pub struct Rehearsal<S> {
    pub switch: S,
    pub cues: Cues<S>,
}

impl<S: Switch> Rehearsal<S> {
    pub fn fresh(ports: u32, first: u32, fair: u32) -> Rehearsal<S> {
        Rehearsal { switch: S::fresh(ports, first, fair), cues: Cues::none() }
    }

    pub fn with_fault(mut self, fault: Fault) -> Rehearsal<S> {
        self.cues.fault = Some(fault);
        self
    }

    /// What departs, nothing unless it is a slot; or the refusal's number and place.
    pub fn call(&mut self, call: &Call) -> Result<Vec<Option<Cell>>, (u32, u32)> {
        let refused = match call {
            Call::Slot(records) => return self.switch.departures(records),
            Call::Start(ports, first, fair) => {
                self.switch = S::fresh(*ports, *first, *fair);
                0
            }
            Call::Set(name) => self.cues.set(name, &self.switch),
            Call::Drop(name) => self.cues.drop_cue(name),
            Call::Return(name) => self.cues.return_to(name, &mut self.switch),
        };
        if refused == 0 { Ok(Vec::new()) } else { Err((refused, 0)) }
    }
}
