//! A rule that is wrong in one point is noticed: on random slots from a fresh switch, and among them calls of cues, the wrong
//! switch parts from the right one. So does a wrong PIFO switch, or a wrong table of it, from the right output-queued switch.
//! Rules of fair ranks are tried where every output is fair, those of cues where any are, all others where none is.
//!
//! SLOTS=n and SEED=n in the environment run the right rules longer, or other lists.

mod random;
mod reference;
mod traffic;

use random::{setting, Random};
use reference::cues::{Call, Rehearsal};
use reference::oq::OutputQueued;
use reference::{Cell, Crossbar, Fault, Pifo, Place, Record};
use traffic::{marks, Traffic};

/// Calls after which a fault counts as unnoticed. The one that hides best takes some 190,000 on the average of seeds.
const MOST: u64 = 2_000_000;

/// What demand 3 finds out: departures or refusals other than the PIFO switch's, or a limit passed.
const AGAINST_DEMAND_3: [Fault; 17] = [
    Fault::ArrivalsAtTheEnd,
    Fault::OneUrgentCellPerPairOfPorts,
    Fault::UrgentWithoutTheOutputsCrosspoints,
    Fault::MatchedScheduledCellGoesStraight,
    Fault::StraightOutputAlsoReadsACrosspoint,
    Fault::UrgentAndScheduledBothSent,
    Fault::PhaseTwoLeftOut,
    Fault::Checks7And8OnTheListAlone,
    Fault::PifoBySlotBeforeRank,
    Fault::CrossbarTieToSmallerInput,
    Fault::PifoTieToSmallerInput,
    Fault::RoundBackwards,
    Fault::RoundFromSlotWithoutMod,
    Fault::RoundOfTheClock,
    Fault::PifoSendsTheOldest,
    Fault::PifoKeepsADepartedCell,
    Fault::PifoSendsBeforeTheArrivalsJoin,
];

/// What demand 3 does not see. No other departure comes of them (of another order of proposals, none was ever found), so they
/// are told from the right rules by the rest of the answer.
const AGAINST_THE_ANSWER: [Fault; 4] = [
    Fault::SmallestCushionProposedFirst,
    Fault::OccupancyBeforeCellsAreSent,
    Fault::OccupancyAfterCellsAreTaken,
    Fault::NoOccupancyWhereACellCameStraight,
];

/// What answers or table of the output-queued switch find out, the first five of the PIFO switch that it is held to.
const AGAINST_THE_OUTPUT_QUEUED: [Fault; 7] = [
    Fault::PifoSendsTheOldest,
    Fault::PifoKeepsADepartedCell,
    Fault::PifoSendsBeforeTheArrivalsJoin,
    Fault::PifoBySlotBeforeRank,
    Fault::PifoTieToSmallerInput,
    Fault::NewCellStandsFirst,
    Fault::LastCellFillsTheGap,
];

/// Wrong rules of cues that demand 3 finds out.
const CUES_AGAINST_DEMAND_3: [Fault; 10] = [
    Fault::NamesBySevenLetters,
    Fault::HeldNameKeepsItsSwitch,
    Fault::HeldNameTakesASecondPlace,
    Fault::FullBeforeAHeldName,
    Fault::FifthNameTakesTheLastPlace,
    Fault::DroppedCueStays,
    Fault::ReturnDropsTheCue,
    Fault::ClockKeptOnReturn,
    Fault::MemoryKeptOnReturn,
    Fault::PifoKeptOnReturn,
];

/// Wrong rules of fair ranks that demand 3 finds out.
const FAIR_AGAINST_DEMAND_3: [Fault; 6] = [
    Fault::GivenRankForgotten,
    Fault::LeftRankForgotten,
    Fault::StrideRoundedUp,
    Fault::OneMemoryPerPairOfPorts,
    Fault::RefusedSlotRemembers,
    Fault::FallingRankByWeight,
];

/// How many cells of a place each port has, the port being the cell's input or its output.
fn counts(s: &Crossbar, place: Place, port: fn(&Cell) -> u32) -> Vec<usize> {
    let of = |p: u32| s.sections.iter().flatten().filter(|e| e.place == place && port(&e.cell) == p).count();
    (0..s.ports).map(of).collect()
}

/// Scope 4.5: at most two cells left an input's list, at most two came to an output's buffer, and no crosspoint has two.
fn within_limits(before: &Crossbar, after: &Crossbar, records: &[Record], departures: &[Option<Cell>]) -> bool {
    let listed = |s: &Crossbar| counts(s, Place::List, |c| c.input);
    let buffered = |s: &Crossbar| counts(s, Place::Buffer, |c| c.output);
    let (lists, lists_after) = (listed(before), listed(after));
    let (buffers, buffers_after) = (buffered(before), buffered(after));
    let came = |port: usize| records.iter().filter(|r| r[0] as usize == port).count();
    let crossed: Vec<(u32, u32)> = after
        .sections
        .iter()
        .flatten()
        .filter(|e| e.place == Place::Crosspoint)
        .map(|e| (e.cell.input, e.cell.output))
        .collect();
    (0..before.ports as usize).all(|port| {
        lists[port] + came(port) <= lists_after[port] + 2
            && buffers_after[port] + departures[port].iter().count() <= buffers[port] + 2
    }) && (0..crossed.len()).all(|at| !crossed[..at].contains(&crossed[at]))
}

/// Whether a call on the crossbar is answered as by the PIFO switch, within the limits.
fn alike(crossbar: &mut Crossbar, pifo: &mut Pifo, records: &[Record]) -> bool {
    let before = crossbar.clone();
    match (crossbar.slot(records), pifo.slot(records)) {
        (Ok(a), Ok(sent)) => a.departures == sent && within_limits(&before, crossbar, records, &sent),
        (Err(a), Err(b)) => a == b,
        _ => false,
    }
}

/// No output is fair, or every one is.
#[derive(Clone, Copy)]
enum Outputs {
    Plain,
    Fair,
}

impl Outputs {
    fn marks(self, ports: u32) -> u32 {
        match self {
            Outputs::Plain => 0,
            Outputs::Fair => (1 << ports) - 1,
        }
    }
}

/// The pair of switches that a run compares, fresh. A PIFO switch makes its ranks by the right rules.
fn pair(fault: Option<Fault>, ports: u32, first: u32, fair: u32) -> (Crossbar, Pifo) {
    let (crossbar, pifo) = (Crossbar::fresh(ports, first, fair), Pifo::fresh(ports, first, fair));
    match fault {
        None => (crossbar, pifo),
        Some(f) => (crossbar.with_fault(f), pifo.with_fault(f)),
    }
}

/// Plays random lists of slots until a call is not as it should be, and says how many calls that took; None if all of so
/// many were. `right` is told the number of ports, the first slot and the marks, and judges each call on its arrivals.
fn noticed<R>(most: u64, outputs: Outputs, right: impl Fn(u32, u32, u32) -> R) -> Option<u64>
where
    R: FnMut(&[Record]) -> bool,
{
    let mut r = Random(setting("SEED", 1) * 2 + 88172645463325252);
    let mut calls = 0;
    while calls < most {
        let (ports, first) = (4 + r.below(5) as u32, r.below(1000) as u32);
        let fair = outputs.marks(ports);
        let mut shown = Crossbar::fresh(ports, first, fair);
        let mut judge = right(ports, first, fair);
        let mut traffic = Traffic::new(&mut r, ports);
        for _ in 0..24 {
            let records = traffic.records(&mut r, &shown);
            calls += 1;
            if !judge(&records) {
                return Some(calls);
            }
            let _ = shown.slot(&records);
        }
    }
    None
}

/// How many calls it takes until demand 3 finds a fault out.
fn against_demand_3(fault: Option<Fault>, outputs: Outputs, most: u64) -> Option<u64> {
    noticed(most, outputs, |ports, first, fair| {
        let (mut crossbar, mut pifo) = pair(fault, ports, first, fair);
        move |records: &[Record]| alike(&mut crossbar, &mut pifo, records)
    })
}

#[test]
fn the_right_rules_pass() {
    for outputs in [Outputs::Plain, Outputs::Fair] {
        assert_eq!(against_demand_3(None, outputs, setting("SLOTS", 100_000)), None);
    }
}

#[test]
fn wrong_rules_are_noticed() {
    for fault in AGAINST_DEMAND_3 {
        let calls = against_demand_3(Some(fault), Outputs::Plain, MOST);
        println!("{fault:?}: {calls:?}");
        assert!(calls.is_some(), "{fault:?} goes unnoticed");
    }
}

#[test]
fn wrong_rules_of_fair_ranks_are_noticed() {
    for fault in FAIR_AGAINST_DEMAND_3 {
        let calls = against_demand_3(Some(fault), Outputs::Fair, MOST);
        println!("{fault:?}: {calls:?}");
        assert!(calls.is_some(), "{fault:?} goes unnoticed");
    }
}

#[test]
fn wrong_counts_are_noticed() {
    for fault in AGAINST_THE_ANSWER {
        let calls = noticed(MOST, Outputs::Plain, |ports, first, fair| {
            let mut right = Crossbar::fresh(ports, first, fair);
            let mut wrong = right.clone().with_fault(fault);
            move |records: &[Record]| right.slot(records) == wrong.slot(records)
        });
        println!("{fault:?}: {calls:?}");
        assert!(calls.is_some(), "{fault:?} goes unnoticed");
    }
}

/// How many calls it takes until the output-queued switch and the PIFO switch part, in an answer or in the table.
fn against_the_output_queued(fault: Option<Fault>, outputs: Outputs, most: u64) -> Option<u64> {
    noticed(most, outputs, |ports, first, fair| {
        let (mut oq, mut pifo) = (OutputQueued::fresh(ports, first, fair), Pifo::fresh(ports, first, fair));
        if let Some(f) = fault {
            (oq, pifo) = (oq.with_fault(f), pifo.with_fault(f));
        }
        move |records: &[Record]| oq.slot(records) == pifo.slot(records) && oq.table() == pifo.table()
    })
}

#[test]
fn the_right_output_queued_switch_passes() {
    for outputs in [Outputs::Plain, Outputs::Fair] {
        assert_eq!(against_the_output_queued(None, outputs, setting("SLOTS", 100_000)), None);
    }
}

#[test]
fn wrong_output_queued_switches_are_noticed() {
    for fault in AGAINST_THE_OUTPUT_QUEUED {
        let calls = against_the_output_queued(Some(fault), Outputs::Plain, MOST);
        println!("{fault:?}: {calls:?}");
        assert!(calls.is_some(), "{fault:?} goes unnoticed");
    }
}

/// The two rehearsals that a run compares, with no cue held. The PIFO switch goes wrong by its own fault alone.
fn rehearsals(fault: Option<Fault>, ports: u32, first: u32, fair: u32) -> (Rehearsal<Crossbar>, Rehearsal<Pifo>) {
    let (crossbar, pifo) = (Rehearsal::fresh(ports, first, fair), Rehearsal::fresh(ports, first, fair));
    match fault {
        None => (crossbar, pifo),
        Some(Fault::PifoKeptOnReturn) => (crossbar, pifo.with_fault(Fault::PifoKeptOnReturn)),
        Some(f) => (crossbar.with_fault(f), pifo),
    }
}

/// As `noticed`, of random lists of slots and calls of cues.
fn noticed_of_cues<R>(most: u64, right: impl Fn(u32, u32, u32) -> R) -> Option<u64>
where
    R: FnMut(&Call) -> bool,
{
    let mut r = Random(setting("SEED", 1) * 2 + 88172645463325252);
    let mut calls = 0;
    while calls < most {
        let (ports, first) = (1 + r.below(8) as u32, r.below(1000) as u32);
        let fair = marks(&mut r, ports);
        let mut shown: Rehearsal<Crossbar> = Rehearsal::fresh(ports, first, fair);
        let mut judge = right(ports, first, fair);
        let mut traffic = Traffic::new(&mut r, ports);
        for _ in 0..60 {
            let call = traffic.call(&mut r, &shown.switch);
            calls += 1;
            if !judge(&call) {
                return Some(calls);
            }
            let _ = shown.call(&call);
        }
    }
    None
}

fn cues_against_demand_3(fault: Option<Fault>, most: u64) -> Option<u64> {
    noticed_of_cues(most, |ports, first, fair| {
        let (mut crossbar, mut pifo) = rehearsals(fault, ports, first, fair);
        move |call: &Call| crossbar.call(call) == pifo.call(call)
    })
}

#[test]
fn the_right_rules_of_cues_pass() {
    assert_eq!(cues_against_demand_3(None, setting("SLOTS", 100_000)), None);
}

#[test]
fn wrong_rules_of_cues_are_noticed() {
    for fault in CUES_AGAINST_DEMAND_3 {
        let calls = cues_against_demand_3(Some(fault), MOST);
        println!("{fault:?}: {calls:?}");
        assert!(calls.is_some(), "{fault:?} goes unnoticed");
    }
}

/// No answer tells which place a new name took; the store does.
#[test]
fn a_wrong_place_is_noticed() {
    let calls = noticed_of_cues(MOST, |ports, first, fair| {
        let mut right: Rehearsal<Crossbar> = Rehearsal::fresh(ports, first, fair);
        let mut wrong = right.clone().with_fault(Fault::NewNameTakesTheHighestFreePlace);
        move |call: &Call| right.call(call) == wrong.call(call) && right.cues.store() == wrong.cues.store()
    });
    assert!(calls.is_some());
}
