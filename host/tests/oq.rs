//! Long random lists of slot calls on the proved output-queued switch, every byte of table, answer and tally compared with
//! the PIFO switch after every call, and the crossbar beside them; likewise from any sound table, with a reference that keeps
//! its sections. In half of the lists outputs are fair. Then tables of the crossbar, damaged tables, and departures, limits and
//! refusals worked out by hand.
//!
//! SLOTS=n and SEED=n in the environment run longer or another list.

mod random;
mod reference;
mod traffic;

use crossbar_host::{check_bytes, slot_bytes, start_bytes, ANSWER_BYTES, ARRIVAL_BYTES, TABLE_BYTES, TALLY_BYTES};
use crossbar_host::{oq_check_bytes, oq_slot_bytes, oq_start_bytes, OQ_ANSWER_BYTES, OQ_TABLE_BYTES};
use random::{setting, Random};
use reference::{departure_bytes, raised, record_bytes, Pifo, Place, Record, Sent, CLOCK_END};
use traffic::{any_queues, any_state, marks, Traffic};

/// What a slot call is lent beside its table.
#[derive(Clone)]
struct Lent {
    arrivals: Vec<u8>,
    answer: Vec<u8>,
    tally: Vec<u8>,
}

impl Lent {
    /// Now and then the arrivals are no whole records, the buffer is too short or the tally has another length.
    fn new(r: &mut Random, records: &[Record]) -> Lent {
        let mut arrivals = record_bytes(records);
        if r.one_in(97) {
            let torn = arrivals.len() + 1 + r.below(19) as usize;
            arrivals.resize(torn, 7);
        }
        let room = match r.below(97) {
            0 => OQ_ANSWER_BYTES - 1,
            1 => r.below(OQ_ANSWER_BYTES as u64) as usize,
            _ => OQ_ANSWER_BYTES + r.below(9) as usize,
        };
        let tally_size = if r.one_in(197) { r.pick(&[0, 8, 31, 33, 64]) } else { TALLY_BYTES };
        let (mut answer, mut tally) = (vec![0; room], vec![0; tally_size]);
        r.fill(&mut answer);
        r.fill(&mut tally);
        if r.one_in(50) {
            tally.fill(255);
        }
        Lent { arrivals, answer, tally }
    }

    /// The refusal that comes of the lengths.
    fn refusal(&self) -> Option<u32> {
        if self.arrivals.len() % ARRIVAL_BYTES != 0 || self.tally.len() != TALLY_BYTES {
            return Some(2);
        }
        (self.answer.len() < OQ_ANSWER_BYTES).then_some(10)
    }

    /// What a call leaves of it.
    fn after(&self, sent: &Sent) -> Lent {
        let mut left = self.clone();
        if let Ok(departures) = sent {
            left.answer[..OQ_ANSWER_BYTES].copy_from_slice(&departure_bytes(departures));
            let (came, went) = (self.arrivals.len() / ARRIVAL_BYTES, departures.iter().flatten().count());
            raised(&mut left.tally, [1, 0, came as u64, went as u64]);
        } else if left.tally.len() == TALLY_BYTES {
            raised(&mut left.tally, [0, 1, 0, 0]);
        }
        left
    }
}

/// The result of a slot call.
fn result_of(sent: &Sent) -> u64 {
    match sent {
        Ok(_) => 0,
        Err((n, place)) => *n as u64 + 256 * *place as u64,
    }
}

/// One call on the proved switch, held to what the reference says of the records: the result, the answer and the tally.
fn call(table: &mut [u8], lent: &mut Lent, records: &[Record], reference: impl FnOnce(&[Record]) -> Sent) -> Sent {
    let sent = lent.refusal().map_or_else(|| reference(records), |n| Err((n, 0)));
    let want = lent.after(&sent);
    let result = oq_slot_bytes(table, &lent.arrivals, &mut lent.answer, &mut lent.tally);
    assert_eq!(result, result_of(&sent), "result for {records:?}");
    assert!(lent.answer == want.answer, "answer to {records:?}");
    assert!(lent.tally == want.tally, "tally after {records:?}");
    sent
}

/// The proved switch's table, the PIFO switch, and the table of the crossbar, from fresh switches on.
struct Switches {
    table: Vec<u8>,
    pifo: Pifo,
    crossbar: Vec<u8>,
}

impl Switches {
    fn fresh(ports: u32, first: u32, fair: u32) -> Switches {
        let (mut table, mut crossbar) = (vec![0; OQ_TABLE_BYTES], vec![0; TABLE_BYTES]);
        assert_eq!(oq_start_bytes(ports, first, fair, &mut table), 0);
        assert_eq!(start_bytes(ports, first, fair, &mut crossbar), 0);
        let pifo = Pifo::fresh(ports, first, fair);
        assert!(table == pifo.table());
        Switches { table, pifo, crossbar }
    }

    /// One call on all three. The crossbar is lent a buffer of its own, short where the other one is.
    fn call(&mut self, r: &mut Random, records: &[Record]) -> Sent {
        let mut lent = Lent::new(r, records);
        let room = if lent.refusal() == Some(10) { ANSWER_BYTES - 1 } else { ANSWER_BYTES };
        let mut beside = Lent { answer: vec![9; room], ..lent.clone() };
        let sent = call(&mut self.table, &mut lent, records, |records| self.pifo.slot(records));
        assert!(self.table == self.pifo.table(), "table after {records:?}");
        let result = slot_bytes(&mut self.crossbar, &beside.arrivals, &mut beside.answer, &mut beside.tally);
        assert_eq!(result, result_of(&sent), "the crossbar parts at {records:?}");
        assert!(beside.tally == lent.tally, "the crossbar counts otherwise at {records:?}");
        let departures = |answer: &[u8]| answer[..OQ_ANSWER_BYTES].to_vec();
        assert!(sent.is_err() || departures(&beside.answer) == departures(&lent.answer), "the crossbar sends other cells");
        sent
    }
}

#[test]
fn from_a_fresh_switch() {
    let slots = setting("SLOTS", 500_000);
    let mut r = Random(setting("SEED", 1) * 2 + 88172645463325252);
    let (mut done, mut cells, mut refused) = (0, 0, [0u64; 16]);
    while done < slots {
        let ports = 1 + r.below(16) as u32;
        let first = r.pick(&[0, 1, 77, 4_000_000_000, CLOCK_END - 40, CLOCK_END]);
        let mut switches = Switches::fresh(ports, first, marks(&mut r, ports));
        let mut traffic = if r.one_in(5) { Traffic::of_one_rank(&mut r, ports) } else { Traffic::new(&mut r, ports) };
        let length = r.pick(&[10, 100, 400]);
        for _ in 0..length {
            let records = traffic.records(&mut r, &switches.pifo);
            done += 1;
            match switches.call(&mut r, &records) {
                Ok(departures) => cells += departures.iter().flatten().count(),
                Err((n, _)) => refused[n as usize] += 1,
            }
            if r.one_in(200) {
                let mut table = switches.table.clone();
                damage(&mut r, &mut table);
                OQ.turns_back(&table);
            }
        }
    }
    println!("fresh: {done} slots, {cells} cells sent, refused {refused:?}");
    assert!([2, 3, 4, 5, 6, 7, 8, 10, 14].iter().all(|&n| refused[n] > 0), "some refusal never came: {refused:?}");
}

#[test]
fn from_any_sound_table() {
    let slots = setting("SLOTS", 500_000);
    let mut r = Random(setting("SEED", 1) * 2 + 1442695040888963407);
    let (mut done, mut cells, mut refused) = (0, 0, [0u64; 16]);
    while done < slots {
        let (ports, most) = (1 + r.below(16) as u32, r.pick(&[3, 10, 30, 64]));
        let mut s = any_queues(&mut r, ports, most);
        let mut table = s.table();
        assert_eq!(oq_check_bytes(&table), 0, "a table made here is not sound");
        let mut traffic = Traffic::new(&mut r, ports);
        for _ in 0..12 {
            let records = traffic.records(&mut r, &s);
            let mut lent = Lent::new(&mut r, &records);
            match call(&mut table, &mut lent, &records, |records| s.slot(records)) {
                Ok(departures) => cells += departures.iter().flatten().count(),
                Err((n, _)) => refused[n as usize] += 1,
            }
            assert!(table == s.table(), "table after {records:?}");
            done += 1;
        }
    }
    println!("any sound table: {done} slots, {cells} cells sent, refused {refused:?}");
    assert!([2, 3, 4, 5, 6, 7, 8, 10, 14, 15].iter().all(|&n| refused[n] > 0), "some refusal never came: {refused:?}");
}

/// The calls of a switch that look at its table.
struct Engine {
    check: fn(&[u8]) -> u32,
    slot: fn(&mut [u8], &[u8], &mut [u8], &mut [u8]) -> u64,
    answer_bytes: usize,
}

const OQ: Engine = Engine { check: oq_check_bytes, slot: oq_slot_bytes, answer_bytes: OQ_ANSWER_BYTES };
const CROSSBAR: Engine = Engine { check: check_bytes, slot: slot_bytes, answer_bytes: ANSWER_BYTES };

impl Engine {
    /// A slot is refused with this result, and changes no byte but the tally's count of refused slots.
    fn refuses(&self, table: &[u8], arrivals: &[u8], room: usize, result: u64) {
        let (mut t, mut answer, mut tally) = (table.to_vec(), vec![9; room], [0; TALLY_BYTES]);
        assert_eq!((self.slot)(&mut t, arrivals, &mut answer, &mut tally), result);
        let mut counted = [0; TALLY_BYTES];
        counted[8] = 1;
        assert!(t == table && answer == vec![9; room] && tally == counted, "after the result {result}");
    }

    /// Bytes that are no table: 2 of the check and of a slot.
    fn turns_back(&self, table: &[u8]) {
        assert_eq!((self.check)(table), 2);
        self.refuses(table, &[], self.answer_bytes, 2);
    }
}

/// Where the records of a table's cells begin.
fn cells_of(table: &[u8]) -> Vec<usize> {
    (0..16).flat_map(|input| (0..table[20 + input] as usize).map(move |at| 36 + 1024 * input + 16 * at)).collect()
}

/// A change after which no table is sound.
fn damage(r: &mut Random, t: &mut Vec<u8>) {
    let cells = cells_of(t);
    let (input, bit) = (r.below(16) as usize, 1 << r.below(8));
    let behind = 16 * t[20 + input] as usize;
    match r.below(if cells.is_empty() { 6 } else { 12 }) {
        0 => t.truncate(r.below(OQ_TABLE_BYTES as u64) as usize),
        1 => t.push(r.next() as u8),
        // either number at the front, the number of ports, the zeros
        2 => t[r.below(8) as usize] ^= bit,
        3 => t[8] = r.pick(&[0, 17, 255]),
        4 => t[r.pick(&[9, 10, 11, 16, 17, 18, 19])] ^= bit,
        // a mark at an output that the switch does not have
        5 if r.one_in(3) => {
            let mark = t[8] as usize + r.below(32 - t[8] as u64) as usize;
            t[16420 + mark / 8] ^= 1 << (mark % 8);
        }
        // a cell more than there are records, or a record more than there are cells
        5 if r.one_in(2) || behind == 1024 => t[20 + input] += 1,
        5 => t[36 + 1024 * input + behind + r.below(1024 - behind as u64) as usize] ^= bit,
        kind => {
            let at = r.pick(&cells);
            damage_cell(r, t, kind, at);
        }
    }
}

fn damage_cell(r: &mut Random, t: &mut [u8], kind: u64, at: usize) {
    let section = (at - 36) / 1024;
    match kind {
        6 => t[20 + section] -= 1,
        7 => t[at] = r.pick(&[t[8], 16, 255]).max(t[8]),
        8 => t[at + 1] = r.pick(&[8, 9, 255]),
        9 => t[at + 2] = r.pick(&[0, 1, 2, 4, 7, 131, 255]),
        10 => t[at + 3] ^= 1 << r.below(8),
        // a slot that is not below the clock, or that another cell of the section has
        _ if t[20 + section] == 1 => t.copy_within(12..16, at + 12),
        _ => {
            let first = 36 + 1024 * section;
            let other = if at == first { first + 16 } else { first };
            t.copy_within(other + 12..other + 16, at + 12);
        }
    }
}

/// The same table with the number of another layout.
fn numbered(number: u8, table: &[u8]) -> Vec<u8> {
    [&[number, 0, 0, 0], &table[4..]].concat()
}

/// One cell of a sound table is not in a buffer. In a list or at a crosspoint it would be sound in the crossbar.
#[test]
fn cells_in_lists_and_at_crosspoints() {
    let mut r = Random(setting("SEED", 1) * 2 + 2685821657736338717);
    for most in [1, 5, 64] {
        let mut table = any_queues(&mut r, 16, most).table();
        assert_eq!(oq_check_bytes(&table), 0);
        for at in cells_of(&table) {
            for place in [1, 2, 0, 4, 255] {
                table[at + 2] = place;
                assert_eq!(check_bytes(&numbered(2, &table)), if (1..=2).contains(&place) { 0 } else { 2 });
                OQ.turns_back(&table);
            }
            table[at + 2] = 3;
        }
        assert_eq!(oq_check_bytes(&table), 0);
    }
}

#[test]
fn damaged_tables() {
    let mut r = Random(setting("SEED", 1) * 2 + 3935559000370003845);
    for _ in 0..setting("SLOTS", 500_000) / 50 {
        let (ports, most) = (1 + r.below(16) as u32, r.pick(&[0, 1, 2, 10, 64]));
        let mut table = any_queues(&mut r, ports, most).table();
        assert_eq!(oq_check_bytes(&table), 0);
        damage(&mut r, &mut table);
        OQ.turns_back(&table);
    }
}

/// Neither switch takes the other's table. With the number of the output-queued switch, a table of the crossbar is one of that
/// switch exactly if all its cells wait in buffers.
#[test]
fn tables_of_the_other_switch() {
    let mut r = Random(setting("SEED", 1) * 2 + 6364136223846793005);
    let mut met = [0; 2];
    for _ in 0..setting("SLOTS", 500_000) / 500 {
        let (ports, most) = (1 + r.below(16) as u32, r.pick(&[0, 1, 3, 10, 64]));
        let mut s = any_state(&mut r, ports, most);
        if r.one_in(2) {
            s.sections.iter_mut().flatten().for_each(|e| e.place = Place::Buffer);
        }
        let crossbar = s.table();
        assert_eq!(check_bytes(&crossbar), 0);
        OQ.turns_back(&crossbar);
        OQ.turns_back(&numbered(101, &crossbar));
        let renumbered = numbered(102, &crossbar);
        let buffered = s.sections.iter().flatten().all(|e| e.place == Place::Buffer);
        met[buffered as usize] += 1;
        if buffered {
            assert_eq!(oq_check_bytes(&renumbered), 0);
        } else {
            OQ.turns_back(&renumbered);
        }
        let table = any_queues(&mut r, ports, most).table();
        assert_eq!(oq_check_bytes(&table), 0);
        CROSSBAR.turns_back(&table);
        CROSSBAR.turns_back(&numbered(1, &table));
        assert_eq!(check_bytes(&numbered(2, &table)), 0);
    }
    assert!(met[0] > 0 && met[1] > 0, "all were buffered, or none: {met:?}");
}

fn fresh(ports: u32, first: u32) -> Vec<u8> {
    let mut table = vec![0; OQ_TABLE_BYTES];
    assert_eq!(oq_start_bytes(ports, first, 0, &mut table), 0);
    table
}

/// Plays a slot and gives the departure of output 0, seven numbers.
fn played(table: &mut [u8], records: &[Record]) -> Vec<u32> {
    let (mut answer, mut tally) = ([9; OQ_ANSWER_BYTES], [0; TALLY_BYTES]);
    assert_eq!(oq_slot_bytes(table, &record_bytes(records), &mut answer, &mut tally), 0);
    answer[..28].chunks(4).map(|w| u32::from_le_bytes(w.try_into().unwrap())).collect()
}

#[test]
fn departures_by_hand() {
    // The show of scope 9.3.
    let mut table = fresh(3, 0);
    assert_eq!(played(&mut table, &[[0, 0, 0, 9, 1], [1, 0, 0, 1, 2], [2, 0, 0, 2, 3]]), [1, 1, 0, 0, 1, 2, 0]);
    assert_eq!(played(&mut table, &[[0, 0, 1, 0, 4]]), [1, 0, 0, 1, 0, 4, 1]);
    assert_eq!(played(&mut table, &[]), [1, 2, 0, 0, 2, 3, 0]);
    assert_eq!(played(&mut table, &[]), [1, 0, 0, 0, 9, 1, 0]);
    assert_eq!(played(&mut table, &[]), [0; 7]);

    // The cells of a slot leave in turn, from input 15 on in slot 15. 4,294,967,291 is 2 mod 3, and 4,294,967,292 is 0 mod 3;
    // there the last cell leaves in the last slot that can run.
    for (ports, first, leader) in [(16, 15, 15), (3, CLOCK_END - 4, 2), (3, CLOCK_END - 3, 0)] {
        let mut table = fresh(ports, first);
        let all: Vec<Record> = (0..ports).map(|input| [input, 0, 0, 4, 0]).collect();
        for k in 0..ports {
            let departure = played(&mut table, if k == 0 { &all } else { &[] });
            assert_eq!(departure, [1, (leader + k) % ports, 0, 0, 4, 0, first]);
        }
        assert_eq!(table[20..36], [0; 16], "cells are left");
    }
}

/// New cells stand last in the section of their input, and what stands behind a departed one closes up. Input 0 keeps output
/// 0 busy in the slots in which something arrives.
#[test]
fn sections_by_hand() {
    let mut table = fresh(2, 0);
    for (records, tags) in [
        (&[[0, 0, 0, 0, 0], [1, 0, 0, 7, 1]][..], &[1][..]),
        (&[[0, 0, 0, 0, 0], [1, 0, 0, 8, 2]], &[1, 2]),
        (&[[0, 0, 0, 0, 0], [1, 0, 0, 9, 3]], &[1, 2, 3]),
        (&[], &[2, 3]),
        (&[[0, 0, 0, 0, 0], [1, 0, 1, 6, 4]], &[2, 3, 4]),
        (&[[0, 0, 0, 0, 0], [1, 0, 0, 9, 5]], &[2, 3, 4, 5]),
        (&[], &[2, 3, 5]),
        (&[], &[3, 5]),
        (&[], &[5]),
        (&[], &[]),
    ] {
        played(&mut table, records);
        let cells = cells_of(&table);
        let places: Vec<usize> = (0..tags.len()).map(|at| 36 + 1024 + 16 * at).collect();
        assert_eq!(cells, places);
        assert_eq!(cells.iter().map(|&at| table[at + 8]).collect::<Vec<_>>(), tags, "after {records:?}");
    }
}

#[test]
fn the_end_of_the_clock() {
    let mut table = fresh(3, CLOCK_END - 1);
    OQ.refuses(&table, &[], OQ_ANSWER_BYTES - 1, 10);
    assert_eq!(played(&mut table, &[[0, 0, 0, 9, 1], [1, 0, 0, 1, 2]]), [1, 1, 0, 0, 1, 2, CLOCK_END - 1]);
    OQ.refuses(&table, &[], OQ_ANSWER_BYTES, 3);
    OQ.refuses(&table, &record_bytes(&[[9, 9, 9, 9, 9]]), OQ_ANSWER_BYTES, 3);
    OQ.refuses(&table, &[], OQ_ANSWER_BYTES - 1, 10);
    table[16] = 1;
    OQ.refuses(&table, &[], OQ_ANSWER_BYTES - 1, 2);
}

/// Input 0 keeps output 0 busy, so that the cells of input 1 stay.
#[test]
fn a_sixty_fourth_and_a_sixty_fifth_cell() {
    let mut table = fresh(2, 0);
    let records = |slot: u32| [[0, 0, 0, 0, slot], [1, 0, 0, 1, slot]];
    for slot in 0..64 {
        assert_eq!(played(&mut table, &records(slot)), [1, 0, 0, 0, 0, slot, slot]);
    }
    assert_eq!(table[20..22], [0, 64]);
    OQ.refuses(&table, &record_bytes(&records(64)), OQ_ANSWER_BYTES, 8 + 256 * 2);
    // One leaves, and there is room for one; 8 goes by the cells before the slot.
    OQ.refuses(&table, &record_bytes(&[[1, 1, 0, 0, 0]]), OQ_ANSWER_BYTES, 8 + 256);
    assert_eq!(played(&mut table, &[]), [1, 1, 0, 0, 1, 0, 0]);
    assert_eq!(played(&mut table, &records(65)), [1, 0, 0, 0, 0, 65, 65]);
    assert_eq!(table[20..22], [0, 64]);
}

#[test]
fn refusals_by_hand() {
    let mut table = fresh(3, 7);
    played(&mut table, &[[0, 0, 0, 9, 1], [1, 0, 0, 1, 2], [2, 0, 0, 2, 3]]);
    for room in [OQ_ANSWER_BYTES - 1, 28, 0] {
        OQ.refuses(&table, &[], room, 10);
    }
    for torn in [1, 19, 21, 39] {
        OQ.refuses(&table, &vec![0; torn], OQ_ANSWER_BYTES - 1, 2);
    }
    let refuses = |records: &[Record], number: u64, place: u64| {
        OQ.refuses(&table, &record_bytes(records), OQ_ANSWER_BYTES, number + 256 * place);
    };
    refuses(&[[0, 0, 1, 0, 4], [3, 0, 0, 0, 0]], 4, 2);
    refuses(&[[0, 3, 8, 0, 4]], 4, 1);
    refuses(&[[0, 0, 8, 0, 4]], 5, 1);
    refuses(&[[1, 0, 1, 0, 4], [1, 0, 2, 0, 4]], 6, 2);
    refuses(&[[0, 0, 0, 8, 4]], 7, 1);
    // A tally of another length is kept, whatever else is wrong.
    for length in [0, 31, 33] {
        let (mut t, mut answer, mut tally) = (table.clone(), [9; OQ_ANSWER_BYTES], vec![5; length]);
        assert_eq!(oq_slot_bytes(&mut t, &[], &mut answer, &mut tally), 2);
        assert!(t == table && answer == [9; OQ_ANSWER_BYTES] && tally == vec![5; length]);
    }
}
