//! Long random lists of slot calls on the proved switch, every byte of table, answer and tally compared with the reference
//! after every call, and the PIFO switch beside them where the list began with a fresh switch. In half of the lists outputs are
//! fair. Then departures and occupancies worked out by hand, and what a refused slot keeps.
//!
//! SLOTS=n and SEED=n in the environment run longer or another list.

mod random;
mod reference;
mod traffic;

use crossbar_host::{check_bytes, slot_bytes, start_bytes, ANSWER_BYTES, TABLE_BYTES, TALLY_BYTES};
use random::{setting, Random};
use reference::{raised, record_bytes, Answer, Crossbar, Pifo, Record, CLOCK_END};
use traffic::{any_state, marks, Traffic};

/// One call on the proved switch and on the reference: results and every byte lent.
fn call(r: &mut Random, table: &mut Vec<u8>, s: &mut Crossbar, records: &[Record], what: &str) -> Result<Answer, (u32, u32)> {
    let mut arrivals = record_bytes(records);
    let broken = r.one_in(97);
    if broken {
        let extra = 1 + r.below(19) as usize;
        arrivals.extend(std::iter::repeat(7).take(extra));
    }
    let short = r.one_in(97);
    let room = if short { r.below(ANSWER_BYTES as u64) as usize } else { ANSWER_BYTES + r.below(9) as usize };
    let odd_tally = r.one_in(197);
    let tally_size = if odd_tally { r.pick(&[0, 8, 31, 33, 64]) } else { TALLY_BYTES };
    let mut answer = vec![0; room];
    let mut tally = vec![0; tally_size];
    r.fill(&mut answer);
    r.fill(&mut tally);
    if r.one_in(50) {
        tally.iter_mut().for_each(|b| *b = 255);
    }
    let (mut want_answer, mut want_tally) = (answer.clone(), tally.clone());
    let expected = if broken || odd_tally {
        Err((2, 0))
    } else if short {
        Err((10, 0))
    } else {
        s.slot(records)
    };
    let want = match &expected {
        Ok(a) => {
            want_answer[..ANSWER_BYTES].copy_from_slice(&a.bytes());
            raised(&mut want_tally, [1, 0, records.len() as u64, a.departures.iter().flatten().count() as u64]);
            0
        }
        Err((n, place)) => {
            if !odd_tally {
                raised(&mut want_tally, [0, 1, 0, 0]);
            }
            *n as u64 + 256 * *place as u64
        }
    };
    let got = slot_bytes(table, &arrivals, &mut answer, &mut tally);
    assert_eq!(got, want, "{what}: result for {records:?}");
    assert!(*table == s.table(), "{what}: table after {records:?}");
    assert!(answer == want_answer, "{what}: answer to {records:?}");
    assert!(tally == want_tally, "{what}: tally after {records:?}");
    expected
}

/// The proved switch's table and both reference switches, from a fresh switch on.
struct Switches {
    table: Vec<u8>,
    crossbar: Crossbar,
    pifo: Pifo,
}

impl Switches {
    fn fresh(ports: u32, first: u32, fair: u32) -> Switches {
        let mut table = vec![0; TABLE_BYTES];
        assert_eq!(start_bytes(ports, first, fair, &mut table), 0);
        let crossbar = Crossbar::fresh(ports, first, fair);
        assert!(table == crossbar.table());
        Switches { table, crossbar, pifo: Pifo::fresh(ports, first, fair) }
    }

    /// One call on all three; where it is refused for the bytes lent, with 2 or 10, the PIFO switch has no part in it. At a
    /// fair output no rank falls (scope 15.4).
    fn call(&mut self, r: &mut Random, records: &[Record]) -> Result<Answer, (u32, u32)> {
        let got = call(r, &mut self.table, &mut self.crossbar, records, "fresh");
        if let Err((7, place)) = got {
            assert!(!self.crossbar.memory.is_fair(records[place as usize - 1][1]), "7 at a fair output");
        }
        match &got {
            Ok(a) => assert_eq!(Ok(a.departures.clone()), self.pifo.slot(records), "the PIFO switch parts"),
            Err((2 | 10, _)) => (),
            Err(refused) => assert_eq!(Err(*refused), self.pifo.slot(records), "the PIFO switch parts"),
        }
        assert!(self.crossbar.memory == self.pifo.memory, "the PIFO switch remembers otherwise");
        got
    }
}

/// A damaged table is refused with 2 and kept.
fn damaged(r: &mut Random, table: &[u8]) {
    let mut t = table.to_vec();
    match r.below(3) {
        0 => t.truncate(r.below(TABLE_BYTES as u64) as usize),
        1 => t.push(0),
        _ => {
            t[r.pick(&[0usize, 1, 4, 5, 8, 9, 16, 17, 35, 39, 16420, 16421, 16422, 16423])] ^= 1 << r.below(8);
        }
    }
    let sound = check_bytes(&t) == 0;
    let old = t.clone();
    let (mut answer, mut tally) = ([9; ANSWER_BYTES], [0; TALLY_BYTES]);
    let got = slot_bytes(&mut t, &[], &mut answer, &mut tally);
    if !sound {
        assert_eq!(got, 2);
        assert!(t == old && answer == [9; ANSWER_BYTES] && tally[8] == 1);
    }
}

#[test]
fn from_a_fresh_switch() {
    let slots = setting("SLOTS", 500_000);
    let mut r = Random(setting("SEED", 1) * 2 + 88172645463325252);
    let (mut done, mut proposals, mut refused, mut crowd) = (0, 0u64, [0u64; 16], 0);
    while done < slots {
        let ports = 1 + r.below(16) as u32;
        let first = r.pick(&[0, 1, 77, 4_000_000_000, CLOCK_END - 40, CLOCK_END]);
        let mut switches = Switches::fresh(ports, first, marks(&mut r, ports));
        let mut traffic = Traffic::new(&mut r, ports);
        let length = r.pick(&[10, 100, 400]);
        for _ in 0..length {
            let records = traffic.records(&mut r, &switches.crossbar);
            let clock = switches.crossbar.clock;
            done += 1;
            match switches.call(&mut r, &records) {
                Ok(a) => {
                    proposals += (a.proposals[0] + a.proposals[1]) as u64;
                    crowd = a.occupancies.iter().flatten().copied().fold(crowd, u32::max);
                }
                Err((n, _)) => {
                    refused[n as usize] += 1;
                    assert_eq!(switches.crossbar.clock, clock);
                }
            }
            if r.one_in(200) {
                damaged(&mut r, &switches.table);
            }
        }
    }
    println!("fresh: {done} slots, {proposals} proposals, at most {crowd} cells before an output, refused {refused:?}");
    assert!(proposals > 0 && crowd == 16, "nothing was matched, or no output had all its crosspoints filled");
    assert!([2, 3, 4, 5, 6, 7, 8, 10, 14].iter().all(|&n| refused[n] > 0), "some refusal never came: {refused:?}");
}

/// Sixteen ports and one rank, so that slot and turn alone decide: forty slots with arrivals, then until no cell waits or
/// the clock is at its end.
#[test]
fn equal_ranks() {
    let slots = setting("SLOTS", 500_000) / 10;
    let mut r = Random(setting("SEED", 1) * 2 + 3935559000370003845);
    let near_end = CLOCK_END - 30;
    let mut done = 0;
    while done < slots {
        for first in [0, 7, 15, near_end] {
            let mut switches = Switches::fresh(16, first, 0);
            let mut traffic = Traffic::of_one_rank(&mut r, 16);
            let mut ended = false;
            while !ended {
                let s = &switches.crossbar;
                let arriving = s.clock - first < 40;
                if !arriving && s.cells().is_empty() {
                    break;
                }
                let records = if arriving { traffic.records(&mut r, s) } else { Vec::new() };
                ended = switches.call(&mut r, &records) == Err((3, 0));
                done += 1;
            }
            assert_eq!(ended, first == near_end, "first slot {first}, clock {}", switches.crossbar.clock);
        }
    }
}

#[test]
fn from_any_sound_table() {
    let slots = setting("SLOTS", 500_000);
    let mut r = Random(setting("SEED", 1) * 2 + 1442695040888963407);
    let (mut done, mut proposals, mut refused, mut crowd) = (0, 0u64, [0u64; 16], 0);
    while done < slots {
        let ports = 1 + r.below(16) as u32;
        let most = r.pick(&[3, 10, 30, 64]);
        let mut s = any_state(&mut r, ports, most);
        let mut table = s.table();
        assert_eq!(check_bytes(&table), 0, "a table made here is not sound");
        let mut traffic = Traffic::new(&mut r, ports);
        for _ in 0..12 {
            let records = traffic.records(&mut r, &s);
            match call(&mut r, &mut table, &mut s, &records, "any") {
                Ok(a) => {
                    proposals += (a.proposals[0] + a.proposals[1]) as u64;
                    crowd = a.occupancies.iter().flatten().copied().fold(crowd, u32::max);
                }
                Err((n, _)) => refused[n as usize] += 1,
            }
            done += 1;
        }
    }
    println!("any sound table: {done} slots, {proposals} proposals, at most {crowd} cells before an output, {refused:?}");
    assert!(proposals > 0 && crowd == 16, "nothing was matched, or no output had all its crosspoints filled");
    assert!([2, 3, 4, 5, 6, 7, 8, 10, 14, 15].iter().all(|&n| refused[n] > 0), "some refusal never came: {refused:?}");
}

/// Plays a slot on the table and gives its answer.
fn played(table: &mut [u8], records: &[Record]) -> [u8; ANSWER_BYTES] {
    let (mut answer, mut tally) = ([9; ANSWER_BYTES], [0; TALLY_BYTES]);
    assert_eq!(slot_bytes(table, &record_bytes(records), &mut answer, &mut tally), 0);
    answer
}

/// All inputs of a fresh switch send to output 0 with one rank, in as many slots as there are rounds. The cells leave one a
/// slot, round by round, and a round is their inputs.
fn leave_in_turn(ports: u32, first: u32, rounds: &[&[u32]]) {
    let mut table = vec![0; TABLE_BYTES];
    assert_eq!(start_bytes(ports, first, 0, &mut table), 0);
    let all: Vec<Record> = (0..ports).map(|input| [input, 0, 0, 4, 0]).collect();
    for (k, input) in rounds.concat().into_iter().enumerate() {
        let answer = played(&mut table, if k < rounds.len() { &all } else { &[] });
        let departure: Vec<u32> = answer[..28].chunks(4).map(|w| u32::from_le_bytes(w.try_into().unwrap())).collect();
        assert_eq!(departure, [1, input, 0, 0, 4, 0, first + k as u32 / ports], "departure {k} of {ports} ports from {first}");
    }
    assert_eq!(table[20..36], [0; 16], "cells are left");
}

#[test]
fn turns_by_hand() {
    // Input s mod 3 is the first of slot s.
    let rounds: [&[u32]; 3] = [&[0, 1, 2], &[1, 2, 0], &[2, 0, 1]];
    leave_in_turn(3, 0, &[rounds, rounds, rounds].concat());

    // The show of scope 9.4.
    leave_in_turn(2, 1, &[&[1, 0]]);

    // 15 and 4,294,967,279 are 15 mod 16, and 4,294,967,292 is 0 mod 3; the last cell leaves in the last slot that can run.
    let from_15 = [15, 0, 1, 2, 3, 4, 5, 6, 7, 8, 9, 10, 11, 12, 13, 14];
    leave_in_turn(16, 15, &[&from_15]);
    leave_in_turn(16, CLOCK_END - 16, &[&from_15]);
    leave_in_turn(3, CLOCK_END - 3, &[&[0, 1, 2]]);
}

/// Plays a slot on the table, and the occupancies in the answer must be these, (output, [first phase, second]), and 0 at all
/// other outputs.
fn occupied(table: &mut [u8], records: &[Record], want: &[(usize, [u32; 2])]) {
    let answer = played(table, records);
    let mut words = [[0; 16]; 2];
    for &(output, [first, second]) in want {
        (words[0][output], words[1][output]) = (first, second);
    }
    let wanted: Vec<u8> = words.iter().flatten().flat_map(|n| n.to_le_bytes()).collect();
    assert_eq!(answer[456..584], wanted, "after {records:?}");
}

#[test]
fn occupancies_by_hand() {
    let mut table = vec![0; TABLE_BYTES];

    // The show of scope 9.3. In slot 1 rank 0 goes straight while rank 9 stays, so that none is read before phase two.
    assert_eq!(start_bytes(3, 0, 0, &mut table), 0);
    occupied(&mut table, &[[0, 0, 0, 9, 1], [1, 0, 0, 1, 2], [2, 0, 0, 2, 3]], &[(0, [3, 2])]);
    occupied(&mut table, &[[0, 0, 1, 0, 4]], &[(0, [1, 1])]);
    occupied(&mut table, &[], &[]);

    // All inputs send to one output, which then takes two cells a slot.
    assert_eq!(start_bytes(16, 7, 0, &mut table), 0);
    let all: Vec<Record> = (0..16).map(|input| [input, 15, 0, 0, 0]).collect();
    occupied(&mut table, &all, &[(15, [16, 15])]);
    for slot in 1..8 {
        occupied(&mut table, &[], &[(15, [16 - 2 * slot, 15 - 2 * slot])]);
    }
    occupied(&mut table, &[], &[]);

    // Each output has its own: three inputs send to output 3, input 1 and then input 0 to output 1.
    assert_eq!(start_bytes(4, 0, 0, &mut table), 0);
    let records = [[0, 3, 0, 5, 0], [1, 1, 0, 5, 0], [2, 3, 0, 5, 0], [3, 3, 0, 5, 0]];
    occupied(&mut table, &records, &[(1, [1, 0]), (3, [3, 2])]);
    occupied(&mut table, &[[0, 1, 0, 5, 0]], &[(1, [1, 0]), (3, [1, 0])]);
}

/// A refusal, with its record's place, changes the tally alone.
fn refused(table: &[u8], records: &[Record], answer_room: usize, number: u64, place: u64) {
    let (mut t, mut answer, mut tally) = (table.to_vec(), vec![9; answer_room], [0; TALLY_BYTES]);
    assert_eq!(slot_bytes(&mut t, &record_bytes(records), &mut answer, &mut tally), number + 256 * place);
    let mut counted = [0; TALLY_BYTES];
    counted[8] = 1;
    assert!(t == table && answer == vec![9; answer_room] && tally == counted, "after refusal {number}");
}

#[test]
fn a_refused_slot_keeps_its_bytes() {
    let mut table = vec![0; TABLE_BYTES];
    assert_eq!(start_bytes(3, CLOCK_END - 2, 0, &mut table), 0);
    occupied(&mut table, &[[0, 0, 0, 9, 1], [1, 0, 0, 1, 2], [2, 0, 0, 2, 3]], &[(0, [3, 2])]);
    refused(&table, &[], ANSWER_BYTES - 1, 10, 0);
    refused(&table, &[], 456, 10, 0);
    refused(&table, &[], 0, 10, 0);
    refused(&table, &[[0, 0, 1, 0, 4], [3, 0, 0, 0, 0]], ANSWER_BYTES, 4, 2);
    refused(&table, &[[0, 0, 8, 0, 4]], ANSWER_BYTES, 5, 1);
    refused(&table, &[[1, 0, 1, 0, 4], [1, 0, 2, 0, 4]], ANSWER_BYTES, 6, 2);
    refused(&table, &[[0, 0, 0, 8, 4]], ANSWER_BYTES, 7, 1);
    occupied(&mut table, &[[0, 0, 1, 0, 4]], &[(0, [1, 1])]);
    refused(&table, &[], ANSWER_BYTES, 3, 0);
    table[16] = 1;
    refused(&table, &[], ANSWER_BYTES, 2, 0);
}
