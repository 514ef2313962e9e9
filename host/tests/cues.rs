//! Cues on the proved switch: long random lists of slots, settings, drops and returns, every byte of table, store, answer and
//! tally compared with the reference after every call, and the PIFO switch with cues of its own beside them. Then names of
//! every kind, the order of the refusals, and places, sizes and the clock's end by hand.
//!
//! SLOTS=n and SEED=n in the environment run longer or another list.

mod random;
mod reference;
mod store;
mod traffic;

use crossbar_host::{cue_check_bytes, cue_drop_bytes, cue_return_bytes, cue_set_bytes, oq_start_bytes, slot_bytes};
use crossbar_host::{Arrival, Cues, Refusal, Switch, Tally};
use crossbar_host::{ANSWER_BYTES, NAME_BYTES, OQ_TABLE_BYTES, STORE_BYTES, TABLE_BYTES, TALLY_BYTES};
use random::{setting, Random};
use reference::cues::{is_name, Call, Rehearsal};
use reference::{raised, record_bytes, Crossbar, Pifo, Record, CLOCK_END};
use std::collections::HashMap;
use store::{fresh_store, fresh_table, is_store, marked_table, names_of, place, store_of, PLACE_BYTES};
use traffic::{any_state, marks, Traffic};

/// Plays a slot and gives its result and its answer.
fn played(table: &mut [u8], records: &[Record], tally: &mut [u8]) -> (u64, Vec<u8>) {
    let mut answer = vec![9; ANSWER_BYTES];
    let result = slot_bytes(table, &record_bytes(records), &mut answer, tally);
    (result, answer)
}

/// Slots that were played from a fresh switch on, with what came of each.
#[derive(Clone)]
struct Played {
    start: (u32, u32, u32),
    slots: Vec<(Vec<Record>, (u64, Vec<u8>))>,
}

impl Played {
    fn fresh(ports: u32, first: u32, fair: u32) -> Played {
        Played { start: (ports, first, fair), slots: Vec::new() }
    }

    /// The table after the same slots on a fresh switch; each must come out as it did.
    fn again(&self) -> Vec<u8> {
        let (ports, first, fair) = self.start;
        let (mut table, mut tally) = (marked_table(ports, first, fair), [0; TALLY_BYTES]);
        for (records, came) in &self.slots {
            assert!(played(&mut table, records, &mut tally) == *came, "played again, {records:?} comes out otherwise");
        }
        table
    }
}

/// The proved switch with its cue store, both reference switches with theirs, and the slots that count as played: those
/// since the cue of a return do not.
struct Stage {
    table: Vec<u8>,
    store: Vec<u8>,
    tally: Vec<u8>,
    want_tally: Vec<u8>,
    crossbar: Rehearsal<Crossbar>,
    pifo: Rehearsal<Pifo>,
    played: Played,
    held: HashMap<Vec<u8>, Played>,
}

impl Stage {
    fn fresh(ports: u32, first: u32, fair: u32) -> Stage {
        Stage {
            table: marked_table(ports, first, fair),
            store: fresh_store(),
            tally: vec![0; TALLY_BYTES],
            want_tally: vec![0; TALLY_BYTES],
            crossbar: Rehearsal::fresh(ports, first, fair),
            pifo: Rehearsal::fresh(ports, first, fair),
            played: Played::fresh(ports, first, fair),
            held: HashMap::new(),
        }
    }

    /// One call on all three: the number of its refusal, or 0.
    fn call(&mut self, call: &Call) -> u32 {
        let result = match call {
            Call::Start(ports, first, fair) => {
                self.table = marked_table(*ports, *first, *fair);
                self.played = Played::fresh(*ports, *first, *fair);
                0
            }
            Call::Slot(records) => self.slot(records),
            Call::Set(name) => {
                let result = cue_set_bytes(&self.table, &mut self.store, name);
                if result == 0 {
                    self.held.insert(name.clone(), self.played.clone());
                }
                result
            }
            Call::Drop(name) => {
                let result = cue_drop_bytes(&mut self.store, name);
                self.held.remove(name);
                result
            }
            Call::Return(name) => {
                let result = cue_return_bytes(&mut self.table, &self.store, name);
                if result == 0 {
                    self.played = self.held[name].clone();
                }
                result
            }
        };
        if !matches!(call, Call::Slot(_)) {
            let want = self.crossbar.call(call).map_or_else(|(n, _)| n, |_| 0);
            assert_eq!(result, want, "result of {call:?}");
            assert_eq!(self.pifo.call(call).map_or_else(|(n, _)| n, |_| 0), want, "the PIFO switch parts at {call:?}");
        }
        assert!(self.table == self.crossbar.switch.table(), "table after {call:?}");
        assert!(self.store == self.crossbar.cues.store(), "store after {call:?}");
        assert!(self.tally == self.want_tally, "tally after {call:?}");
        result
    }

    fn slot(&mut self, records: &[Record]) -> u32 {
        let came = played(&mut self.table, records, &mut self.tally);
        let answer = self.crossbar.switch.slot(records);
        let sent = answer.as_ref().map(|a| a.departures.clone()).map_err(|&refused| refused);
        assert_eq!(self.pifo.switch.slot(records), sent, "the PIFO switch parts at {records:?}");
        let want = match &answer {
            Ok(a) => {
                let out = a.departures.iter().flatten().count() as u64;
                raised(&mut self.want_tally, [1, 0, records.len() as u64, out]);
                (0, a.bytes())
            }
            Err((n, at)) => {
                raised(&mut self.want_tally, [0, 1, 0, 0]);
                (*n as u64 + 256 * *at as u64, vec![9; ANSWER_BYTES])
            }
        };
        assert!(came == want, "slot of {records:?}: result {}, not {}, or another answer", came.0, want.0);
        self.played.slots.push((records.to_vec(), came));
        (want.0 % 256) as u32
    }

    /// Table or store is lent with a wrong length or a wrong byte: 2, whatever the name is, and every byte is kept.
    fn broken(&self, r: &mut Random) {
        let (mut table, mut store) = (self.table.clone(), self.store.clone());
        let name = r.pick(&["intro", "a", "zzz", "", "Intro"]).as_bytes();
        let of_table = r.one_in(2);
        let bytes = if of_table { &mut table } else { &mut store };
        match r.below(4) {
            0 => bytes.truncate(r.below(bytes.len() as u64) as usize),
            1 => bytes.truncate(bytes.len() - 1),
            2 => bytes.push(0),
            _ if of_table => bytes[r.pick(&[0, 3, 4, 16, 19, 16423])] ^= 1 << r.below(8),
            _ => bytes[r.pick(&[0, 3, 12, 15])] ^= 1 << r.below(8),
        }
        let (old_table, old_store) = (table.clone(), store.clone());
        assert_eq!(cue_set_bytes(&table, &mut store, name), 2);
        assert_eq!(cue_return_bytes(&mut table, &store, name), 2);
        if !of_table {
            assert_eq!(cue_check_bytes(&store), 2);
            assert_eq!(cue_drop_bytes(&mut store, name), 2);
        }
        assert!(table == old_table && store == old_store, "a refused call changed something");
    }
}

#[test]
fn random_lists() {
    let calls = setting("SLOTS", 500_000) / 5;
    let mut r = Random(setting("SEED", 1) * 2 + 2685821657736338717);
    let (mut done, mut refused, mut returns, mut other_ports) = (0, [0u64; 16], 0, 0);
    while done < calls {
        let ports = 1 + r.below(16) as u32;
        let first = r.pick(&[0, 1, 77, 4_000_000_000, CLOCK_END - 40, CLOCK_END]);
        let mut stage = Stage::fresh(ports, first, marks(&mut r, ports));
        let mut traffic = Traffic::new(&mut r, ports);
        let length = r.pick(&[10, 60, 200]);
        for _ in 0..length {
            let before = stage.crossbar.switch.ports;
            let call = traffic.call(&mut r, &stage.crossbar.switch);
            let result = stage.call(&call);
            done += 1;
            refused[result as usize] += 1;
            if matches!(call, Call::Return(_)) && result == 0 {
                returns += 1;
                other_ports += u64::from(before != stage.crossbar.switch.ports);
            }
            if r.one_in(50) {
                stage.broken(&mut r);
            }
        }
        assert!(stage.played.again() == stage.table, "the slots since a cue were played after all");
    }
    println!("cues: {done} calls, {returns} returns, {other_ports} of them to another number of ports, refused {refused:?}");
    assert!(returns > 0 && other_ports > 0, "no return, or none to another number of ports");
    assert!([3, 4, 5, 6, 7, 11, 12, 13, 14].iter().all(|&n| refused[n] > 0), "some refusal never came: {refused:?}");
}

/// A cue holds any sound table, not only those that a fresh switch can reach.
#[test]
fn cues_of_any_sound_table() {
    let mut r = Random(setting("SEED", 1) * 2 + 1442695040888963407);
    for _ in 0..setting("SLOTS", 500_000) / 500 {
        let mut any = || {
            let (ports, most) = (1 + r.below(16) as u32, r.pick(&[3, 10, 30, 64]));
            any_state(&mut r, ports, most).table()
        };
        let (tables, other) = ([any(), any(), any(), any()], any());
        let mut store = fresh_store();
        for (table, name) in tables.iter().zip(["d", "c", "b", "a"]) {
            assert_eq!(cue_set_bytes(table, &mut store, name.as_bytes()), 0);
        }
        assert_eq!(cue_check_bytes(&store), 0);
        let kept = store.clone();
        for (k, name) in ["d", "c", "b", "a"].iter().enumerate() {
            assert!(store[place(k) + NAME_BYTES..place(k) + PLACE_BYTES] == tables[k]);
            let mut table = other.clone();
            assert_eq!(cue_return_bytes(&mut table, &store, name.as_bytes()), 0);
            assert!(table == tables[k] && store == kept, "return to {name}");
        }
    }
}

/// A name lent to each of the three calls, on a store that does not hold it, and then on one that does.
fn lent_name(name: &[u8]) {
    let (table, empty) = (fresh_table(2, 9), fresh_store());
    let (mut other, mut store) = (fresh_table(3, 4), empty.clone());
    let good = is_name(name);
    let refused = if good { 13 } else { 11 };
    assert_eq!(cue_drop_bytes(&mut store, name), refused, "dropping {name:?}");
    assert_eq!(cue_return_bytes(&mut other, &store, name), refused, "returning to {name:?}");
    assert!(store == empty && other == fresh_table(3, 4), "{name:?} refused");
    assert_eq!(cue_set_bytes(&table, &mut store, name), if good { 0 } else { 11 }, "setting {name:?}");
    if !good {
        assert!(store == empty, "setting {name:?} refused");
        return;
    }
    let mut want = empty.clone();
    want[16..16 + name.len()].copy_from_slice(name);
    want[24..24 + TABLE_BYTES].copy_from_slice(&table);
    assert!(store == want, "store of {name:?}");
    assert_eq!(cue_return_bytes(&mut other, &store, name), 0);
    assert!(other == table && store == want, "return to {name:?}");
    assert_eq!(cue_drop_bytes(&mut store, name), 0);
    assert!(store == empty, "drop of {name:?}");
}

#[test]
fn names_of_every_byte_and_length() {
    for length in 0..=12 {
        let name = vec![b'q'; length];
        lent_name(&name);
        for at in 0..length {
            for value in 0..=255 {
                let mut other = name.clone();
                other[at] = value;
                lent_name(&other);
            }
        }
    }
    // Names are compared as bytes, all of them.
    let mut store = store_of(&["prologue", "prologus", "prolog", "prologa"]);
    for name in ["prologu", "prologua", "rologue", "p", "eugolorp"] {
        assert_eq!(cue_drop_bytes(&mut store, name.as_bytes()), 13);
        assert_eq!(cue_return_bytes(&mut fresh_table(1, 0), &store, name.as_bytes()), 13);
        assert_eq!(cue_set_bytes(&fresh_table(1, 0), &mut store, name.as_bytes()), 12);
    }
}

/// Each call with every kind of switch, store and name: 2 for either of the first two, then 11, then 12 or 13. A table of the
/// output-queued switch is none.
#[test]
fn order_of_refusals() {
    let sound = fresh_table(4, 40);
    let (mut broken, mut oq) = (sound.clone(), vec![0; OQ_TABLE_BYTES]);
    broken[16] = 1;
    assert_eq!(oq_start_bytes(4, 40, 0, &mut oq), 0);
    let tables = [
        (&sound[..], true),
        (&broken[..], false),
        (&sound[..TABLE_BYTES - 1], false),
        (&[][..], false),
        (&oq[..], false),
        (&oq[4..], false),
        (&sound[4..16420], false), // as an older version has it
    ];
    let four = store_of(&["one", "two", "three", "four"]);
    let mut damaged = four.clone();
    damaged[place(2)] = b'1';
    let names = ["one", "four", "new", "", "One", "o\0", "elevenelev"];
    let (one, none) = (store_of(&["one"]), fresh_store());
    let stores = [&four[..], &one, &none, &damaged, &four[..STORE_BYTES - 1], &sound, &[]];
    let mut met = [0; 14];
    for ((table, table_sound), old, name) in tables
        .iter()
        .flat_map(|t| stores.iter().map(move |s| (t, s)))
        .flat_map(|(t, s)| names.iter().map(move |n| (t, *s, n.as_bytes())))
    {
        let store_sound = is_store(old);
        let held = store_sound && names_of(old).iter().any(|n| !n.is_empty() && n.as_bytes() == name);
        let full = store_sound && names_of(old).iter().all(|n| !n.is_empty());
        let first = |sound: bool, last: u32| match (sound, is_name(name)) {
            (false, _) => 2,
            (true, false) => 11,
            (true, true) => last,
        };
        let what = format!("{name:?}, table sound {table_sound}, store sound {store_sound}");

        let mut store = old.to_vec();
        let want = first(*table_sound && store_sound, if full && !held { 12 } else { 0 });
        assert_eq!(cue_set_bytes(table, &mut store, name), want, "setting {what}");
        assert!(want == 0 || store == old, "a refused setting of {what} changed the store");
        met[want as usize] += 1;

        let (mut store, want) = (old.to_vec(), first(store_sound, if held { 0 } else { 13 }));
        assert_eq!(cue_drop_bytes(&mut store, name), want, "dropping {what}");
        assert!(want == 0 || store == old, "a refused drop of {what} changed the store");
        met[want as usize] += 1;

        let mut lent = table.to_vec();
        let want = first(*table_sound && store_sound, if held { 0 } else { 13 });
        assert_eq!(cue_return_bytes(&mut lent, old, name), want, "returning to {what}");
        assert!(want == 0 || lent == *table, "a refused return to {what} changed the table");
        met[want as usize] += 1;
    }
    assert!([0, 2, 11, 12, 13].iter().all(|&n| met[n] > 0), "some result never came: {met:?}");
}

#[test]
fn places_by_hand() {
    let mut store = store_of(&["one", "two", "three", "four"]);
    let table = fresh_table(7, 70);
    let held = |store: &[u8], k: usize| store[place(k) + NAME_BYTES..place(k) + PLACE_BYTES].to_vec();
    assert_eq!(cue_set_bytes(&table, &mut store, b"five"), 12);

    // With four held, a held name is replaced in its place, and the others stay.
    let old = store.clone();
    assert_eq!(cue_set_bytes(&table, &mut store, b"three"), 0);
    assert_eq!(names_of(&store), ["one", "two", "three", "four"]);
    assert!(held(&store, 2) == table);
    assert!([0, 1, 3].iter().all(|&k| held(&store, k) == held(&old, k)));

    // The lowest free place is taken, whichever was freed first.
    assert_eq!(cue_drop_bytes(&mut store, b"three"), 0);
    assert_eq!(cue_drop_bytes(&mut store, b"one"), 0);
    assert_eq!(names_of(&store), ["", "two", "", "four"]);
    assert_eq!(cue_drop_bytes(&mut store, b"one"), 13);
    assert_eq!(cue_set_bytes(&table, &mut store, b"four"), 0);
    assert_eq!(names_of(&store), ["", "two", "", "four"]);
    assert_eq!(cue_set_bytes(&table, &mut store, b"five"), 0);
    assert_eq!(cue_set_bytes(&table, &mut store, b"six"), 0);
    assert_eq!(names_of(&store), ["five", "two", "six", "four"]);
    assert_eq!(cue_set_bytes(&table, &mut store, b"one"), 12);

    // The last cue dropped leaves a fresh store.
    for name in ["two", "four", "five", "six"] {
        assert_eq!(cue_drop_bytes(&mut store, name.as_bytes()), 0);
    }
    assert!(store == fresh_store());
}

/// A cue of two ports is returned to in a switch of sixteen, and the other way; ports 2 to 15 come and go.
#[test]
fn cues_of_another_number_of_ports() {
    let mut tally = [0; TALLY_BYTES];
    let (mut table, mut store) = (fresh_table(2, 0), fresh_store());
    assert_eq!(played(&mut table, &[[0, 1, 0, 3, 1], [1, 1, 0, 5, 2]], &mut tally).0, 0);
    let two = table.clone();
    assert_eq!(cue_set_bytes(&table, &mut store, b"two"), 0);

    table = fresh_table(16, 100);
    let all: Vec<Record> = (0..16).map(|input| [input, 15, 0, 4, input]).collect();
    assert_eq!(played(&mut table, &all, &mut tally).0, 0);
    let sixteen = table.clone();
    assert_eq!(cue_set_bytes(&table, &mut store, b"sixteen"), 0);

    for _ in 0..2 {
        assert_eq!(cue_return_bytes(&mut table, &store, b"two"), 0);
        assert!(table == two);
        assert_eq!(played(&mut table, &[[2, 0, 0, 0, 0]], &mut tally).0, 4 + 256);
        let (result, answer) = played(&mut table, &[], &mut tally);
        assert_eq!((result, answer[28], answer[48]), (0, 1, 2), "tag 2 leaves at output 1");
        assert_eq!(cue_return_bytes(&mut table, &store, b"sixteen"), 0);
        assert!(table == sixteen);
        let (result, answer) = played(&mut table, &[], &mut tally);
        assert_eq!((result, answer[28 * 15], answer[28 * 15 + 20]), (0, 1, 5), "input 4 went first in slot 100, 5 is next");
    }
}

/// The clock is the cue's: behind its end a return makes the switch run again, and a cue of its end does not run.
#[test]
fn returns_at_the_end_of_the_clock() {
    let mut tally = [0; TALLY_BYTES];
    let (mut table, mut store) = (fresh_table(3, CLOCK_END - 1), fresh_store());
    let records = [[0, 0, 0, 9, 1], [1, 0, 0, 1, 2]];
    assert_eq!(cue_set_bytes(&table, &mut store, b"last"), 0);
    let came = played(&mut table, &records, &mut tally);
    assert_eq!(came.0, 0);
    assert_eq!(played(&mut table, &[], &mut tally).0, 3);
    assert_eq!(cue_set_bytes(&table, &mut store, b"ended"), 0);
    assert_eq!(cue_return_bytes(&mut table, &store, b"last"), 0);
    assert!(played(&mut table, &records, &mut tally) == came);
    assert_eq!(played(&mut table, &[], &mut tally).0, 3);
    table = fresh_table(3, 0);
    assert_eq!(cue_return_bytes(&mut table, &store, b"ended"), 0);
    assert_eq!(played(&mut table, &[], &mut tally).0, 3);
}

/// The calls of this crate: the same slots give the same answers after a return, and the tally goes on.
#[test]
fn a_switch_and_its_cues() {
    let arrival = |input, flow, rank, tag| Arrival { input, output: 0, flow, rank, tag };
    let slots = [vec![arrival(0, 0, 9, 1), arrival(1, 0, 1, 2), arrival(2, 0, 2, 3)], vec![arrival(0, 1, 0, 4)], vec![]];
    let (mut switch, mut cues) = (Switch::start(3, 0, 0).unwrap(), Cues::start());
    assert_eq!(cues.set("intro", &switch), Ok(()));
    let play = |switch: &mut Switch| slots.each_ref().map(|arrivals| switch.slot(arrivals).unwrap());
    let first = play(&mut switch);
    assert_eq!(cues.set("after", &switch), Ok(()));
    assert_eq!(cues.return_to("intro", &mut switch), Ok(()));
    assert_eq!((switch.clock(), switch.tally().slots_run), (0, 3));
    assert_eq!(play(&mut switch), first);
    assert_eq!(switch.tally(), Tally { slots_run: 6, slots_refused: 0, cells_in: 8, cells_out: 6 });
    let again = switch.table().to_vec();
    assert_eq!(cues.return_to("after", &mut switch), Ok(()));
    assert!(switch.table() == again, "the same slots led to another switch");

    assert_eq!(cues.names(), ["intro", "after"]);
    assert_eq!(cues.return_to("nobody", &mut switch), Err(Refusal::NoSuchCue));
    assert_eq!(cues.set("Intro", &switch), Err(Refusal::BadName));
    assert_eq!((cues.set("c", &switch), cues.set("d", &switch)), (Ok(()), Ok(())));
    assert_eq!(cues.set("e", &switch), Err(Refusal::CuesFull));
    assert_eq!((Refusal::BadName.number(), Refusal::CuesFull.number(), Refusal::NoSuchCue.number()), (11, 12, 13));
    assert_eq!(cues.drop_cue("intro"), Ok(()));
    assert_eq!(cues.drop_cue("intro"), Err(Refusal::NoSuchCue));
    assert_eq!(cues.set("e", &switch), Ok(()));
    assert_eq!(cues.names(), ["e", "after", "c", "d"]);

    let kept = cues.store().to_vec();
    assert_eq!(Cues::from_store(kept.clone()).unwrap().names(), cues.names());
    assert_eq!(Cues::from_store(kept[1..].to_vec()).err(), Some(Refusal::BrokenTable));
}
