//! Tables and cue stores of older versions: the converters write them in the new layout and lose nothing, refuse what is not
//! sound by its own rules with 2 and a short buffer last, and every other call refuses them with 2.
//!
//! SLOTS=n and SEED=n in the environment try more states or others.

mod random;
mod reference;
mod store;
mod traffic;

use crossbar_host::{check_bytes, convert_bytes, convert_cues_bytes, oq_check_bytes, oq_convert_bytes, oq_slot_bytes};
use crossbar_host::{cue_check_bytes, cue_drop_bytes, cue_return_bytes, cue_set_bytes, slot_bytes};
use crossbar_host::{Cues, Oq, Refusal, Switch, ANSWER_BYTES, NAME_BYTES, OQ_ANSWER_BYTES, TALLY_BYTES};
use crossbar_host::{OLD_STORE_BYTES, OLD_TABLE_BYTES, OQ_OLD_TABLE_BYTES, OQ_TABLE_BYTES, STORE_BYTES, TABLE_BYTES};
use random::{setting, Random};
use reference::{Crossbar, Memory};
use std::fs;
use store::{fresh_store, fresh_table, marked_table, names_of, place, PLACE_BYTES};
use traffic::{any_queues, any_state};

const OLD_PLACE_BYTES: usize = NAME_BYTES + OLD_TABLE_BYTES;

/// The bytes of a file of tests/older.
fn kept(name: &str) -> Vec<u8> {
    let path = format!("{}/../tests/older/{name}.txt", env!("CARGO_MANIFEST_DIR"));
    let text = fs::read_to_string(&path).unwrap_or_else(|e| panic!("{path}: {e}"));
    let mut lines = text.lines();
    let mut bytes = vec![0; lines.next().unwrap().parse().unwrap()];
    for line in lines {
        let (at, digits) = line.split_once(' ').unwrap();
        let at: usize = at.parse().unwrap();
        for k in 0..digits.len() / 2 {
            bytes[at + k] = u8::from_str_radix(&digits[2 * k..2 * k + 2], 16).unwrap();
        }
    }
    bytes
}

const TABLES: [&str; 5] = ["table-fresh-1", "table-fresh-16", "table-cells", "table-cells-later", "table-full"];
const STORES: [&str; 4] = ["store-none", "store-one", "store-four", "store-dropped"];
const OQ_TABLES: [&str; 4] = ["oq-fresh", "oq-cells", "oq-cells-later", "oq-full"];

/// A table in the new layout, no output fair and nothing remembered.
fn new_table(old: &[u8]) -> Vec<u8> {
    let mut table = [&[2, 0, 0, 0], old].concat();
    table.resize(TABLE_BYTES, 0);
    table
}

fn new_oq_table(old: &[u8]) -> Vec<u8> {
    let mut table = [&[102, 0, 0, 0], &old[4..]].concat();
    table.resize(OQ_TABLE_BYTES, 0);
    table
}

/// A store in the new layout: each name in its place, with its table in the new layout.
fn new_store(old: &[u8]) -> Vec<u8> {
    let mut store = fresh_store();
    for (k, cue) in old[16..].chunks(OLD_PLACE_BYTES).enumerate() {
        if cue[0] != 0 {
            store[place(k)..place(k) + NAME_BYTES].copy_from_slice(&cue[..NAME_BYTES]);
            store[place(k) + NAME_BYTES..place(k) + PLACE_BYTES].copy_from_slice(&new_table(&cue[NAME_BYTES..]));
        }
    }
    store
}

/// One of the converters, with the size of what it writes and the check of that.
struct Converter {
    convert: fn(&[u8], &mut [u8]) -> u32,
    check: fn(&[u8]) -> u32,
    bytes: usize,
}

const TABLE: Converter = Converter { convert: convert_bytes, check: check_bytes, bytes: TABLE_BYTES };
const STORE: Converter = Converter { convert: convert_cues_bytes, check: cue_check_bytes, bytes: STORE_BYTES };
const OQ: Converter = Converter { convert: oq_convert_bytes, check: oq_check_bytes, bytes: OQ_TABLE_BYTES };

impl Converter {
    /// Converts, into buffers of several sizes; bytes behind what is written are kept, and all where it is refused.
    fn writes(&self, old: &[u8], want: &[u8]) {
        assert_eq!((self.check)(want), 0);
        for more in [0, 1, 64] {
            let mut buffer = vec![7; self.bytes + more];
            assert_eq!((self.convert)(old, &mut buffer), 0);
            assert!(buffer[..self.bytes] == *want, "what is written");
            assert!(buffer[self.bytes..].iter().all(|&b| b == 7), "bytes behind it");
        }
        for room in [self.bytes - 1, old.len(), 16, 0] {
            let mut buffer = vec![7; room];
            assert_eq!((self.convert)(old, &mut buffer), 10);
            assert!(buffer == vec![7; room], "a short buffer was written in");
        }
        // What it writes is nothing to convert.
        self.refuses(want);
    }

    /// 2, in a buffer that is long enough and in one that is not.
    fn refuses(&self, old: &[u8]) {
        for room in [self.bytes, self.bytes - 1, 0] {
            let mut buffer = vec![7; room];
            assert_eq!((self.convert)(old, &mut buffer), 2);
            assert!(buffer == vec![7; room], "a refused call wrote something");
        }
    }

    /// Other lengths; and changed bytes, all of the header and some of the others.
    fn refuses_damaged(&self, r: &mut Random, old: &[u8], sound: impl Fn(&[u8]) -> bool) {
        for length in [0, 1, 4, 16, 31, old.len() - 1] {
            self.refuses(&old[..length]);
        }
        self.refuses(&[old, &[0]].concat());
        self.refuses(&[&[0], old].concat());
        let mut changed = old.to_vec();
        for at in (0..36).chain((36..old.len()).step_by(97)) {
            let was = std::mem::replace(&mut changed[at], old[at] ^ 1 << r.below(8));
            if sound(&changed) {
                let mut buffer = vec![0; self.bytes];
                assert_eq!((self.convert)(&changed, &mut buffer), 0, "byte {at}");
            } else {
                self.refuses(&changed);
            }
            changed[at] = was;
        }
    }
}

/// Whether an older table is sound: as the new check says of it in the new layout. Its length is looked at here.
fn sound_old_table(old: &[u8]) -> bool {
    old.len() == OLD_TABLE_BYTES && check_bytes(&new_table(old)) == 0
}

fn sound_old_oq_table(old: &[u8]) -> bool {
    old.len() == OQ_OLD_TABLE_BYTES && old[..4] == [101, 0, 0, 0] && oq_check_bytes(&new_oq_table(old)) == 0
}

fn sound_old_store(old: &[u8]) -> bool {
    let names: Vec<&[u8]> = old[16..].chunks(OLD_PLACE_BYTES).map(|cue| &cue[..NAME_BYTES]).collect();
    let free_is_clear = old[16..].chunks(OLD_PLACE_BYTES).all(|cue| cue[0] != 0 || cue.iter().all(|&b| b == 0));
    let header = old[..16] == [1, 0, 0, 0, 0, 0, 0, 0, 0, 0, 0, 0, 0, 0, 0, 0];
    header && free_is_clear && names.len() == 4 && cue_check_bytes(&new_store(old)) == 0
}

/// What an older version wrote.
#[test]
fn kept_tables_and_stores() {
    for name in TABLES {
        let old = kept(name);
        assert_eq!(old.len(), OLD_TABLE_BYTES);
        TABLE.writes(&old, &new_table(&old));
        assert!(Switch::from_old_table(&old).unwrap().table() == new_table(&old));
    }
    for name in STORES {
        let old = kept(name);
        assert_eq!(old.len(), OLD_STORE_BYTES);
        STORE.writes(&old, &new_store(&old));
        assert!(Cues::from_old_store(&old).unwrap().store() == new_store(&old));
    }
    for name in OQ_TABLES {
        let old = kept(name);
        assert_eq!(old.len(), OQ_OLD_TABLE_BYTES);
        OQ.writes(&old, &new_oq_table(&old));
        assert!(Oq::from_old_table(&old).unwrap().table() == new_oq_table(&old));
    }
    assert_eq!(names_of(&new_store(&kept("store-four"))), ["intro", "prologue", "a", "z"]);
    assert_eq!(names_of(&new_store(&kept("store-dropped"))), ["intro", "", "a", "z"]);
}

/// A table that goes on as the older version went on: three empty slots.
#[test]
fn kept_tables_go_on() {
    let mut switch = Switch::from_old_table(&kept("table-cells")).unwrap();
    let mut oq = Oq::from_old_table(&kept("oq-cells")).unwrap();
    for _ in 0..3 {
        switch.slot(&[]).unwrap();
        oq.slot(&[]).unwrap();
    }
    assert!(switch.table() == new_table(&kept("table-cells-later")));
    assert!(oq.table() == new_oq_table(&kept("oq-cells-later")));

    // A cue of an older store is returned to, and is the switch that it was.
    let cues = Cues::from_old_store(&kept("store-dropped")).unwrap();
    assert_eq!(cues.names(), ["intro", "a", "z"]);
    let mut switch = Switch::start(1, 0, 1).unwrap();
    assert_eq!(cues.return_to("prologue", &mut switch), Err(Refusal::NoSuchCue));
    for (name, k) in [("z", 3), ("a", 2), ("intro", 0)] {
        assert_eq!(cues.return_to(name, &mut switch), Ok(()));
        let old = &kept("store-dropped")[16 + OLD_PLACE_BYTES * k + NAME_BYTES..][..OLD_TABLE_BYTES];
        assert!(switch.table() == new_table(old), "{name}");
    }
}

/// No other call takes an older table or an older store, whatever else it is lent; and no converter those of another sort.
#[test]
fn other_calls_refuse_them() {
    let (mut table, mut store) = (fresh_table(2, 0), fresh_store());
    let (mut answer, mut tally) = ([9; ANSWER_BYTES], [0; TALLY_BYTES]);
    assert_eq!(cue_set_bytes(&table, &mut store, b"a"), 0);
    let (same_table, same_store) = (table.clone(), store.clone());
    for name in TABLES.iter().chain(&STORES).chain(&OQ_TABLES) {
        let mut old = kept(name);
        let was = old.clone();
        assert_eq!((check_bytes(&old), oq_check_bytes(&old), cue_check_bytes(&old)), (2, 2, 2), "{name}");
        assert_eq!(slot_bytes(&mut old, &[], &mut answer, &mut tally), 2, "{name}");
        assert_eq!(oq_slot_bytes(&mut old, &[], &mut answer[..OQ_ANSWER_BYTES], &mut tally), 2, "{name}");
        assert_eq!(cue_set_bytes(&old, &mut store, b"a"), 2, "{name}");
        assert_eq!(cue_set_bytes(&table, &mut old, b"a"), 2, "{name}");
        assert_eq!(cue_drop_bytes(&mut old, b"a"), 2, "{name}");
        assert_eq!(cue_return_bytes(&mut old, &store, b"a"), 2, "{name}");
        assert_eq!(cue_return_bytes(&mut table, &old, b"a"), 2, "{name}");
        assert!(old == was && table == same_table && store == same_store && answer == [9; ANSWER_BYTES], "{name}");
        // also filled up to the new size
        old.resize(if STORES.contains(name) { STORE_BYTES } else { TABLE_BYTES }, 0);
        assert_eq!((check_bytes(&old), oq_check_bytes(&old), cue_check_bytes(&old)), (2, 2, 2), "{name}");
    }
    for (converter, own) in [(TABLE, &TABLES[..]), (STORE, &STORES[..]), (OQ, &OQ_TABLES[..])] {
        for name in TABLES.iter().chain(&STORES).chain(&OQ_TABLES).filter(|name| !own.contains(name)) {
            converter.refuses(&kept(name));
        }
        converter.refuses(&fresh_table(3, 3));
        converter.refuses(&fresh_store());
    }
    OQ.refuses(&new_oq_table(&kept("oq-cells")));
    // With the number of the output-queued switch before it, an older table of the crossbar with cells in lists is none.
    OQ.refuses(&[&[101, 0, 0, 0], &kept("table-cells")[..]].concat());
    TABLE.refuses(&kept("oq-cells")[..OLD_TABLE_BYTES]);
    TABLE.writes(&kept("oq-cells")[4..], &new_table(&kept("oq-cells")[4..]));
}

#[test]
fn damaged_tables_and_stores() {
    let mut r = Random(setting("SEED", 1) * 2 + 88172645463325252);
    for name in TABLES {
        TABLE.refuses_damaged(&mut r, &kept(name), sound_old_table);
    }
    for name in OQ_TABLES {
        OQ.refuses_damaged(&mut r, &kept(name), sound_old_oq_table);
    }
    for name in STORES {
        let old = kept(name);
        STORE.refuses_damaged(&mut r, &old, sound_old_store);
        // Two names alike, a name that is none, a table without a name.
        for (k, wrong) in [(0, *b"z\0\0\0\0\0\0\0"), (1, *b"in\0ro\0\0\0"), (2, *b"Intro\0\0\0"), (3, [0; NAME_BYTES])] {
            let mut changed = old.clone();
            changed[16 + OLD_PLACE_BYTES * k..][..NAME_BYTES].copy_from_slice(&wrong);
            if sound_old_store(&changed) {
                assert!(changed == old || wrong == *b"z\0\0\0\0\0\0\0", "{name}, place {k}");
            } else {
                STORE.refuses(&changed);
            }
        }
    }
}

/// Any sound state, as an older version would have kept it, and up to four of them in a store.
#[test]
fn any_sound_state() {
    let mut r = Random(setting("SEED", 1) * 2 + 1442695040888963407);
    for _ in 0..setting("SLOTS", 500_000) / 5000 {
        let mut any = || -> Crossbar {
            let (ports, most) = (1 + r.below(16) as u32, r.pick(&[0, 3, 10, 30, 64]));
            let mut s = any_state(&mut r, ports, most);
            s.memory = Memory::marked(0);
            s
        };
        let mut old_store = vec![0; OLD_STORE_BYTES];
        old_store[0] = 1;
        for (k, name) in [&b"d"[..], b"prologue", b"b", b"a"].iter().enumerate() {
            let s = any();
            TABLE.writes(&s.older_table(), &s.table());
            if s.clock % 2 == 0 {
                let cue = &mut old_store[16 + OLD_PLACE_BYTES * k..][..OLD_PLACE_BYTES];
                cue[..name.len()].copy_from_slice(name);
                cue[NAME_BYTES..].copy_from_slice(&s.older_table());
            }
        }
        STORE.writes(&old_store, &new_store(&old_store));
        let (ports, most) = (1 + r.below(16) as u32, r.pick(&[0, 3, 10, 64]));
        let mut s = any_queues(&mut r, ports, most);
        s.memory = Memory::marked(0);
        let new = s.table();
        OQ.writes(&[&[101, 0, 0, 0], &new[4..OQ_OLD_TABLE_BYTES]].concat(), &new);
    }
}

/// A table with marks is of the new layout alone: its cells by themselves are an older table, and come back without them.
#[test]
fn the_older_part_of_a_marked_table() {
    let marked = marked_table(4, 9, 0b1010);
    TABLE.writes(&marked[4..4 + OLD_TABLE_BYTES], &fresh_table(4, 9));
    TABLE.refuses(&marked);
}
