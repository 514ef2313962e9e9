//! Cue stores damaged in every way: check, set, drop and return refuse them with 2, whatever the name is, and change nothing.

mod random;
mod reference;
mod store;
mod traffic;

use crossbar_host::{cue_check_bytes, cue_drop_bytes, cue_return_bytes, cue_set_bytes, cue_start_bytes};
use crossbar_host::{CUES, NAME_BYTES, STORE_BYTES, TABLE_BYTES};
use random::Random;
use store::{fresh_store, fresh_table, is_store, names_of, place, store_of, PLACE_BYTES};
use traffic::any_state;

#[test]
fn start_of_a_store() {
    for length in [0, 1, 16, TABLE_BYTES, STORE_BYTES - 1] {
        let mut buffer = vec![7; length];
        assert_eq!(cue_start_bytes(&mut buffer), 10);
        assert!(buffer == vec![7; length], "a refused start wrote something");
    }
    for more in [0, 1, 64, STORE_BYTES] {
        let mut buffer = vec![7; STORE_BYTES + more];
        assert_eq!(cue_start_bytes(&mut buffer), 0);
        assert!(buffer[0] == 2 && buffer[1..STORE_BYTES].iter().all(|&b| b == 0), "a fresh store");
        assert!(buffer[STORE_BYTES..].iter().all(|&b| b == 7), "bytes behind a store");
        assert_eq!(cue_check_bytes(&buffer), if more == 0 { 0 } else { 2 });
        assert_eq!(cue_check_bytes(&buffer[..STORE_BYTES]), 0);
    }
}

/// The four calls take a store or refuse it with 2, as `is_store` says, and change nothing of one that they refuse.
struct Tried {
    table: Vec<u8>,
    taken: u64,
    refused: u64,
}

impl Tried {
    fn new() -> Tried {
        Tried { table: fresh_table(5, 5), taken: 0, refused: 0 }
    }

    fn store(&mut self, store: &mut Vec<u8>, what: &str) {
        if is_store(store) {
            self.taken += 1;
            assert_eq!(cue_check_bytes(store), 0, "{what}");
            assert_eq!(cue_drop_bytes(store, b"nobody"), 13, "{what}");
            return;
        }
        self.refused += 1;
        let (old_table, old) = (self.table.clone(), store.clone());
        assert_eq!(cue_check_bytes(store), 2, "{what}");
        for name in ["intro", "new", "", "Intro"].map(|name| name.as_bytes()) {
            assert_eq!(cue_set_bytes(&self.table, store, name), 2, "{what}: setting {name:?}");
            assert_eq!(cue_drop_bytes(store, name), 2, "{what}: dropping {name:?}");
            assert_eq!(cue_return_bytes(&mut self.table, store, name), 2, "{what}: returning to {name:?}");
        }
        assert!(*store == old && self.table == old_table, "{what}: a refused call changed something");
    }

    /// Sets a byte of a store, tries it and sets the byte back.
    fn byte(&mut self, store: &mut Vec<u8>, at: usize, value: u8) {
        let kept = std::mem::replace(&mut store[at], value);
        self.store(store, &format!("byte {at} as {value}"));
        store[at] = kept;
    }
}

/// Two stores to damage: one with cells in its tables and a free place between, and one without cues.
fn stores() -> [Vec<u8>; 2] {
    let mut r = Random(88172645463325252);
    let mut store = store_of(&["intro", "drop", "prologue", "a"]);
    for (name, ports) in [("prologue", 16), ("a", 3)] {
        let table = any_state(&mut r, ports, 30).table();
        assert_eq!(cue_set_bytes(&table, &mut store, name.as_bytes()), 0);
    }
    assert_eq!(cue_drop_bytes(&mut store, b"drop"), 0);
    assert_eq!(names_of(&store), ["intro", "", "prologue", "a"]);
    [store, fresh_store()]
}

#[test]
fn stores_of_another_length() {
    let mut tried = Tried::new();
    for store in stores() {
        let lengths = [0, 1, 15, 16, 17, TABLE_BYTES, place(1), place(2), place(3), STORE_BYTES - 1];
        for length in lengths {
            tried.store(&mut store[..length].to_vec(), "a short store");
        }
        for more in [1, 8, 16, PLACE_BYTES, STORE_BYTES] {
            tried.store(&mut [&store[..], &vec![0; more]].concat(), "a long store");
        }
    }
    assert_eq!((tried.taken, tried.refused), (0, 30));
}

#[test]
fn stores_with_a_wrong_header_or_name() {
    let mut tried = Tried::new();
    for mut store in stores() {
        // Another layout number, a byte of the header that is not zero.
        let taken = tried.taken;
        for at in 0..16 {
            (0..=255).for_each(|value| tried.byte(&mut store, at, value));
        }
        assert_eq!(tried.taken, taken + 16, "each byte of the header has one value");
        // Every byte of every name, the free ones included.
        for at in (0..CUES).flat_map(|k| place(k)..place(k) + NAME_BYTES) {
            (0..=255).for_each(|value| tried.byte(&mut store, at, value));
        }
    }
    println!("headers and names: {} stores taken, {} refused", tried.taken, tried.refused);
}

/// Bytes that are no name, at each place with a cue: no letters before others, a letter behind a zero, no letter at all.
#[test]
fn stores_with_wrong_names() {
    let mut tried = Tried::new();
    let wrong: [&[u8; 8]; 8] = [
        b"\0intro\0\0",
        b"in\0ro\0\0\0",
        b"intro\0\0a",
        b"a\0a\0\0\0\0\0",
        b"in tro\0\0",
        b"Intro\0\0\0",
        b"intro\n\0\0",
        b"\0\0\0\0\0\0\0\0", // a table in a place without a name
    ];
    for k in 0..CUES {
        for name in wrong {
            let mut store = store_of(&["one", "two", "three", "four"]);
            store[place(k)..place(k) + NAME_BYTES].copy_from_slice(name);
            tried.store(&mut store, "a wrong name");
        }
    }
    // Two alike, in every pair of places, be the others free or not.
    for (j, k) in (0..CUES).flat_map(|k| (0..k).map(move |j| (j, k))) {
        for others in [true, false] {
            let mut store = store_of(&["one", "two", "three", "prologue"]);
            for free in (0..CUES).filter(|&p| !others && p != j && p != k) {
                store[place(free)..place(free) + PLACE_BYTES].fill(0);
            }
            store.copy_within(place(j)..place(j) + NAME_BYTES, place(k));
            tried.store(&mut store, "two names alike");
        }
    }
    assert_eq!((tried.taken, tried.refused), (0, 32 + 12));
}

#[test]
fn stores_with_wrong_tables() {
    let mut tried = Tried::new();
    let [mut store, mut empty] = stores();
    // A free place is all zeros.
    for at in place(1)..place(2) {
        tried.byte(&mut store, at, 1);
    }
    for at in (16..STORE_BYTES).step_by(7) {
        tried.byte(&mut empty, at, 128);
    }
    assert_eq!(tried.taken, 0);
    // A place with a cue holds a sound table: any byte of it is changed, and the proved check says what comes of it.
    for k in [0, 2, 3] {
        let table = place(k) + NAME_BYTES;
        for at in (table..table + 64).chain((table + 64..place(k) + PLACE_BYTES).step_by(5)).chain(table + 16420..table + 16424) {
            let value = store[at] ^ 1;
            tried.byte(&mut store, at, value);
        }
        let broken = tried.refused;
        for (at, value) in [(0, 1), (4, 2), (8, 0), (8, 17), (16, 1), (20, 65), (16419, 1), (16422, 1)] {
            tried.byte(&mut store, table + at, value);
        }
        assert_eq!(tried.refused, broken + 8, "a broken table in place {k}");
        // No table at all.
        let mut none = store.clone();
        none[table..table + TABLE_BYTES].fill(0);
        tried.store(&mut none, "a name without a table");
        assert_eq!(tried.refused, broken + 9);
    }
    println!("tables in a store: {} stores taken, {} refused", tried.taken, tried.refused);
    assert!(tried.taken > 0, "no tag or rank was changed");
}
