//! Tables and cue stores to try the calls on, and a check of a store that is written from docs/LAYOUT.md.
#![allow(dead_code)] // each test uses a part of it

use super::reference::cues::is_name;
use crossbar_host::{check_bytes, cue_set_bytes, cue_start_bytes, start_bytes, CUES, NAME_BYTES, STORE_BYTES, TABLE_BYTES};

pub const PLACE_BYTES: usize = NAME_BYTES + TABLE_BYTES;

/// The first byte of a place of a store.
pub fn place(k: usize) -> usize {
    16 + PLACE_BYTES * k
}

/// A fresh table without fair outputs.
pub fn fresh_table(ports: u32, first: u32) -> Vec<u8> {
    marked_table(ports, first, 0)
}

pub fn marked_table(ports: u32, first: u32, fair: u32) -> Vec<u8> {
    let mut table = vec![0; TABLE_BYTES];
    assert_eq!(start_bytes(ports, first, fair, &mut table), 0);
    table
}

pub fn fresh_store() -> Vec<u8> {
    let mut store = vec![7; STORE_BYTES];
    assert_eq!(cue_start_bytes(&mut store), 0);
    store
}

/// A store that holds these names, each with a table of its own.
pub fn store_of(names: &[&str]) -> Vec<u8> {
    let mut store = fresh_store();
    for (k, name) in names.iter().enumerate() {
        assert_eq!(cue_set_bytes(&fresh_table(1 + k as u32, 100 + k as u32), &mut store, name.as_bytes()), 0);
    }
    store
}

/// The name at each place, or nothing where it is free.
pub fn names_of(store: &[u8]) -> Vec<String> {
    let letters = |k| store[place(k)..place(k) + NAME_BYTES].iter().take_while(|&&b| b != 0);
    (0..CUES).map(|k| letters(k).map(|&b| b as char).collect()).collect()
}

/// Whether bytes are a cue store, by docs/LAYOUT.md; of a table that is asked of the proved check.
pub fn is_store(store: &[u8]) -> bool {
    let letters = |name: &[u8]| name.iter().take_while(|&&b| b != 0).count();
    let sound = |place: &[u8]| {
        let (name, table) = place.split_at(NAME_BYTES);
        let size = letters(name);
        let free = place.iter().all(|&b| b == 0);
        free || is_name(&name[..size]) && name[size..].iter().all(|&b| b == 0) && check_bytes(table) == 0
    };
    if store.len() != STORE_BYTES || store[..16] != [2, 0, 0, 0, 0, 0, 0, 0, 0, 0, 0, 0, 0, 0, 0, 0] {
        return false;
    }
    let places: Vec<&[u8]> = store[16..].chunks(PLACE_BYTES).collect();
    let name = |k: usize| &places[k][..NAME_BYTES];
    let alike = (0..CUES).any(|k| name(k) != [0; NAME_BYTES] && (0..k).any(|j| name(j) == name(k)));
    places.iter().all(|place| sound(place)) && !alike
}
