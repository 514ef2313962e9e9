//! `check` and `oq_check` beside the sound table of docs/SCOPE.md and docs/LAYOUT.md written out plainly, on sound and broken
//! tables.

use crate::load::{Load, Random};
use crate::table::{word, Table, CELL_TABLE_BYTES, RECORD_BYTES};
use crate::{check, oq_check, start_cells, trusted_slot, ANSWER_BYTES, TABLE_BYTES, TALLY_BYTES};

struct Entry {
    output: u8,
    flow: u8,
    place: u8,
    rank: u32,
    slot: u32,
}

impl Entry {
    fn read(r: &[u8]) -> Entry {
        Entry { output: r[0], flow: r[1], place: r[2], rank: word(r, 4), slot: word(r, 12) }
    }

    fn same_flow(&self, other: &Entry) -> bool {
        (self.output, self.flow) == (other.output, other.flow)
    }
}

fn sound(t: &Table) -> bool {
    let (ports, clock) = (word(t, 4), word(t, 8));
    word(t, 0) == 1
        && (1..=16).contains(&ports)
        && word(t, 12) == 0
        && (0..16).all(|input| {
            let count = t[16 + input] as usize;
            let most = if input < ports as usize { 64 } else { 0 };
            count <= most && sound_section(&t[32 + 1024 * input..][..1024], count, ports, clock)
        })
}

fn sound_section(section: &[u8], count: usize, ports: u32, clock: u32) -> bool {
    let records = || section[..16 * count].chunks(16);
    let entries: Vec<Entry> = records().map(Entry::read).collect();
    let pairs = || entries.iter().enumerate().flat_map(|(k, e)| entries[k + 1..].iter().map(move |f| (e, f)));
    section[16 * count..].iter().all(|b| *b == 0)
        && records().all(|r| r[3] == 0)
        && entries
            .iter()
            .all(|e| (e.output as u32) < ports && e.flow < 8 && (1..=3).contains(&e.place) && e.slot < clock)
        && pairs().all(|(e, f)| e.slot != f.slot)
        && pairs().all(|(e, f)| !(e.place == 2 && f.place == 2 && e.output == f.output))
        && together(&entries.iter().filter(|e| e.place == 1).collect::<Vec<_>>())
}

/// Any two cells of a flow in the list are in output priority, with none of another flow between them.
fn together(list: &[&Entry]) -> bool {
    (0..list.len()).all(|j| {
        (0..j).filter(|&i| list[i].same_flow(list[j])).all(|i| {
            (list[i].rank, list[i].slot) < (list[j].rank, list[j].slot)
                && list[i..j].iter().all(|e| e.same_flow(list[j]))
        })
    })
}

/// Where the records of a table's entries begin.
fn records(t: &Table) -> impl Iterator<Item = usize> {
    let counts: [u8; 16] = t[16..32].try_into().unwrap();
    (0..16).flat_map(move |input| (0..counts[input].min(64) as usize).map(move |at| 32 + 1024 * input + RECORD_BYTES * at))
}

/// A table with this number, these cells, and this memory, filled up.
fn framed(number: u8, cells: &Table, memory: &[u8]) -> Vec<u8> {
    let mut table = [&[number, 0, 0, 0], &cells[..], memory].concat();
    table.resize(TABLE_BYTES, 9);
    table
}

/// Whether the cells are sound, by both. They are those of the output-queued switch if all are in buffers; so are they once
/// they all are. No mark may be at an output that the switch does not have.
fn agreed(t: &Table) -> bool {
    let sound = |t: &Table| if sound(t) { 0 } else { 2 };
    let marked = |marks: u32| framed(2, t, &marks.to_le_bytes());
    let numbered = |number: u8, t: &Table| oq_check(&framed(number, t, &[0; 4]));
    assert_eq!(check(&marked(0)), sound(t));
    for bit in 0..32 {
        assert_eq!(check(&marked(1 << bit)), if bit < word(t, 4) { sound(t) } else { 2 });
    }
    assert_eq!(check(&framed(1, t, &[0; 4])), 2);
    assert_eq!(numbered(102, t), if records(t).all(|at| t[at + 2] == 3) { sound(t) } else { 2 });
    let mut buffered = *t;
    records(t).for_each(|at| buffered[at + 2] = 3);
    assert_eq!(numbered(102, &buffered), sound(&buffered));
    assert_eq!(numbered(2, &buffered), 2);
    check(&marked(0)) == 0
}

/// A few entries with few values, so that every rule is kept often and broken often.
fn small_table(r: &mut Random) -> Table {
    let mut t = [0; CELL_TABLE_BYTES];
    t[0] = 1;
    t[4] = 1 + r.below(3) as u8;
    t[8] = 6;
    for input in 0..t[4] as usize {
        t[16 + input] = r.below(5) as u8;
        for at in 0..t[16 + input] as usize {
            let record = &mut t[32 + 1024 * input + RECORD_BYTES * at..][..RECORD_BYTES];
            record[0] = r.below(2) as u8;
            record[1] = r.below(2) as u8;
            record[2] = 1 + r.below(3) as u8;
            record[4] = r.below(3) as u8;
            record[12] = r.below(6) as u8;
        }
    }
    t
}

/// A table under load.
fn loaded_table(cells: usize) -> Table {
    let mut t = [0; CELL_TABLE_BYTES];
    start_cells(16, 4_000_000_000, &mut t);
    let mut load = Load::new(cells);
    for _ in 0..500 {
        let arrivals = load.arrivals(&t);
        assert_eq!(trusted_slot(&mut t, &arrivals, &mut [0; ANSWER_BYTES], &mut [0; TALLY_BYTES]), 0);
    }
    t
}

/// Gives a byte another value, or copies some bytes of an entry to another entry of its input.
fn change(r: &mut Random, t: &mut Table) {
    if r.below(2) == 0 {
        let at = if r.below(3) == 0 { r.below(32) } else { r.below(CELL_TABLE_BYTES as u32) } as usize;
        let byte = t[at];
        t[at] = [0, 1, 2, 3, 16, 65, byte.wrapping_add(1), byte.wrapping_sub(1), byte ^ 128][r.below(9) as usize];
    } else {
        let section = 32 + 1024 * r.below(16) as usize;
        let [from, to] = [(); 2].map(|_| section + RECORD_BYTES * r.below(64) as usize);
        let (first, bytes) = [(0, 1), (0, 2), (2, 1), (4, 4), (12, 4), (12, 1), (0, 16)][r.below(7) as usize];
        t.copy_within(from + first..from + first + bytes, to + first);
    }
}

#[test]
fn small_tables() {
    let mut r = Random(88172645463325252);
    let tables = 50_000;
    let sound = (0..tables).filter(|_| agreed(&small_table(&mut r))).count();
    assert!(sound > tables / 20 && sound < tables - tables / 20, "{sound} sound ones");
}

#[test]
fn changed_tables() {
    let mut r = Random(1442695040888963407);
    for cells in [4, 32, 64] {
        let t = loaded_table(cells);
        assert!(agreed(&t));
        let changes = 5_000;
        let changed = |_: &u32| {
            let mut t = t;
            change(&mut r, &mut t);
            agreed(&t)
        };
        let sound = (0..changes).filter(changed).count();
        assert!(sound > 50 && sound < changes as usize - 50, "{sound} sound ones");
    }
}

#[test]
fn other_lengths() {
    let mut cells = [0; CELL_TABLE_BYTES];
    start_cells(16, 0, &mut cells);
    for (number, check) in [(2, check as fn(&[u8]) -> u32), (102, oq_check)] {
        let table = [framed(number, &cells, &[0; 4]), vec![0]].concat();
        for bytes in [0, 1, 32, CELL_TABLE_BYTES, TABLE_BYTES - 1, TABLE_BYTES, TABLE_BYTES + 1] {
            assert_eq!(check(&table[..bytes]), if bytes == TABLE_BYTES { 0 } else { 2 });
        }
    }
}
