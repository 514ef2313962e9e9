//! The bytes of a table's cells, by docs/LAYOUT.md: how to read them, and the pass that tells whether they are sound and where
//! each cell waits.

pub const PORTS: usize = 16;
pub const CELLS: usize = 64;
pub const ENTRIES: usize = PORTS * CELLS;
const FLOWS: usize = 8;
pub const RECORD_BYTES: usize = 16;
pub const CELL_TABLE_BYTES: usize = HEADER_BYTES + ENTRIES * RECORD_BYTES;

const HEADER_BYTES: usize = 32;

pub type Table = [u8; CELL_TABLE_BYTES];
pub type Record = [u8; RECORD_BYTES];

pub const LISTED: u8 = 1;
pub const CROSSED: u8 = 2;
pub const BUFFERED: u8 = 3;

/// The bits that are zero in the first word of every sound record: those of an output above 15, a flow above 7, a place
/// above 3, and the fourth byte.
pub const UNUSED_BITS: u32 = 0xfffc_f8f0;

pub fn word(bytes: &[u8], at: usize) -> u32 {
    u32::from_le_bytes(bytes[at..at + 4].try_into().unwrap())
}

pub fn ports(table: &Table) -> usize {
    word(table, 4) as usize
}

pub fn clock(table: &Table) -> u32 {
    word(table, 8)
}

pub fn count(table: &Table, input: usize) -> usize {
    table[16 + input] as usize
}

/// The byte at which an entry's record begins. No entry needs the remainder; it spares the tests of indexes.
pub fn offset(entry: usize) -> usize {
    HEADER_BYTES + RECORD_BYTES * (entry % ENTRIES)
}

pub fn record(table: &Table, entry: usize) -> &Record {
    table[offset(entry)..].first_chunk().unwrap()
}

pub fn section(table: &Table, input: usize) -> &[Record] {
    table[offset(CELLS * input)..][..CELLS * RECORD_BYTES].as_chunks().0
}

/// The records of an input's cells.
pub fn entries(table: &Table, input: usize) -> &[Record] {
    &section(table, input)[..count(table, input)]
}

/// Below 16 in a sound table without the remainder, as above.
pub fn output(r: &Record) -> usize {
    r[0] as usize % PORTS
}

/// Output and flow number, which tell the flow among the cells of one input.
pub fn flow(r: &Record) -> u16 {
    u16::from_le_bytes([r[0], r[1]])
}

pub fn rank(r: &Record) -> u32 {
    word(r, 4)
}

pub fn slot(r: &Record) -> u32 {
    word(r, 12)
}

/// Output priority among the cells of one input: the smaller goes first.
pub fn priority(r: &Record) -> u64 {
    (rank(r) as u64) << 32 | slot(r) as u64
}

/// The members of a set of positions or ports, rising.
pub struct Members(pub u64);

impl Iterator for Members {
    type Item = usize;

    fn next(&mut self) -> Option<usize> {
        if self.0 == 0 {
            return None;
        }
        let member = self.0.trailing_zeros() as usize;
        self.0 &= self.0 - 1;
        Some(member)
    }
}

/// Where the cells of an input wait. The sets are of positions in its section.
#[derive(Clone, Copy, Default)]
pub struct Row {
    pub listed: u64,
    pub heads: u64,
    pub buffered: u64,
    /// The outputs whose crosspoint holds a cell, and for each of them the cell's position.
    pub filled: u16,
    pub crossed: [u8; PORTS],
}

/// The rows of a table, if it is sound. Where it is trusted to be, the tests are left out.
pub fn rows<const TRUSTED: bool>(table: &Table) -> Option<[Row; PORTS]> {
    let (ports, clock) = (ports(table), clock(table));
    if !TRUSTED && (word(table, 0) != 1 || ports == 0 || ports > PORTS || word(table, 12) != 0) {
        return None;
    }
    let mut rows = [Row::default(); PORTS];
    for (input, row) in rows.iter_mut().enumerate() {
        let most = if input < ports { CELLS } else { 0 };
        let (entries, unused) = section(table, input).split_at(count(table, input).min(most));
        if !TRUSTED && (count(table, input) > most || !all_zero(unused)) {
            return None;
        }
        *row = sound_row::<TRUSTED>(entries, ports, clock)?;
    }
    Some(rows)
}

pub fn all_zero(records: &[Record]) -> bool {
    records.as_flattened().iter().fold(0, |bits, b| bits | b) == 0
}

/// The row of an input's entries, if they are sound.
fn sound_row<const TRUSTED: bool>(entries: &[Record], ports: usize, clock: u32) -> Option<Row> {
    let mut bits = 0;
    // The low and the high bit of each place.
    let (mut low, mut high) = (0, 0);
    // 1 for each low byte of a slot.
    let mut low_bytes = [0u8; 256];
    for r in entries.iter().rev() {
        let (kind, slot) = (word(r, 0), slot(r));
        if !TRUSTED {
            if (kind & 255) as usize >= ports || slot >= clock {
                return None;
            }
            bits |= kind;
            low_bytes[slot as usize % 256] = 1;
        }
        low = low << 1 | (kind >> 16 & 1) as u64;
        high = high << 1 | (kind >> 17 & 1) as u64;
    }
    if !TRUSTED {
        let placed = (low | high).count_ones() as usize == entries.len();
        // Different low bytes are different slots, and the slots of waiting cells are mostly close together.
        let different = low_bytes.iter().sum::<u8>() as usize == entries.len() || !share_slot(entries);
        if bits & UNUSED_BITS != 0 || !placed || !different {
            return None;
        }
    }
    let listed = low & !high;
    let heads = heads::<TRUSTED>(entries, listed)?;
    let (filled, crossed) = crosspoints::<TRUSTED>(entries, high & !low)?;
    Some(Row { listed, heads, buffered: low & high, filled, crossed })
}

pub fn share_slot(entries: &[Record]) -> bool {
    let mut slots: [u32; CELLS] = std::array::from_fn(|at| entries.get(at).map_or(0, slot));
    let slots = &mut slots[..entries.len()];
    slots.sort_unstable();
    slots.windows(2).any(|pair| pair[0] == pair[1])
}

/// The first cell of each flow in the list, if the cells of a flow stand together in output priority. Nothing branches
/// on the cells, as that would be guessed badly.
fn heads<const TRUSTED: bool>(entries: &[Record], listed: u64) -> Option<u64> {
    let mut heads = 0;
    let mut broken = false;
    let mut met = [false; PORTS * FLOWS];
    let mut last = (u16::MAX, 0);
    for at in Members(listed) {
        let r = &entries[at];
        let next = (flow(r), priority(r));
        let met = &mut met[FLOWS * output(r) + r[1] as usize % FLOWS];
        let same = next.0 == last.0;
        if !TRUSTED {
            broken |= same & (next.1 <= last.1) | !same & *met;
            *met = true;
        }
        heads |= (!same as u64) << at;
        last = next;
    }
    (!broken).then_some(heads)
}

/// The filled crosspoints of a row and the positions of their cells, if none holds two.
fn crosspoints<const TRUSTED: bool>(entries: &[Record], crossed: u64) -> Option<(u16, [u8; PORTS])> {
    let mut filled = 0u16;
    let mut positions = [0; PORTS];
    for at in Members(crossed) {
        let output = output(&entries[at]);
        filled |= 1 << output;
        positions[output] = at as u8;
    }
    (TRUSTED || filled.count_ones() == crossed.count_ones()).then_some((filled, positions))
}
