//! Safe calls of the crossbar: a switch, what a slot answers, the tally, cues to come back to, and refusals; and of the
//! output-queued switch beside it. Either takes up the tables of older versions. The promises of the calls are in include/crossbar.h and include/oq.h, the layouts in
//! docs/LAYOUT.md. It links target/staticlib/libcrossbar.a and liboq.a.

pub const PORTS: usize = 16;
pub const TABLE_BYTES: usize = 24680;
pub const ARRIVAL_BYTES: usize = 20;
pub const DEPARTURE_BYTES: usize = 28;
pub const ANSWER_BYTES: usize = 584;
pub const TALLY_BYTES: usize = 32;
pub const CUES: usize = 4;
pub const NAME_BYTES: usize = 8;
pub const STORE_BYTES: usize = 98768;
pub const OQ_TABLE_BYTES: usize = 24680;
pub const OQ_ANSWER_BYTES: usize = 448;
pub const OLD_TABLE_BYTES: usize = 16416;
pub const OLD_STORE_BYTES: usize = 65712;
pub const OQ_OLD_TABLE_BYTES: usize = 16420;

mod raw {
    extern "C" {
        pub fn start(ports: u32, first: u32, fair: u32, table: *mut u8, table_bytes: usize) -> u32;
        pub fn check(table: *const u8, table_bytes: usize) -> u32;
        pub fn slot(
            table: *mut u8,
            table_bytes: usize,
            arrivals: *const u8,
            arrivals_bytes: usize,
            answer: *mut u8,
            answer_bytes: usize,
            tally: *mut u8,
            tally_bytes: usize,
        ) -> u64;
        pub fn convert(old: *const u8, old_bytes: usize, table: *mut u8, table_bytes: usize) -> u32;
        pub fn convert_cues(old: *const u8, old_bytes: usize, store: *mut u8, store_bytes: usize) -> u32;
        pub fn cue_start(store: *mut u8, store_bytes: usize) -> u32;
        pub fn cue_check(store: *const u8, store_bytes: usize) -> u32;
        pub fn cue_set(
            table: *const u8,
            table_bytes: usize,
            store: *mut u8,
            store_bytes: usize,
            name: *const u8,
            name_bytes: usize,
        ) -> u32;
        pub fn cue_drop(store: *mut u8, store_bytes: usize, name: *const u8, name_bytes: usize) -> u32;
        pub fn cue_return(
            table: *mut u8,
            table_bytes: usize,
            store: *const u8,
            store_bytes: usize,
            name: *const u8,
            name_bytes: usize,
        ) -> u32;
        pub fn oq_start(ports: u32, first: u32, fair: u32, table: *mut u8, table_bytes: usize) -> u32;
        pub fn oq_check(table: *const u8, table_bytes: usize) -> u32;
        pub fn oq_slot(
            table: *mut u8,
            table_bytes: usize,
            arrivals: *const u8,
            arrivals_bytes: usize,
            answer: *mut u8,
            answer_bytes: usize,
            tally: *mut u8,
            tally_bytes: usize,
        ) -> u64;
        pub fn oq_convert(old: *const u8, old_bytes: usize, table: *mut u8, table_bytes: usize) -> u32;
    }
}

/// The calls on byte slices, as the host has them.
pub fn start_bytes(ports: u32, first: u32, fair: u32, table: &mut [u8]) -> u32 {
    unsafe { raw::start(ports, first, fair, table.as_mut_ptr(), table.len()) }
}

pub fn check_bytes(table: &[u8]) -> u32 {
    unsafe { raw::check(table.as_ptr(), table.len()) }
}

pub fn slot_bytes(table: &mut [u8], arrivals: &[u8], answer: &mut [u8], tally: &mut [u8]) -> u64 {
    unsafe {
        raw::slot(
            table.as_mut_ptr(),
            table.len(),
            arrivals.as_ptr(),
            arrivals.len(),
            answer.as_mut_ptr(),
            answer.len(),
            tally.as_mut_ptr(),
            tally.len(),
        )
    }
}

pub fn convert_bytes(old: &[u8], table: &mut [u8]) -> u32 {
    unsafe { raw::convert(old.as_ptr(), old.len(), table.as_mut_ptr(), table.len()) }
}

pub fn convert_cues_bytes(old: &[u8], store: &mut [u8]) -> u32 {
    unsafe { raw::convert_cues(old.as_ptr(), old.len(), store.as_mut_ptr(), store.len()) }
}

pub fn cue_start_bytes(store: &mut [u8]) -> u32 {
    unsafe { raw::cue_start(store.as_mut_ptr(), store.len()) }
}

pub fn cue_check_bytes(store: &[u8]) -> u32 {
    unsafe { raw::cue_check(store.as_ptr(), store.len()) }
}

pub fn cue_set_bytes(table: &[u8], store: &mut [u8], name: &[u8]) -> u32 {
    unsafe {
        raw::cue_set(table.as_ptr(), table.len(), store.as_mut_ptr(), store.len(), name.as_ptr(), name.len())
    }
}

pub fn cue_drop_bytes(store: &mut [u8], name: &[u8]) -> u32 {
    unsafe { raw::cue_drop(store.as_mut_ptr(), store.len(), name.as_ptr(), name.len()) }
}

pub fn cue_return_bytes(table: &mut [u8], store: &[u8], name: &[u8]) -> u32 {
    unsafe {
        raw::cue_return(table.as_mut_ptr(), table.len(), store.as_ptr(), store.len(), name.as_ptr(), name.len())
    }
}

pub fn oq_start_bytes(ports: u32, first: u32, fair: u32, table: &mut [u8]) -> u32 {
    unsafe { raw::oq_start(ports, first, fair, table.as_mut_ptr(), table.len()) }
}

pub fn oq_check_bytes(table: &[u8]) -> u32 {
    unsafe { raw::oq_check(table.as_ptr(), table.len()) }
}

pub fn oq_slot_bytes(table: &mut [u8], arrivals: &[u8], answer: &mut [u8], tally: &mut [u8]) -> u64 {
    unsafe {
        raw::oq_slot(
            table.as_mut_ptr(),
            table.len(),
            arrivals.as_ptr(),
            arrivals.len(),
            answer.as_mut_ptr(),
            answer.len(),
            tally.as_mut_ptr(),
            tally.len(),
        )
    }
}

pub fn oq_convert_bytes(old: &[u8], table: &mut [u8]) -> u32 {
    unsafe { raw::oq_convert(old.as_ptr(), old.len(), table.as_mut_ptr(), table.len()) }
}

/// Why a call was turned back.
#[derive(Clone, Copy, Debug, PartialEq, Eq)]
pub enum Refusal {
    /// bad size: the number of ports is not 1 to 16
    BadSize,
    /// broken table: the lent table or cue store is not sound, or its length is wrong
    BrokenTable,
    /// clock end: the clock is at 4,294,967,295
    ClockEnd,
    /// no such port: an input or an output is not below the number of ports
    NoSuchPort,
    /// no such flow: a flow is above 7
    NoSuchFlow,
    /// out of turn: an input is not above the one of the record before
    InputOrder,
    /// falling rank: a cell of higher rank of the same flow is in the switch
    RankOrder,
    /// full: 64 cells of this input are in the switch
    Full,
    /// bad line: the text breaks the grammar
    BadLine,
    /// short tray: the buffer for an answer is too short
    ShortBuffer,
    /// bad name: the name of a cue is not 1 to 8 lower-case letters
    BadName,
    /// cues full: four cues are held, and none of this name
    CuesFull,
    /// no such cue: no cue of this name is held
    NoSuchCue,
    /// bad weight: at a fair output the rank is not 1 to 1,024
    BadWeight,
    /// rank end: at a fair output the rank made passes 4,294,967,295
    RankEnd,
}

impl Refusal {
    pub fn number(self) -> u32 {
        self as u32 + 1
    }

    fn from_number(n: u32) -> Refusal {
        use Refusal::*;
        [
            BadSize, BrokenTable, ClockEnd, NoSuchPort, NoSuchFlow, InputOrder, RankOrder, Full, BadLine, ShortBuffer,
            BadName, CuesFull, NoSuchCue, BadWeight, RankEnd,
        ][n as usize - 1]
    }

    /// What a call without an answer says: 0 is done.
    fn of(n: u32) -> Result<(), Refusal> {
        match n {
            0 => Ok(()),
            n => Err(Refusal::from_number(n)),
        }
    }
}

/// A refused slot: why, and the record's place, from 1; 0 where no record is named.
#[derive(Clone, Copy, Debug, PartialEq, Eq)]
pub struct Refused {
    pub refusal: Refusal,
    pub place: u32,
}

impl Refused {
    /// What a slot says: 0 is done.
    fn of(result: u64) -> Result<(), Refused> {
        match result {
            0 => Ok(()),
            r => Err(Refused { refusal: Refusal::from_number((r % 256) as u32), place: (r / 256) as u32 }),
        }
    }
}

/// At a fair output the rank is a weight, 1 to 1,024, and the switch makes the rank of the cell.
#[derive(Clone, Copy, Debug, PartialEq, Eq)]
pub struct Arrival {
    pub input: u32,
    pub output: u32,
    pub flow: u32,
    pub rank: u32,
    pub tag: u32,
}

impl Arrival {
    pub fn bytes(&self) -> [u8; ARRIVAL_BYTES] {
        let mut out = [0; ARRIVAL_BYTES];
        for (at, n) in [self.input, self.output, self.flow, self.rank, self.tag].iter().enumerate() {
            out[4 * at..4 * at + 4].copy_from_slice(&n.to_le_bytes());
        }
        out
    }
}

#[derive(Clone, Copy, Debug, PartialEq, Eq)]
pub struct Cell {
    pub input: u32,
    pub output: u32,
    pub flow: u32,
    pub rank: u32,
    pub tag: u32,
    pub slot: u32,
}

/// For each output the cell that it sends, the proposals of both phases, and for both phases the occupancy of each output:
/// how many of its crosspoints held a cell when it chose.
#[derive(Clone, Debug, PartialEq, Eq)]
pub struct Answer {
    pub departures: Vec<Option<Cell>>,
    pub proposals: [u32; 2],
    pub occupancies: [Vec<u32>; 2],
}

#[derive(Clone, Copy, Debug, Default, PartialEq, Eq)]
pub struct Tally {
    pub slots_run: u64,
    pub slots_refused: u64,
    pub cells_in: u64,
    pub cells_out: u64,
}

impl Tally {
    fn read(bytes: &[u8; TALLY_BYTES]) -> Tally {
        let count = |at: usize| u64::from_le_bytes(bytes[at..at + 8].try_into().unwrap());
        Tally { slots_run: count(0), slots_refused: count(8), cells_in: count(16), cells_out: count(24) }
    }
}

/// A switch: its table, and the tally of its calls.
pub struct Switch {
    table: Vec<u8>,
    tally: [u8; TALLY_BYTES],
}

impl Switch {
    /// A fresh switch of 1 to 16 ports. Bit o of `fair` marks output o; 0 for none.
    pub fn start(ports: u32, first: u32, fair: u32) -> Result<Switch, Refusal> {
        let mut table = vec![0; TABLE_BYTES];
        Refusal::of(start_bytes(ports, first, fair, &mut table))?;
        Ok(Switch { table, tally: [0; TALLY_BYTES] })
    }

    /// The switch of a table that was kept, if it is sound.
    pub fn from_table(table: Vec<u8>) -> Result<Switch, Refusal> {
        Refusal::of(check_bytes(&table))?;
        Ok(Switch { table, tally: [0; TALLY_BYTES] })
    }

    /// The switch of a table that a version before 3.0.0 kept, if it is sound. No output is fair.
    pub fn from_old_table(old: &[u8]) -> Result<Switch, Refusal> {
        let mut table = vec![0; TABLE_BYTES];
        Refusal::of(convert_bytes(old, &mut table))?;
        Ok(Switch { table, tally: [0; TALLY_BYTES] })
    }

    pub fn table(&self) -> &[u8] {
        &self.table
    }

    pub fn ports(&self) -> usize {
        word(&self.table, 8) as usize
    }

    pub fn clock(&self) -> u32 {
        word(&self.table, 12)
    }

    pub fn tally(&self) -> Tally {
        Tally::read(&self.tally)
    }

    /// Runs one slot. A refused one changes only the tally.
    pub fn slot(&mut self, arrivals: &[Arrival]) -> Result<Answer, Refused> {
        let mut answer = [0; ANSWER_BYTES];
        Refused::of(slot_bytes(&mut self.table, &lent(arrivals), &mut answer, &mut self.tally))?;
        Ok(read_answer(&answer, self.ports()))
    }
}

/// Up to four cues, each with a name and the whole switch to come back to.
pub struct Cues {
    store: Vec<u8>,
}

impl Cues {
    /// No cue is held.
    pub fn start() -> Cues {
        let mut store = vec![0; STORE_BYTES];
        assert_eq!(cue_start_bytes(&mut store), 0, "a store has room for a store");
        Cues { store }
    }

    /// The cues of a store that was kept, if it is sound.
    pub fn from_store(store: Vec<u8>) -> Result<Cues, Refusal> {
        Refusal::of(cue_check_bytes(&store))?;
        Ok(Cues { store })
    }

    /// The cues of a store that a version before 3.0.0 kept, if it is sound.
    pub fn from_old_store(old: &[u8]) -> Result<Cues, Refusal> {
        let mut store = vec![0; STORE_BYTES];
        Refusal::of(convert_cues_bytes(old, &mut store))?;
        Ok(Cues { store })
    }

    pub fn store(&self) -> &[u8] {
        &self.store
    }

    /// The names of the cues that are held, in the order of their places.
    pub fn names(&self) -> Vec<String> {
        let name = |place: &[u8]| place[..NAME_BYTES].iter().take_while(|&&b| b != 0).map(|&b| b as char).collect();
        let places = self.store[16..].chunks(NAME_BYTES + TABLE_BYTES);
        places.map(name).filter(|name: &String| !name.is_empty()).collect()
    }

    /// Holds the switch under this name, in the place of an older cue of the name or in the lowest free one.
    pub fn set(&mut self, name: &str, switch: &Switch) -> Result<(), Refusal> {
        Refusal::of(cue_set_bytes(&switch.table, &mut self.store, name.as_bytes()))
    }

    /// Frees the place of a cue.
    pub fn drop_cue(&mut self, name: &str) -> Result<(), Refusal> {
        Refusal::of(cue_drop_bytes(&mut self.store, name.as_bytes()))
    }

    /// Brings the switch back to where the cue was set. Its tally goes on, and the cue is kept.
    pub fn return_to(&self, name: &str, switch: &mut Switch) -> Result<(), Refusal> {
        Refusal::of(cue_return_bytes(&mut switch.table, &self.store, name.as_bytes()))
    }
}

/// An output-queued switch, a model of the crossbar's outputs: its table, and the tally of its calls.
pub struct Oq {
    table: Vec<u8>,
    tally: [u8; TALLY_BYTES],
}

impl Oq {
    /// A fresh switch of 1 to 16 ports. Bit o of `fair` marks output o; 0 for none.
    pub fn start(ports: u32, first: u32, fair: u32) -> Result<Oq, Refusal> {
        let mut table = vec![0; OQ_TABLE_BYTES];
        Refusal::of(oq_start_bytes(ports, first, fair, &mut table))?;
        Ok(Oq { table, tally: [0; TALLY_BYTES] })
    }

    /// The switch of a table that was kept, if it is sound. The crossbar's tables are not.
    pub fn from_table(table: Vec<u8>) -> Result<Oq, Refusal> {
        Refusal::of(oq_check_bytes(&table))?;
        Ok(Oq { table, tally: [0; TALLY_BYTES] })
    }

    /// The switch of a table that a version before 3.0.0 kept, if it is sound. No output is fair.
    pub fn from_old_table(old: &[u8]) -> Result<Oq, Refusal> {
        let mut table = vec![0; OQ_TABLE_BYTES];
        Refusal::of(oq_convert_bytes(old, &mut table))?;
        Ok(Oq { table, tally: [0; TALLY_BYTES] })
    }

    pub fn table(&self) -> &[u8] {
        &self.table
    }

    pub fn ports(&self) -> usize {
        word(&self.table, 8) as usize
    }

    pub fn clock(&self) -> u32 {
        word(&self.table, 12)
    }

    pub fn tally(&self) -> Tally {
        Tally::read(&self.tally)
    }

    /// Runs one slot: for each output the cell that it sends. A refused one changes only the tally.
    pub fn slot(&mut self, arrivals: &[Arrival]) -> Result<Vec<Option<Cell>>, Refused> {
        let mut answer = [0; OQ_ANSWER_BYTES];
        Refused::of(oq_slot_bytes(&mut self.table, &lent(arrivals), &mut answer, &mut self.tally))?;
        Ok(read_departures(&answer, self.ports()))
    }
}

/// The bytes of arrivals.
fn lent(arrivals: &[Arrival]) -> Vec<u8> {
    arrivals.iter().flat_map(|a| a.bytes()).collect()
}

fn word(bytes: &[u8], at: usize) -> u32 {
    u32::from_le_bytes(bytes[at..at + 4].try_into().unwrap())
}

/// For each of so many outputs the cell that it sends, from the first bytes of an answer.
pub fn read_departures(bytes: &[u8], ports: usize) -> Vec<Option<Cell>> {
    let departure = |output: usize| {
        let at = |field: usize| word(bytes, DEPARTURE_BYTES * output + 4 * field);
        (at(0) != 0).then(|| Cell { input: at(1), output: at(2), flow: at(3), rank: at(4), tag: at(5), slot: at(6) })
    };
    (0..ports).map(departure).collect()
}

/// The answer of a switch of so many ports, from its bytes.
pub fn read_answer(bytes: &[u8], ports: usize) -> Answer {
    let occupancies = |first: usize| (0..ports).map(|output| word(bytes, first + 4 * output)).collect();
    Answer {
        departures: read_departures(bytes, ports),
        proposals: [word(bytes, 448), word(bytes, 452)],
        occupancies: [occupancies(456), occupancies(520)],
    }
}
