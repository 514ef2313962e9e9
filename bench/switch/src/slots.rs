//! Times the proved switches and the plain ones on the same tables and arrivals, and first compares every byte that they
//! write: the crossbar, and the output-queued switch on the same lists of slots. A time is processor time, the best of many
//! rounds for each short stretch of calls, so that a busy machine disturbs little. Prints a line a figure, its fields parted
//! by tabs.

#[allow(dead_code)] // only its calls on byte slices are used
#[path = "../../../host/src/lib.rs"]
mod proved;

use plain_switch::load::{Load, Random};
use plain_switch::{Table, ANSWER_BYTES, ARRIVAL_BYTES, DEPARTURE_BYTES, PORTS, TABLE_BYTES, TALLY_BYTES};
use plain_switch::{OQ_ANSWER_BYTES, OQ_TABLE_BYTES};
use std::hint::black_box;
use std::ops::Range;

const LOADS: [usize; 6] = [4, 8, 16, 32, 48, 64];
const SLOTS: usize = 2000;
const ROUNDS: usize = 40;
/// The calls that are timed together.
const STRETCH: usize = 50;
/// A table for `check` is kept every so many slots.
const KEEP_EVERY: usize = 20;

type Slot = fn(&mut [u8], &[u8], &mut [u8], &mut [u8]) -> u64;
type Check = fn(&[u8]) -> u32;

/// The calls of a switch, the proved ones and the plain ones, and its sizes.
struct Engine {
    start: fn(u32, u32, u32, &mut [u8]) -> u32,
    slot: [Slot; 2],
    check: [Check; 2],
    table_bytes: usize,
    answer_bytes: usize,
}

const CROSSBAR: &Engine = &Engine {
    start: proved::start_bytes,
    slot: [proved::slot_bytes, plain_switch::slot],
    check: [proved::check_bytes, plain_switch::check],
    table_bytes: TABLE_BYTES,
    answer_bytes: ANSWER_BYTES,
};

const OQ: &Engine = &Engine {
    start: proved::oq_start_bytes,
    slot: [proved::oq_slot_bytes, plain_switch::oq_slot],
    check: [proved::oq_check_bytes, plain_switch::oq_check],
    table_bytes: OQ_TABLE_BYTES,
    answer_bytes: OQ_ANSWER_BYTES,
};

/// What a slot call is lent and changes.
#[derive(Clone, PartialEq)]
struct Lent {
    table: Vec<u8>,
    answer: Vec<u8>,
    tally: [u8; TALLY_BYTES],
}

impl Lent {
    fn new(engine: &Engine, table: &[u8]) -> Lent {
        Lent { table: table.to_vec(), answer: vec![0; engine.answer_bytes], tally: [0; TALLY_BYTES] }
    }

    fn call(&mut self, slot: Slot, arrivals: &[u8]) -> u64 {
        slot(&mut self.table, arrivals, &mut self.answer, &mut self.tally)
    }

    /// The cells, behind the number of the layout.
    fn shared(&self) -> &Table {
        self.table[4..].first_chunk().unwrap()
    }

    fn cells(&self) -> usize {
        self.shared()[16..32].iter().map(|count| *count as usize).sum()
    }

    /// None in the answer of a switch without phases.
    fn proposals(&self) -> u32 {
        let words = self.answer[PORTS * DEPARTURE_BYTES..].as_chunks().0;
        words.iter().take(2).map(|phase| u32::from_le_bytes(*phase)).sum()
    }
}

/// A list of slots under steady load: the first table, the arrivals of each slot, and some of the tables between.
struct List {
    engine: &'static Engine,
    first: Vec<u8>,
    arrivals: Vec<Vec<u8>>,
    tables: Vec<Vec<u8>>,
}

impl List {
    fn new(engine: &'static Engine, mut load: Load) -> List {
        let mut lent = Lent::new(engine, &vec![0; engine.table_bytes]);
        assert_eq!((engine.start)(PORTS as u32, 0, load.fair, &mut lent.table), 0);
        let mut next = |lent: &mut Lent| {
            let arrivals = load.arrivals(lent.shared());
            assert_eq!(lent.call(engine.slot[1], &arrivals), 0);
            arrivals
        };
        for _ in 0..SLOTS {
            next(&mut lent);
        }
        let mut list = List { engine, first: lent.table.clone(), arrivals: Vec::new(), tables: Vec::new() };
        for k in 0..SLOTS {
            if k % KEEP_EVERY == 0 {
                list.tables.push(lent.table.clone());
            }
            list.arrivals.push(next(&mut lent));
        }
        list
    }

    /// Times the slots once more, by both sides. Copying the first table is not counted.
    fn time_slot(&self, times: &mut Times, round: usize) {
        let mut lent = [(); 2].map(|_| Lent::new(self.engine, &self.first));
        times.improve(round, |side, calls| {
            for arrivals in &self.arrivals[calls] {
                black_box(&mut lent[side]).call(self.engine.slot[side], arrivals);
            }
        });
    }

    /// Times the checks once more, by both.
    fn time_check(&self, times: &mut Times, round: usize) {
        times.improve(round, |side, calls| {
            for k in calls {
                let table = black_box(&self.tables[k % self.tables.len()]);
                black_box(self.engine.check[side](table));
            }
        });
    }
}

/// The load that a list really has. `with_proposals` is the share of the slots that make some.
#[derive(Clone, Copy, Default)]
struct Means {
    cells_an_input: f64,
    arrivals: f64,
    with_proposals: f64,
    proposals: f64,
}

/// Runs the list on both sides and compares every byte.
fn compare(list: &List) -> Means {
    let [mut ours, mut theirs] = [(); 2].map(|_| Lent::new(list.engine, &list.first));
    let mut means = Means::default();
    for arrivals in &list.arrivals {
        means.cells_an_input += ours.cells() as f64 / (PORTS * SLOTS) as f64;
        let [proved, plain] = list.engine.slot;
        let results = (ours.call(proved, arrivals), theirs.call(plain, arrivals));
        assert!(results == (0, 0) && ours == theirs, "the switches part");
        means.arrivals += (arrivals.len() / ARRIVAL_BYTES) as f64 / SLOTS as f64;
        means.with_proposals += (ours.proposals() > 0) as u32 as f64 / SLOTS as f64;
        means.proposals += ours.proposals() as f64 / SLOTS as f64;
    }
    means
}

/// Compares check and slot on the tables of the list with one byte changed.
fn compare_damaged(list: &List) {
    let mut random = Random(88172645463325252);
    for table in list.tables.iter().cycle().take(SLOTS) {
        let mut ours = Lent::new(list.engine, table);
        let at = random.below(table.len() as u32) as usize;
        ours.table[at] = random.below(32) as u8;
        let mut theirs = ours.clone();
        let ([slot, plain_slot], [check, plain_check]) = (list.engine.slot, list.engine.check);
        assert_eq!(check(&ours.table), plain_check(&theirs.table), "the checks part");
        let results = (ours.call(slot, &[]), theirs.call(plain_slot, &[]));
        assert!(results.0 == results.1 && ours == theirs, "the switches part on a damaged table");
    }
}

/// The best times so far of each stretch in nanoseconds, of the proved side and of the plain one.
struct Times([[f64; 2]; SLOTS / STRETCH]);

impl Times {
    fn none() -> Times {
        Times([[f64::MAX; 2]; SLOTS / STRETCH])
    }

    /// Times the calls of each stretch once more. Both sides do a stretch before the next one comes, so that a slow spell
    /// of the machine meets both; they take turns in going first, since the second finds the list in the cache.
    fn improve(&mut self, round: usize, mut calls: impl FnMut(usize, Range<usize>)) {
        for (stretch, best) in self.0.iter_mut().enumerate() {
            for turn in 0..2 {
                let side = (round + stretch + turn) % 2;
                let from = processor_time();
                calls(side, STRETCH * stretch..STRETCH * (stretch + 1));
                best[side] = best[side].min(processor_time() - from);
            }
        }
    }

    /// Nanoseconds a call of either side.
    fn of_a_call(&self) -> [f64; 2] {
        [0, 1].map(|side| self.0.iter().map(|best| best[side]).sum::<f64>() / SLOTS as f64)
    }
}

/// Nanoseconds of processor time.
fn processor_time() -> f64 {
    #[repr(C)]
    struct Time {
        seconds: i64,
        nanoseconds: i64,
    }
    extern "C" {
        fn clock_gettime(clock: i32, time: *mut Time) -> i32;
    }
    const PROCESS_CPUTIME: i32 = 2;
    let mut time = Time { seconds: 0, nanoseconds: 0 };
    assert_eq!(unsafe { clock_gettime(PROCESS_CPUTIME, &mut time) }, 0);
    1e9 * time.seconds as f64 + time.nanoseconds as f64
}

/// All that is measured of a switch at one load.
struct Measured {
    list: List,
    means: Means,
    slot: Times,
    check: Times,
}

impl Measured {
    fn new(engine: &'static Engine, load: Load) -> Measured {
        let list = List::new(engine, load);
        let means = compare(&list);
        compare_damaged(&list);
        Measured { list, means, slot: Times::none(), check: Times::none() }
    }

    fn measure(&mut self, round: usize) {
        self.list.time_slot(&mut self.slot, round);
        self.list.time_check(&mut self.check, round);
    }

    fn print_slot(&self, name: &str) {
        let Means { cells_an_input, arrivals, with_proposals, proposals } = self.means;
        let [proved, plain] = self.slot.of_a_call();
        print!("{name}\t{cells_an_input:.1}\t{proved:.0}\t{plain:.0}\t{:.2}", proved / plain);
        println!("\t{arrivals:.1}\t{:.0}\t{proposals:.1}", 100.0 * with_proposals);
    }

    fn print_check(&self, name: &str) {
        let [proved, plain] = self.check.of_a_call();
        println!("{name}\t{:.1}\t{proved:.0}\t{plain:.0}\t{:.2}", self.means.cells_an_input, proved / plain);
    }
}

/// One list on both switches, which have the same cells in every slot.
struct Both {
    crossbar: Measured,
    oq: Measured,
}

impl Both {
    fn new(load: impl Fn() -> Load) -> Both {
        let (crossbar, oq) = (Measured::new(CROSSBAR, load()), Measured::new(OQ, load()));
        assert!(crossbar.list.arrivals == oq.list.arrivals, "the lists part");
        Both { crossbar, oq }
    }

    fn measure(&mut self, round: usize) {
        self.crossbar.measure(round);
        self.oq.measure(round);
    }

    /// The output-queued switch, and the proved crossbar beside it.
    fn print_oq(&self, name: &str, times: impl Fn(&Measured) -> &Times) {
        let ([proved, plain], [crossbar, _]) = (times(&self.oq).of_a_call(), times(&self.crossbar).of_a_call());
        let cells = self.oq.means.cells_an_input;
        print!("{name}\t{cells:.1}\t{proved:.0}\t{plain:.0}\t{:.2}", proved / plain);
        println!("\t{crossbar:.0}\t{:.2}", proved / crossbar);
    }
}

/// What a cell more costs, from the lowest load to the highest.
fn print_growth<'a>(name: &str, measured: impl Iterator<Item = &'a Measured>, times: impl Fn(&Measured) -> &Times) {
    let measured: Vec<&Measured> = measured.collect();
    let (lowest, highest) = (measured[0], measured[measured.len() - 1]);
    let cells = PORTS as f64 * (highest.means.cells_an_input - lowest.means.cells_an_input);
    let (low, high) = (times(lowest).of_a_call(), times(highest).of_a_call());
    let [proved, plain] = [0, 1].map(|k| (high[k] - low[k]) / cells);
    println!("{name}\teach\t{proved:.1}\t{plain:.1}\t{:.2}", proved / plain);
}

fn main() {
    let mut measured = LOADS.map(|cells| Both::new(|| Load::new(cells)));
    let mut starving = Both::new(|| Load::starving(LOADS[LOADS.len() - 1]));
    let mut ties = Both::new(|| Load::ties(LOADS[LOADS.len() / 2]));
    let mut fair = LOADS.map(|cells| Both::new(|| Load::fair(cells)));
    // Round by round, so that a slow spell of the machine spoils no line.
    for round in 0..ROUNDS {
        measured.iter_mut().for_each(|m| m.measure(round));
        starving.measure(round);
        ties.measure(round);
        fair.iter_mut().for_each(|m| m.measure(round));
    }
    let crossbar = || measured.iter().map(|m| &m.crossbar);
    let oq = || measured.iter().map(|m| &m.oq);
    println!("# A slot through the C interface at N = {PORTS}, every byte compared first; nanoseconds, best of {ROUNDS}.");
    println!("# A load is the cells waiting an input; \"each\" is a cell more, from the first line to the last.");
    println!("#\tload\tproved\tplain\tratio\tarrived\tmatch %\tproposals");
    crossbar().for_each(|m| m.print_slot("slot"));
    print_growth("slot", crossbar(), |m| &m.slot);
    println!("# The check of a table alone, likewise.");
    println!("#\tload\tproved\tplain\tratio");
    crossbar().for_each(|m| m.print_check("check"));
    print_growth("check", crossbar(), |m| &m.check);
    println!("# Both where cells starve: they wait so long that the low bytes of their slots meet.");
    starving.crossbar.print_slot("starving slot");
    starving.crossbar.print_check("starving check");
    println!("# Both where all ranks are equal: slots and turns alone decide.");
    ties.crossbar.print_slot("ties slot");
    ties.crossbar.print_check("ties check");
    println!("# A slot where every output is fair: ranks are made of weights.");
    fair.iter().for_each(|m| m.crossbar.print_slot("fair slot"));
    println!("# The output-queued switch on the same lists; beside it the proved crossbar, and the ratio to that.");
    println!("#\tload\tproved\tplain\tratio\tcrossbar\tratio");
    measured.iter().for_each(|m| m.print_oq("oq slot", |m| &m.slot));
    print_growth("oq slot", oq(), |m| &m.slot);
    measured.iter().for_each(|m| m.print_oq("oq check", |m| &m.check));
    print_growth("oq check", oq(), |m| &m.check);
    starving.print_oq("starving oq slot", |m| &m.slot);
    starving.print_oq("starving oq check", |m| &m.check);
    ties.print_oq("ties oq slot", |m| &m.slot);
    ties.print_oq("ties oq check", |m| &m.check);
    fair.iter().for_each(|m| m.print_oq("fair oq slot", |m| &m.slot));
}
