//! Fair outputs on both proved switches, worked out by hand: marks at start, weights, the ranks that are made and remembered,
//! their end, what is refused and in which order. Then long random lists until ranks reach their end.
//!
//! SLOTS=n and SEED=n in the environment run longer or another list.

mod random;
mod reference;
mod traffic;

use crossbar_host::{check_bytes, oq_check_bytes, oq_slot_bytes, oq_start_bytes, slot_bytes, start_bytes};
use crossbar_host::{ANSWER_BYTES, OQ_ANSWER_BYTES, OQ_TABLE_BYTES, TABLE_BYTES, TALLY_BYTES};
use random::{setting, Random};
use reference::oq::OutputQueued;
use reference::{record_bytes, Crossbar, Pifo, Record, CLOCK_END};

/// Where the memory stands in a table, by docs/LAYOUT.md.
const MARKS: usize = 16420;

fn left_at(output: usize) -> usize {
    16424 + 4 * output
}

fn given_at(input: usize, output: usize, flow: usize) -> usize {
    16488 + 4 * (128 * input + 8 * output + flow)
}

fn word(bytes: &[u8], at: usize) -> u32 {
    u32::from_le_bytes(bytes[at..at + 4].try_into().unwrap())
}

/// The calls of either switch.
struct Engine {
    start: fn(u32, u32, u32, &mut [u8]) -> u32,
    check: fn(&[u8]) -> u32,
    slot: fn(&mut [u8], &[u8], &mut [u8], &mut [u8]) -> u64,
    table_bytes: usize,
    answer_bytes: usize,
    number: u8,
}

const ENGINES: [Engine; 2] = [
    Engine {
        start: start_bytes,
        check: check_bytes,
        slot: slot_bytes,
        table_bytes: TABLE_BYTES,
        answer_bytes: ANSWER_BYTES,
        number: 2,
    },
    Engine {
        start: oq_start_bytes,
        check: oq_check_bytes,
        slot: oq_slot_bytes,
        table_bytes: OQ_TABLE_BYTES,
        answer_bytes: OQ_ANSWER_BYTES,
        number: 102,
    },
];

impl Engine {
    fn fresh(&self, ports: u32, first: u32, fair: u32) -> Vec<u8> {
        let mut table = vec![7; self.table_bytes];
        assert_eq!((self.start)(ports, first, fair, &mut table), 0);
        table
    }

    /// Plays a slot, and gives the rank and the tag that leave at each output, or 0 and 0.
    fn played(&self, table: &mut [u8], records: &[Record]) -> Vec<(u32, u32)> {
        let (mut answer, mut tally) = (vec![9; self.answer_bytes], [0; TALLY_BYTES]);
        assert_eq!((self.slot)(table, &record_bytes(records), &mut answer, &mut tally), 0, "{records:?}");
        assert_eq!((self.check)(table), 0, "the table after {records:?}");
        (0..16).map(|output| (word(&answer, 28 * output + 16), word(&answer, 28 * output + 20))).collect()
    }

    /// The same, where output 0 alone sends.
    fn sends(&self, table: &mut [u8], records: &[Record], rank: u32, tag: u32) {
        let sent = self.played(table, records);
        assert_eq!(sent[0], (rank, tag), "{records:?}");
        assert!(sent[1..].iter().all(|&s| s == (0, 0)), "{records:?}");
    }

    /// A slot is refused, and changes no byte but the tally's count of refused slots.
    fn refuses(&self, table: &[u8], records: &[Record], number: u64, place: u64) {
        let (mut t, mut answer, mut tally) = (table.to_vec(), vec![9; self.answer_bytes], [0; TALLY_BYTES]);
        let result = (self.slot)(&mut t, &record_bytes(records), &mut answer, &mut tally);
        assert_eq!(result, number + 256 * place, "{records:?}");
        let mut counted = [0; TALLY_BYTES];
        counted[8] = 1;
        assert!(t == table && answer == vec![9; self.answer_bytes] && tally == counted, "after refusal {number}");
    }
}

/// Every mark of one bit, and some of several, at every size; 4 comes behind 1 and before 10.
#[test]
fn marks_at_start() {
    for engine in ENGINES {
        for ports in 0..=17 {
            let bits = (0..32).map(|bit| 1 << bit);
            let several = [0, 3, 0xff, 0x7fff, 0xffff, 0x1_0000, 0x1_0001, u32::MAX, (1u32 << ports) - 1];
            for fair in bits.chain(several) {
                for room in [engine.table_bytes + 3, engine.table_bytes, engine.table_bytes - 1, 16416, 0] {
                    let mut table = vec![7; room];
                    let want = match () {
                        () if !(1..=16).contains(&ports) => 1,
                        () if fair >> ports != 0 => 4,
                        () if room < engine.table_bytes => 10,
                        () => 0,
                    };
                    assert_eq!((engine.start)(ports, 5, fair, &mut table), want, "{ports} ports, marks {fair:#x}, {room}");
                    let mut old = vec![7; room];
                    if want == 0 {
                        old[..engine.table_bytes].fill(0);
                        (old[0], old[4], old[8], old[12]) = (engine.number, 1, ports as u8, 5);
                        old[MARKS..MARKS + 4].copy_from_slice(&fair.to_le_bytes());
                    }
                    assert!(table == old, "{ports} ports, marks {fair:#x}, {room}");
                }
            }
        }
    }
}

/// In a table marks are only below the number of ports, and the ranks remembered are any.
#[test]
fn marks_and_ranks_in_a_table() {
    for engine in ENGINES {
        for ports in 1..=16 {
            let table = engine.fresh(ports, 5, 0);
            for bit in 0..32 {
                let mut marked = table.clone();
                marked[MARKS..MARKS + 4].copy_from_slice(&(1u32 << bit).to_le_bytes());
                assert_eq!((engine.check)(&marked), if bit < ports { 0 } else { 2 }, "{ports} ports, bit {bit}");
                if bit >= ports {
                    engine.refuses(&marked, &[], 2, 0);
                }
            }
            let mut any = table.clone();
            for at in MARKS + 4..engine.table_bytes {
                any[at] = 255 - (at % 7) as u8;
                if at % 97 == 0 {
                    assert_eq!((engine.check)(&any), 0, "a rank at {at}");
                }
            }
            assert_eq!((engine.check)(&any), 0);
            assert_eq!((engine.check)(&any[..any.len() - 1]), 2);
        }
    }
}

#[test]
fn ranks_by_hand() {
    for engine in ENGINES {
        let mut table = engine.fresh(3, 0, 1);
        // Nothing was given and nothing has left: the stride alone. 1,048,576 ÷ 3 is 349,525 and a third.
        engine.sends(&mut table, &[[0, 0, 0, 3, 1], [1, 0, 0, 1024, 2], [2, 0, 0, 1, 3]], 1024, 2);
        assert_eq!(word(&table, given_at(0, 0, 0)), 349_525);
        assert_eq!(word(&table, given_at(1, 0, 0)), 1024);
        assert_eq!(word(&table, given_at(2, 0, 0)), 1_048_576);
        assert_eq!(word(&table, left_at(0)), 1024);
        // Input 0 goes on from its own last rank, input 1 and a flow that is new from the one that left.
        engine.sends(&mut table, &[[0, 0, 0, 3, 4], [1, 0, 0, 1000, 5], [2, 0, 7, 2, 6]], 1024 + 1048, 5);
        assert_eq!(word(&table, given_at(0, 0, 0)), 699_050);
        assert_eq!(word(&table, given_at(2, 0, 7)), 1024 + 524_288);
        assert_eq!(word(&table, left_at(0)), 2072);
        engine.sends(&mut table, &[], 349_525, 1);
        // The rank that left is larger than the one given: the flow saved up nothing.
        engine.sends(&mut table, &[[1, 0, 0, 1024, 7]], 349_525 + 1024, 7);
        for (rank, tag) in [(525_312, 6), (699_050, 4), (1_048_576, 3), (0, 0)] {
            engine.sends(&mut table, &[], rank, tag);
        }
        // A slot in which nothing leaves keeps what left.
        assert_eq!(word(&table, left_at(0)), 1_048_576);
        engine.sends(&mut table, &[[1, 0, 0, 1024, 8]], 1_049_600, 8);
    }
}

/// An output that is not fair takes ranks as they are and remembers nothing, beside one that is.
#[test]
fn a_fair_output_beside_another() {
    for engine in ENGINES {
        let mut table = engine.fresh(2, 0, 2);
        let sent = engine.played(&mut table, &[[0, 0, 0, 5, 1], [1, 1, 0, 5, 2]]);
        assert_eq!(sent[..2], [(5, 1), (209_715, 2)]);
        assert_eq!((word(&table, left_at(0)), word(&table, left_at(1))), (0, 209_715));
        assert_eq!((word(&table, given_at(0, 0, 0)), word(&table, given_at(1, 1, 0))), (0, 209_715));
        // Ranks that are no weights, at the output that is not fair.
        assert_eq!(engine.played(&mut table, &[[0, 0, 0, 0, 3]])[0], (0, 3));
        assert_eq!(engine.played(&mut table, &[[0, 0, 0, u32::MAX, 4]])[0], (u32::MAX, 4));
        // What is remembered of it stays as it is.
        table[left_at(0)] = 9;
        table[given_at(0, 0, 0)] = 8;
        assert_eq!(engine.played(&mut table, &[[0, 0, 0, 7, 5]])[0], (7, 5));
        assert_eq!((word(&table, left_at(0)), word(&table, given_at(0, 0, 0))), (9, 8));
    }
}

/// Input 0 has twice the weight of input 1, and both always have cells waiting: it sends two of three.
#[test]
fn shares_by_weight() {
    for engine in ENGINES {
        let mut table = engine.fresh(2, 0, 1);
        let mut of_input_0 = 0;
        for slot in 0..300 {
            // Neither may have more than 64 cells in the switch.
            let counts = [table[20], table[21]];
            let weights = [20, 10];
            let records: Vec<Record> =
                (0..2).filter(|&i| counts[i] < 8).map(|i| [i as u32, 0, 0, weights[i], i as u32]).collect();
            let sent = engine.played(&mut table, &records);
            assert!(sent[0].0 != 0, "slot {slot}");
            of_input_0 += u32::from(sent[0].1 == 0);
        }
        assert!((199..=201).contains(&of_input_0), "{of_input_0} of 300");
    }
}

#[test]
fn refusals_by_hand() {
    for engine in ENGINES {
        let mut table = engine.fresh(3, 7, 0b101);
        engine.played(&mut table, &[[0, 0, 0, 1, 1], [1, 0, 0, 1, 2], [2, 1, 0, 9, 3]]);
        engine.played(&mut table, &[[0, 1, 0, 9, 4], [2, 1, 0, 20, 5]]);
        for weight in [0, 1025, 1026, 65536, 1 << 31, u32::MAX] {
            engine.refuses(&table, &[[0, 0, 0, weight, 4]], 14, 1);
            engine.refuses(&table, &[[0, 0, 0, 1, 4], [2, 2, 7, weight, 4]], 14, 2);
        }
        // 4, 5 and 6 come before 14; 14 comes before a later record's 4.
        engine.refuses(&table, &[[0, 3, 0, 0, 4]], 4, 1);
        engine.refuses(&table, &[[3, 0, 0, 0, 4]], 4, 1);
        engine.refuses(&table, &[[0, 0, 8, 0, 4]], 5, 1);
        engine.refuses(&table, &[[1, 0, 0, 1, 4], [1, 0, 1, 0, 4]], 6, 2);
        engine.refuses(&table, &[[0, 0, 0, 0, 4], [3, 0, 0, 0, 4]], 14, 1);
        // Output 1 is not fair: 7, and no weight is asked for.
        engine.refuses(&table, &[[2, 1, 0, 19, 4]], 7, 1);
        engine.refuses(&table, &[[0, 0, 0, 1, 4], [2, 1, 0, 0, 4]], 7, 2);
        // A refused slot remembers nothing: the same records then pass as if it had not been.
        let mut again = table.clone();
        engine.refuses(&table, &[[0, 0, 0, 2, 6], [1, 2, 0, 0, 7]], 14, 2);
        engine.played(&mut table, &[[0, 0, 0, 2, 6]]);
        assert_eq!(word(&table, given_at(0, 0, 0)), 1_048_576 + 524_288);
        engine.played(&mut again, &[[0, 0, 0, 2, 6]]);
        assert!(table == again);
    }
}

/// A table whose memory is behind the cells that wait in it: there 7 goes by the rank made, and 14 and 15 come before it.
#[test]
fn falling_rank_by_the_rank_made() {
    for engine in ENGINES {
        let mut table = engine.fresh(2, 0, 1);
        engine.played(&mut table, &[[0, 0, 0, 1, 1], [1, 0, 0, 2, 2]]);
        // The cell of input 0 waits with rank 1,048,576; the output has sent 524,288.
        table[given_at(0, 0, 0)..][..4].fill(0);
        engine.refuses(&table, &[[0, 0, 0, 1024, 3]], 7, 1);
        engine.refuses(&table, &[[0, 0, 0, 3, 3]], 7, 1);
        engine.refuses(&table, &[[0, 0, 0, 0, 3]], 14, 1);
        let mut at_end = table.clone();
        at_end[left_at(0)..][..4].fill(255);
        engine.refuses(&at_end, &[[0, 0, 0, 1024, 3]], 15, 1);
        engine.sends(&mut table, &[[0, 0, 0, 2, 3]], 1_048_576, 1);
    }
}

/// 4,096 strides of weight 1 are 4,294,967,296: the 4,095th cell passes and the next is refused with 15; of the largest
/// weight no more than 1,023 fits.
#[test]
fn the_end_of_ranks() {
    for engine in ENGINES {
        let mut table = engine.fresh(2, 0, 1);
        for cell in 1..4096 {
            engine.sends(&mut table, &[[0, 0, 0, 1, cell]], cell * 1_048_576, cell);
        }
        engine.refuses(&table, &[[0, 0, 0, 1, 0]], 15, 1);
        engine.refuses(&table, &[[1, 0, 3, 1, 0]], 15, 1);
        engine.refuses(&table, &[[0, 0, 0, 0, 0]], 14, 1);
        engine.refuses(&table, &[[0, 0, 0, 1, 0], [0, 2, 0, 0, 0]], 15, 1);
        for cell in 1..1024 {
            engine.sends(&mut table, &[[1, 0, 0, 1024, cell]], 4_293_918_720 + 1024 * cell, cell);
        }
        // 1,023 are left: too few for any stride.
        engine.refuses(&table, &[[1, 0, 0, 1024, 0]], 15, 1);
        let mut last = table.clone();
        last[left_at(0)..][..4].copy_from_slice(&(u32::MAX - 1024).to_le_bytes());
        last[given_at(1, 0, 0)..][..4].fill(0);
        engine.sends(&mut last, &[[1, 0, 0, 1024, 5]], u32::MAX, 5);
        // The other output goes on.
        assert_eq!(engine.played(&mut table, &[[0, 1, 0, 77, 1]])[1], (77, 1));
    }
}

/// 3 comes before 14, and 64 cells of an input are 8 behind a weight that is none.
#[test]
fn the_clocks_end_and_full_inputs() {
    for engine in ENGINES {
        let table = engine.fresh(2, CLOCK_END, 3);
        engine.refuses(&table, &[[0, 0, 0, 0, 0]], 3, 0);
        let mut table = engine.fresh(2, 0, 1);
        // Input 0 has the larger weight and leaves first.
        for slot in 0..64 {
            engine.sends(&mut table, &[[0, 0, 0, 1024, slot], [1, 0, 0, 1, slot]], 1024 * (slot + 1), slot);
        }
        engine.refuses(&table, &[[1, 0, 0, 1, 0]], 8, 1);
        engine.refuses(&table, &[[1, 0, 5, 1025, 0]], 14, 1);
    }
}

/// Both outputs of a switch of two are fair and all weights are 1, until every slot with arrivals is refused with 15: the
/// proved switches, their references and the PIFO switch in step, byte by byte.
#[test]
fn lists_to_the_end_of_ranks() {
    let mut r = Random(setting("SEED", 1) * 2 + 88172645463325252);
    for _ in 0..1 + setting("SLOTS", 500_000) / 250_000 {
        let first = r.below(1000) as u32;
        let mut tables = [ENGINES[0].fresh(2, first, 3), ENGINES[1].fresh(2, first, 3)];
        let (mut crossbar, mut oq) = (Crossbar::fresh(2, first, 3), OutputQueued::fresh(2, first, 3));
        let mut pifo = Pifo::fresh(2, first, 3);
        let mut ended = 0;
        while ended < 50 {
            let mut records = Vec::new();
            for input in 0..2 {
                if r.below(10) < 6 {
                    records.push([input, r.below(2) as u32, r.below(2) as u32, 1, r.next() as u32]);
                }
            }
            let sent = pifo.slot(&records);
            assert_eq!(crossbar.slot(&records).map(|a| a.departures), sent);
            assert_eq!(oq.slot(&records), sent);
            let want = sent.map_or_else(|(n, place)| u64::from(n) + 256 * u64::from(place), |_| 0);
            for (engine, table) in ENGINES.iter().zip(&mut tables) {
                let (mut answer, mut tally) = (vec![0; engine.answer_bytes], [0; TALLY_BYTES]);
                assert_eq!((engine.slot)(table, &record_bytes(&records), &mut answer, &mut tally), want, "{records:?}");
            }
            assert!(tables[0] == crossbar.table() && tables[1] == oq.table(), "{records:?}");
            ended += u32::from(want % 256 == 15);
        }
    }
}
