//! What this crate reads out of an answer of either switch, on the show of scope 9.3 worked out by hand.

use crossbar_host::{read_answer, Answer, Arrival, Cell, Oq, Refusal, Refused, Switch, Tally, ANSWER_BYTES};

fn arrival(input: u32, flow: u32, rank: u32, tag: u32) -> Arrival {
    Arrival { input, output: 0, flow, rank, tag }
}

/// The answer of a slot in which output 0 of three sends a cell, and the others nothing.
fn sends(cell: Cell, proposals: [u32; 2], [first, second]: [u32; 2]) -> Answer {
    let occupancies = [vec![first, 0, 0], vec![second, 0, 0]];
    Answer { departures: vec![Some(cell), None, None], proposals, occupancies }
}

#[test]
fn the_show_of_scope_9_3() {
    let mut switch = Switch::start(3, 0, 0).unwrap();
    let cell = |input, flow, rank, tag, slot| Cell { input, output: 0, flow, rank, tag, slot };
    let got = switch.slot(&[arrival(0, 0, 9, 1), arrival(1, 0, 1, 2), arrival(2, 0, 2, 3)]);
    assert_eq!(got, Ok(sends(cell(1, 0, 1, 2, 0), [0, 0], [3, 2])));
    let got = switch.slot(&[arrival(0, 1, 0, 4), arrival(2, 0, 1, 5)]);
    assert_eq!(got, Err(Refused { refusal: Refusal::RankOrder, place: 2 }));
    let got = switch.slot(&[arrival(0, 1, 0, 4)]);
    assert_eq!(got, Ok(sends(cell(0, 1, 0, 4, 1), [1, 0], [1, 1])));
    let got = switch.slot(&[]);
    assert_eq!(got, Ok(sends(cell(2, 0, 2, 3, 0), [0, 0], [0, 0])));
}

/// Each occupancy is read from its own place, and none for an output that the switch does not have.
#[test]
fn occupancies_in_their_places() {
    let mut bytes = [0; ANSWER_BYTES];
    for output in 0..16 {
        bytes[456 + 4 * output] = 1 + output as u8;
        bytes[520 + 4 * output] = 17 + output as u8;
    }
    for ports in 1..=16 {
        let last = ports as u32;
        let want = [(1..=last).collect::<Vec<u32>>(), (17..=16 + last).collect()];
        assert_eq!(read_answer(&bytes, ports).occupancies, want);
    }
}

/// The same show on the output-queued switch, whose table is kept and taken up again in the middle.
#[test]
fn the_show_on_the_output_queued_switch() {
    let mut oq = Oq::start(3, 0, 0).unwrap();
    let sends = |input, flow, rank, tag, slot| Ok(vec![Some(Cell { input, output: 0, flow, rank, tag, slot }), None, None]);
    assert_eq!(oq.slot(&[arrival(0, 0, 9, 1), arrival(1, 0, 1, 2), arrival(2, 0, 2, 3)]), sends(1, 0, 1, 2, 0));
    let refused = Err(Refused { refusal: Refusal::RankOrder, place: 2 });
    assert_eq!(oq.slot(&[arrival(0, 1, 0, 4), arrival(2, 0, 1, 5)]), refused);
    assert_eq!(oq.slot(&[arrival(0, 1, 0, 4)]), sends(0, 1, 0, 4, 1));
    assert_eq!(oq.tally(), Tally { slots_run: 2, slots_refused: 1, cells_in: 4, cells_out: 2 });
    let mut oq = Oq::from_table(oq.table().to_vec()).unwrap();
    assert_eq!((oq.ports(), oq.clock(), oq.tally()), (3, 2, Tally::default()));
    assert_eq!(oq.slot(&[]), sends(2, 0, 2, 3, 0));
    assert_eq!(oq.slot(&[]), sends(0, 0, 9, 1, 0));
    assert_eq!(oq.slot(&[]), Ok(vec![None; 3]));

    assert_eq!(Oq::start(17, 0, 0).err(), Some(Refusal::BadSize));
    let crossbar = Switch::start(3, 0, 0).unwrap();
    assert_eq!(Oq::from_table(crossbar.table().to_vec()).err(), Some(Refusal::BrokenTable));
    assert_eq!(Switch::from_table(oq.table().to_vec()).err(), Some(Refusal::BrokenTable));
}
