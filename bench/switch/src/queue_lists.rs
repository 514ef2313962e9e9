//! `queues` beside the PIFO switch of the host's tests, on random lists of slots.

use crate::queues::Queues;
use crate::Arrival;

#[path = "../../../host/tests/random/mod.rs"]
mod random;
#[path = "../../../host/tests/reference/mod.rs"]
mod reference;
#[path = "../../../host/tests/traffic/mod.rs"]
mod traffic;

use random::{setting, Random};
use reference::{record_bytes, Cell, Pifo, Sent, CLOCK_END};
use traffic::Traffic;

/// What the queues come to, as the reference tells it.
fn sent(queues: &mut Queues, records: &[Arrival], ports: u32) -> Sent {
    let mut departures = [None; 16];
    match queues.slot(records, &mut departures) {
        0 => {
            let cell = |(output, departure): (u32, Option<crate::queues::Cell>)| {
                let c = departure?;
                Some(Cell { input: c.input(), output, flow: c.flow(), rank: c.rank(), tag: c.tag(), slot: c.slot() })
            };
            assert!(departures[ports as usize..].iter().all(|d| d.is_none()));
            Ok((0..ports).zip(departures).map(cell).collect())
        }
        r => Err(((r % 256) as u32, (r / 256) as u32)),
    }
}

#[test]
fn random_lists() {
    let slots = setting("SLOTS", 500_000);
    let mut r = Random(setting("SEED", 1) * 2 + 88172645463325252);
    let (mut done, mut refused) = (0, [0u64; 11]);
    while done < slots {
        let ports = 1 + r.below(16) as u32;
        let first = r.pick(&[0, 1, 77, 4_000_000_000, CLOCK_END - 40, CLOCK_END]);
        let (mut queues, mut pifo) = (Queues::fresh(ports, first).unwrap(), Pifo::fresh(ports, first, 0));
        let mut traffic = Traffic::new(&mut r, ports);
        let length = r.pick(&[10, 100, 400]);
        for _ in 0..length {
            let records = traffic.records(&mut r, &pifo);
            let want = pifo.slot(&records);
            assert_eq!(sent(&mut queues, record_bytes(&records).as_chunks().0, ports), want, "at {records:?}");
            refused[want.map_or_else(|(n, _)| n as usize, |_| 0)] += 1;
            done += 1;
        }
    }
    assert!((0..=8).filter(|&n| n != 1 && n != 2).all(|n| refused[n] > 0), "some refusal never came: {refused:?}");
}
