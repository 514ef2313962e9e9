//! The plain player on an output-queued switch that keeps a heap for each output.

mod play;

use plain_switch::queues::{Cell, Queues};
use plain_switch::PORTS;

struct OutputQueued {
    queues: Queues,
    departures: [Option<Cell>; PORTS],
}

impl play::Switch for OutputQueued {
    fn fresh(ports: u32, first: u32) -> Option<OutputQueued> {
        Some(OutputQueued { queues: Queues::fresh(ports, first)?, departures: [None; PORTS] })
    }

    fn slot(&mut self, arrivals: &[u8]) -> u64 {
        self.queues.slot(arrivals.as_chunks().0, &mut self.departures)
    }

    fn departures(&self) -> impl Iterator<Item = [u32; 5]> {
        (0..).zip(&self.departures).filter_map(|(output, departure)| {
            departure.map(|cell| [output, cell.input(), cell.flow(), cell.rank(), cell.tag()])
        })
    }
}

fn main() {
    play::play_all::<OutputQueued>();
}
