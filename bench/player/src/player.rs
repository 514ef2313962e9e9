//! The plain player on the plain crossbar, whose table it keeps and trusts.

mod play;

use plain_switch::{start_cells, trusted_slot, Table, ANSWER_BYTES, CELL_TABLE_BYTES, DEPARTURE_BYTES, PORTS, TALLY_BYTES};

struct Crossbar {
    table: Table,
    answer: [u8; ANSWER_BYTES],
    tally: [u8; TALLY_BYTES],
}

impl play::Switch for Crossbar {
    fn fresh(ports: u32, first: u32) -> Option<Crossbar> {
        let mut table = [0; CELL_TABLE_BYTES];
        let done = start_cells(ports, first, &mut table) == 0;
        done.then_some(Crossbar { table, answer: [0; ANSWER_BYTES], tally: [0; TALLY_BYTES] })
    }

    fn slot(&mut self, arrivals: &[u8]) -> u64 {
        trusted_slot(&mut self.table, arrivals, &mut self.answer, &mut self.tally)
    }

    fn departures(&self) -> impl Iterator<Item = [u32; 5]> {
        self.answer[..PORTS * DEPARTURE_BYTES].chunks_exact(DEPARTURE_BYTES).filter_map(|departure| {
            let field = |at: usize| u32::from_le_bytes(departure[at..at + 4].try_into().unwrap());
            (field(0) != 0).then(|| [field(8), field(4), field(12), field(16), field(20)])
        })
    }
}

fn main() {
    play::play_all::<Crossbar>();
}
