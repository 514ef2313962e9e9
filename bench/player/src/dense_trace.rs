//! Writes a trace of sixteen ports that no player refuses, of about so many bytes: in every slot a cell arrives at each
//! input that holds fewer than so many cells. Arguments: the bytes, the cells.

#[path = "../../../host/tests/random/mod.rs"]
mod random;

use random::Random;
use std::cmp::Reverse;
use std::collections::BinaryHeap;
use std::io::{stdout, BufWriter, Write};

const PORTS: usize = 16;
const FLOWS: usize = 8;

/// A PIFO switch, which tells how many cells an input holds: for each output a queue by rank, slot and turn, each with its
/// input.
struct Pifo {
    clock: u64,
    queues: [BinaryHeap<Reverse<(u64, u64, usize, usize)>>; PORTS],
    held: [usize; PORTS],
    highest_rank: [[[u64; FLOWS]; PORTS]; PORTS],
}

impl Pifo {
    /// The block of the next slot.
    fn block(&mut self, random: &mut Random, most: usize) -> String {
        let mut block = format!("slot={}\n", self.clock);
        for input in 0..PORTS {
            if self.held[input] < most {
                block += &self.arrival(random, input);
            }
        }
        self.depart();
        self.clock += 1;
        block
    }

    /// A cell with a rank near the clock, which does not fall within its flow.
    fn arrival(&mut self, random: &mut Random, input: usize) -> String {
        let (output, flow) = (random.below(PORTS as u64) as usize, random.below(FLOWS as u64) as usize);
        let rank = (self.clock + random.below(100)).max(self.highest_rank[input][output][flow]);
        self.highest_rank[input][output][flow] = rank;
        let turn = (input + PORTS - self.clock as usize % PORTS) % PORTS;
        self.queues[output].push(Reverse((rank, self.clock, turn, input)));
        self.held[input] += 1;
        format!("in={input}\nout={output}\nflow={flow}\nrank={rank}\ntag={}\n", random.below(1 << 32))
    }

    fn depart(&mut self) {
        for queue in &mut self.queues {
            if let Some(Reverse((_, _, _, input))) = queue.pop() {
                self.held[input] -= 1;
            }
        }
    }
}

fn argument(k: usize) -> usize {
    std::env::args().nth(k).and_then(|a| a.parse().ok()).expect("two numbers: bytes, and cells an input may hold")
}

fn main() -> std::io::Result<()> {
    let (bytes, most) = (argument(1), argument(2));
    let mut random = Random(88172645463325252);
    let mut pifo = Pifo {
        clock: 0,
        queues: Default::default(),
        held: [0; PORTS],
        highest_rank: [[[0; FLOWS]; PORTS]; PORTS],
    };
    let mut out = BufWriter::new(stdout().lock());
    let mut written = 0;
    write!(out, "ports={PORTS}\nfirst=0\n")?;
    while written < bytes {
        let block = pifo.block(&mut random, most);
        out.write_all(block.as_bytes())?;
        written += block.len();
    }
    writeln!(out, "end={}", pifo.clock)
}
