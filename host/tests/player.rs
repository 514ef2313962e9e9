//! Traces, whole and damaged, through the programs `crossbar-player` and `oq-player`: all that each of them writes is
//! compared with the reference player's, and its exit status with how that ends.
//!
//! PLAYER and OQ_PLAYER in the environment are the programs' full paths; TEXTS=n and SEED=n play more texts or others.

mod random;
mod reference;

use random::{setting, Random};
use reference::player::play;
use reference::{Crossbar, Pifo, Record, Waiting, CLOCK_END};
use std::fs::File;
use std::io::{Read, Write};
use std::os::fd::OwnedFd;
use std::os::unix::net::UnixStream;
use std::path::{Path, PathBuf};
use std::process::{Child, Command};
use std::thread::sleep;
use std::time::Duration;

/// No text here takes a program more than milliseconds, the long one a second.
const TIME_LIMIT: Duration = Duration::from_secs(20);

/// The paths of both programs.
fn programs() -> [String; 2] {
    [("PLAYER", "crossbar-player"), ("OQ_PLAYER", "oq-player")].map(|(variable, program)| {
        let path = std::env::var(variable)
            .unwrap_or_else(|_| panic!("{variable} must be set to the full path of the program `{program}`"));
        assert!(Path::new(&path).is_file(), "{variable} is {path}, and there is no such file");
        path
    })
}

/// 0 where the trace is played to its end, and 1 where it is refused.
fn status_after(want: &[u8]) -> i32 {
    let last = want.strip_suffix(b"\n").and_then(|lines| lines.rsplit(|&b| b == b'\n').next());
    if last.is_some_and(|line| line.starts_with(b"end=")) {
        0
    } else {
        1
    }
}

/// A program that plays a text.
struct Playing {
    child: Child,
    stdout: UnixStream,
}

impl Playing {
    /// Its output is a socket, since a read from a pipe has no time limit.
    fn start(program: &str, stdin: impl Into<OwnedFd>) -> Playing {
        let (reading, stdout) = UnixStream::pair().unwrap();
        let child = Command::new(program)
            .env_clear() // cargo's library paths would slow down every start
            .stdin(stdin.into())
            .stdout(OwnedFd::from(stdout))
            .spawn()
            .expect("the program starts");
        Playing { child, stdout: reading }
    }

    /// A fault is that it does not write just what is wanted and end with its status.
    fn fault(mut self, want: &[u8]) -> Option<String> {
        let got = read(self.stdout, want.len() + 1);
        if got.as_deref().ok() != Some(want) {
            self.child.kill().unwrap();
        }
        let status = self.child.wait().unwrap();
        match got {
            Err(_) => Some(format!("does not end in {TIME_LIMIT:?}")),
            Ok(got) if got != want => Some(difference(&got, want)),
            Ok(_) if status.code() != Some(status_after(want)) => Some(format!("ends with {status}")),
            Ok(_) => None,
        }
    }
}

/// Feeds a text to programs, so many bytes at a time. A write fails where a program ends before it has read all. The pauses
/// let it read piece by piece.
fn feed(mut stdins: Vec<UnixStream>, text: &[u8], piece: usize) {
    for (k, part) in text.chunks(piece).enumerate() {
        if k > 0 {
            sleep(Duration::from_micros(300));
        }
        stdins.retain_mut(|stdin| stdin.write_all(part).is_ok());
    }
}

/// What comes until the end of it, or this many bytes.
fn read(stdout: UnixStream, most: usize) -> std::io::Result<Vec<u8>> {
    stdout.set_read_timeout(Some(TIME_LIMIT))?;
    let mut out = Vec::new();
    stdout.take(most as u64).read_to_end(&mut out)?;
    Ok(out)
}

fn difference(got: &[u8], want: &[u8]) -> String {
    let same = got.iter().zip(want).take_while(|(g, w)| g == w).count();
    let part = |out: &[u8]| out[same.saturating_sub(60)..out.len().min(same + 60)].escape_ascii().to_string();
    format!("writes, around byte {same},\n{}\ninstead of\n{}", part(got), part(want))
}

/// What both reference switches write for a text.
fn wanted(text: &[u8]) -> Vec<u8> {
    let want = play::<Crossbar>(text);
    assert!(play::<Pifo>(text) == want, "the PIFO switch parts for {}", text.escape_ascii());
    want
}

/// Where a text is kept: for a program to read, or after a failure.
fn kept(name: &str, text: &[u8]) -> PathBuf {
    let path = Path::new(env!("CARGO_TARGET_TMPDIR")).join(name);
    std::fs::write(&path, text).unwrap();
    path
}

/// Ends the test unless each program, already at it, writes what is wanted.
fn finish(programs: &[String; 2], playing: [Playing; 2], text: &[u8], want: &[u8]) {
    let faults = playing.map(|p| p.fault(want));
    for (program, fault) in programs.iter().zip(faults) {
        if let Some(fault) = fault {
            panic!("{program} {fault}\nThe text is in {}", kept("failed.trace", text).display());
        }
    }
}

/// Plays a text on both programs, beside each other, and on the reference switches, which all must write the same, and
/// gives that.
fn compare(programs: &[String; 2], text: &[u8], piece: usize) -> Vec<u8> {
    let mut stdins = Vec::new();
    let playing = programs.each_ref().map(|program| {
        // A socket holds any text of this test but the long one, so that feeding does not wait.
        let (feeding, stdin) = UnixStream::pair().unwrap();
        feeding.set_write_timeout(Some(TIME_LIMIT)).unwrap();
        stdins.push(feeding);
        Playing::start(program, stdin)
    });
    let want = wanted(text);
    feed(stdins, text, piece);
    finish(programs, playing, text, &want);
    want
}

/// The show of scope 8.3. A space stands for a line feed, here and below.
const SHOW: &str = "ports=2 first=0 slot=0 in=0 out=1 flow=0 rank=5 tag=10 in=1 out=1 flow=0 rank=3 tag=11 \
                    slot=1 end=2 ";

/// Texts and what the player writes, by hand.
const SHOWS: &[(&str, &str)] = &[
    (SHOW, "ports=2 first=0 slot=0 out=1 in=1 flow=0 rank=3 tag=11 slot=1 out=1 in=0 flow=0 rank=5 tag=10 end=2 "),
    // equal ranks: in slot 1 it is the turn of input 1, as in scope 9.4
    ("ports=2 first=1 slot=1 in=0 out=0 flow=0 rank=4 tag=10 in=1 out=0 flow=0 rank=4 tag=11 slot=2 end=3 ",
     "ports=2 first=1 slot=1 out=0 in=1 flow=0 rank=4 tag=11 slot=2 out=0 in=0 flow=0 rank=4 tag=10 end=3 "),
    // the header
    ("", "refused=9 line=1 "),
    ("ports=17", "refused=9 line=1 "),
    ("ports=17 ", "refused=1 line=1 "),
    ("ports=0 rest", "refused=1 line=1 "),
    ("ports=4294967295 ", "refused=1 line=1 "),
    ("ports=4294967296 ", "refused=9 line=1 "),
    ("ports=02 ", "refused=9 line=1 "),
    ("ports=2 ", "refused=9 line=2 "),
    ("ports=2 first=4294967296 ", "refused=9 line=2 "),
    ("ports=2 first=7 ", "ports=2 first=7 refused=9 line=3 "),
    // the end
    ("ports=2 first=7 end=7 ", "ports=2 first=7 end=7 "),
    ("ports=2 first=7 end=7", "ports=2 first=7 refused=9 line=3 "),
    ("ports=2 first=7 end=8 ", "ports=2 first=7 refused=9 line=3 "),
    ("ports=2 first=7 end=7  ", "ports=2 first=7 refused=9 line=4 "),
    ("ports=2 first=7 slot=7 end=8 x", "ports=2 first=7 slot=7 refused=9 line=5 "),
    // where a block ends
    ("ports=2 first=7 slot=8 ", "ports=2 first=7 refused=9 line=3 "),
    ("ports=2 first=7 slot=7 ", "ports=2 first=7 slot=7 refused=9 line=4 "),
    ("ports=2 first=7 slot=7 in", "ports=2 first=7 slot=7 refused=9 line=4 "),
    ("ports=2 first=7 slot=7 In=1 ", "ports=2 first=7 slot=7 refused=9 line=4 "),
    ("ports=2 first=7 slot=7 in=", "ports=2 first=7 refused=9 line=4 "),
    ("ports=2 first=7 slot=7 in=05 ", "ports=2 first=7 refused=9 line=4 "),
    ("ports=2 first=7 slot=7 in=1 out=0 flow=0 rank=05 ", "ports=2 first=7 refused=9 line=7 "),
    // refusals of a slot
    ("ports=2 first=7 slot=7 in=0 out=2 flow=8 rank=0 tag=0 ", "ports=2 first=7 refused=4 line=4 "),
    ("ports=2 first=7 slot=7 in=0 out=2 flow=8 rank=0 tag=0 in=0 ", "ports=2 first=7 refused=9 line=10 "),
    ("ports=2 first=7 slot=7 in=0 out=1 flow=8 rank=0 tag=0 ", "ports=2 first=7 refused=5 line=4 "),
    ("ports=2 first=7 slot=7 in=1 out=1 flow=0 rank=0 tag=0 in=1 out=1 flow=0 rank=0 tag=0 ",
     "ports=2 first=7 refused=6 line=9 "),
    ("ports=2 first=0 slot=0 in=0 out=0 flow=0 rank=1 tag=0 in=1 out=0 flow=0 rank=9 tag=0 \
      slot=1 in=1 out=0 flow=0 rank=8 tag=0 ",
     "ports=2 first=0 slot=0 out=0 in=0 flow=0 rank=1 tag=0 refused=7 line=15 "),
    // the clock's end
    ("ports=1 first=4294967295 end=4294967295 ", "ports=1 first=4294967295 end=4294967295 "),
    ("ports=1 first=4294967294 slot=4294967294 end=4294967295 ",
     "ports=1 first=4294967294 slot=4294967294 end=4294967295 "),
    ("ports=1 first=4294967294 slot=4294967294 slot=4294967295 in=9 out=9 flow=9 rank=0 tag=0 ",
     "ports=1 first=4294967294 slot=4294967294 refused=3 line=4 "),
    ("ports=1 first=4294967295 slot=4294967295 in=0 ", "ports=1 first=4294967295 refused=9 line=5 "),
];

fn text_of(joined: &str) -> Vec<u8> {
    joined.replace(' ', "\n").into_bytes()
}

/// What the programs write for a text, by hand.
fn show(text: &str, want: &str) {
    let got = compare(&programs(), &text_of(text), usize::MAX);
    assert_eq!(got.escape_ascii().to_string(), text_of(want).escape_ascii().to_string(), "for {text}");
}

#[test]
fn shows_by_hand() {
    for (text, want) in SHOWS {
        show(text, want);
    }
}

#[test]
fn a_seventeenth_arrival_is_past_the_block() {
    let arrivals: String = (0..16).map(|port| format!("in={port} out={port} flow=0 rank=0 tag=0 ")).collect();
    let departures: String = (0..16).map(|port| format!("out={port} in={port} flow=0 rank=0 tag=0 ")).collect();
    let header = "ports=16 first=0 slot=0 ";
    show(&format!("{header}{arrivals}in=0"), &format!("{header}{departures}refused=9 line=84 "));
}

#[test]
fn a_sixty_fifth_cell_is_refused() {
    let arrivals = |slot| format!("slot={slot} in=0 out=0 flow=0 rank=0 tag={slot} in=1 out=0 flow=0 rank=1 tag=0 ");
    let departures = |slot| format!("slot={slot} out=0 in=0 flow=0 rank=0 tag={slot} ");
    let header = "ports=2 first=0 ";
    let (text, want): (String, String) = ((0..65).map(arrivals).collect(), (0..64).map(departures).collect());
    show(&format!("{header}{text}"), &format!("{header}{want}refused=8 line=713 "));
}

#[test]
fn the_show_with_any_one_fault() {
    let programs = programs();
    let show = text_of(SHOW);
    for at in 0..show.len() {
        compare(&programs, &show[..at], usize::MAX);
        for byte in *b"\n0i= " {
            let mut text = show.clone();
            text[at] = byte;
            compare(&programs, &text, usize::MAX);
        }
    }
}

/// How the arrivals of a trace are drawn: a percentage of the inputs, so many outputs and flows, ranks that do not fall
/// within a flow, and one block in `faults` that may be refused.
struct Traffic {
    ports: u64,
    outputs: u64,
    flows: u64,
    ranks: u64,
    load: u64,
    faults: u64,
    highest: [[[u64; 8]; 16]; 16],
}

impl Traffic {
    fn records(&mut self, r: &mut Random) -> Vec<Record> {
        let mut records = Vec::new();
        for input in 0..self.ports {
            if r.below(100) < self.load {
                records.push(self.record(r, input));
            }
        }
        if r.one_in(self.faults) {
            self.spoil(r, &mut records);
        }
        records
    }

    fn record(&mut self, r: &mut Random, input: u64) -> Record {
        let (output, flow) = (r.below(self.outputs), r.below(self.flows));
        let highest = &mut self.highest[input as usize % 16][output as usize][flow as usize];
        *highest = r.below(self.ranks).max(*highest);
        let tag = r.next() >> r.below(64);
        [input as u32, output as u32, flow as u32, *highest as u32, tag as u32]
    }

    fn spoil(&mut self, r: &mut Random, records: &mut Vec<Record>) {
        if records.is_empty() {
            records.push(self.record(r, 0));
        }
        let at = r.below(records.len() as u64) as usize;
        match r.below(6) {
            0 => records[at][0] = r.pick(&[self.ports as u32, 16, u32::MAX]),
            1 => records[at][1] = r.pick(&[self.ports as u32, 16, u32::MAX]),
            2 => records[at][2] = r.pick(&[8, 255, 256, u32::MAX]),
            3 => records.insert(at, records[at]),
            4 => records.iter_mut().for_each(|record| record[3] = 0),
            _ => *records = (0..17).map(|input| self.record(r, input)).collect(),
        }
    }
}

/// A trace that keeps to the grammar, as long as its slots have numbers.
fn trace(r: &mut Random) -> Vec<u8> {
    let ports = if r.one_in(4) { 16 } else { 1 + r.below(16) };
    let any = Traffic {
        ports,
        outputs: r.pick(&[1, 2, ports]).min(ports),
        flows: r.pick(&[1, 2, 8]),
        ranks: r.pick(&[1, 3, 50, 1 << 32]),
        load: r.pick(&[0, 10, 50, 95, 100]),
        faults: r.pick(&[3, 20, 1000]),
        highest: [[[0; 8]; 16]; 16],
    };
    let (traffic, slots) = match r.below(1000) {
        // long: more than any window of the program holds
        0..2 => (Traffic { outputs: ports, load: 60, faults: 10_000, ..any }, 300),
        // filling: an output that is too slow for its inputs
        2..20 => (Traffic { ports: 2, outputs: 1, flows: 2, load: 100, faults: 500, ..any }, 100 + r.below(40)),
        _ => (any, r.pick(&[0, 1, 2, 3, 5, 9, 15])),
    };
    text_of_slots(r, traffic, slots)
}

fn text_of_slots(r: &mut Random, mut traffic: Traffic, slots: u64) -> Vec<u8> {
    let mut text = Vec::new();
    let ports = if r.one_in(100) { r.pick(&[0, 17, CLOCK_END as u64]) } else { traffic.ports };
    let near_end = CLOCK_END as u64 - r.below(slots + 2);
    let first = r.pick(&[0, 0, 1, 98, 4_000_000_000, near_end]);
    put(&mut text, "ports", ports);
    put(&mut text, "first", first);
    for slot in first..first + slots {
        put_block(&mut text, slot, &traffic.records(r));
    }
    put(&mut text, "end", first + slots);
    text
}

fn put(text: &mut Vec<u8>, key: &str, number: u64) {
    text.extend(format!("{key}={number}\n").bytes());
}

fn put_block(text: &mut Vec<u8>, slot: u64, records: &[Record]) {
    put(text, "slot", slot);
    for record in records {
        for (key, &field) in ["in", "out", "flow", "rank", "tag"].iter().zip(record) {
            put(text, key, field as u64);
        }
    }
}

/// A place below n, which is not 0: often near the start or the end.
fn place(r: &mut Random, n: usize) -> usize {
    let near = r.below(n.min(8) as u64) as usize;
    match r.below(4) {
        0 => near,
        1 => n - 1 - near,
        _ => r.below(n as u64) as usize,
    }
}

fn damage(r: &mut Random, text: &mut Vec<u8>) {
    if text.is_empty() || r.one_in(20) {
        let tails = [&b"\n"[..], b"\0", b"x", b"in=", b"in=0\n", b"slot=1\n", b"end=0\n", b"\xff\n", b"ports=2\n"];
        text.extend(r.pick(&tails));
    } else if r.one_in(3) {
        damage_byte(r, text);
    } else {
        let mut lines: Vec<Vec<u8>> = text.split_inclusive(|&b| b == b'\n').map(|line| line.to_vec()).collect();
        damage_line(r, &mut lines);
        *text = lines.concat();
    }
}

fn damage_byte(r: &mut Random, text: &mut Vec<u8>) {
    let at = place(r, text.len());
    let byte = r.pick(b"0123456789=\n\r -+inoutfag\0");
    match r.below(5) {
        0 => text[at] ^= 1 << r.below(8),
        1 => text[at] = byte,
        2 => text.insert(at, byte),
        3 => drop(text.remove(at)),
        _ => text.truncate(at),
    }
}

fn damage_line(r: &mut Random, lines: &mut Vec<Vec<u8>>) {
    let (at, other) = (place(r, lines.len()), place(r, lines.len()));
    match r.below(8) {
        0 => drop(lines.remove(at)),
        1 => lines.insert(at, lines[at].clone()),
        2 => lines.insert(at, lines[other].clone()),
        3 => lines.swap(at, other),
        4 => lines.truncate(at),
        5 => lines[at] = other_key(r, &lines[at]),
        _ => lines[at] = other_number(r, &lines[at]),
    }
}

fn other_key(r: &mut Random, line: &[u8]) -> Vec<u8> {
    let number = line.splitn(2, |&b| b == b'=').nth(1).unwrap_or(b"0\n");
    let keys = ["ports", "first", "slot", "in", "out", "flow", "rank", "tag", "end", "refused", "", "i", "In", "inn"];
    [r.pick(&keys).as_bytes(), b"=", number].concat()
}

fn other_number(r: &mut Random, line: &[u8]) -> Vec<u8> {
    let (key, number) = match line.iter().position(|&b| b == b'=') {
        Some(at) => (&line[..at], String::from_utf8_lossy(&line[at + 1..]).trim().to_string()),
        None => (line, String::new()),
    };
    let edges = [
        "", "0", "00", "01", "1", "7", "8", "15", "16", "17", "4294967294", "4294967295", "4294967296", "4294967297",
        "04294967295", "42949672950", "18446744073709551616", "-1", "+1", " 1", "1 ", "1\r", "1=1", "0x1",
    ];
    let changed = match r.below(100) {
        0 => "9".repeat(r.pick(&[11, 100, 3000, 70_000])),
        1..10 => format!("0{number}"),
        10..20 => number.parse::<u64>().unwrap_or(0).saturating_add(1).to_string(),
        20..30 => number.parse::<u64>().unwrap_or(0).saturating_sub(1).to_string(),
        _ => r.pick(&edges).to_string(),
    };
    [key, b"=", changed.as_bytes(), b"\n"].concat()
}

/// How an output ends: 0 with `end`, otherwise the refusal's number.
fn ending(out: &[u8]) -> usize {
    let lines: Vec<&[u8]> = out.split(|&b| b == b'\n').collect();
    match lines[lines.len().saturating_sub(3)].strip_prefix(b"refused=") {
        Some(number) => std::str::from_utf8(number).unwrap().parse().unwrap(),
        None => 0,
    }
}

/// Plays random texts, whole and damaged, and counts their bytes and how they end.
fn play_random(programs: &[String; 2], texts: u64, mut r: Random) -> (usize, [u64; 10]) {
    let (mut bytes, mut endings) = (0, [0; 10]);
    for _ in 0..texts {
        let mut text = trace(&mut r);
        for _ in 0..r.pick(&[0, 0, 1, 1, 2, 3]) {
            damage(&mut r, &mut text);
        }
        let pieces = if r.one_in(100) { 1 + r.below(10) as usize } else { 1 };
        endings[ending(&compare(programs, &text, text.len() / pieces + 1))] += 1;
        bytes += text.len();
    }
    (bytes, endings)
}

/// Two lists beside each other, since most of the time goes into starting the programs.
#[test]
fn random_and_damaged_texts() {
    let programs = programs();
    let texts = setting("TEXTS", 100_000);
    let random = |list| Random((setting("SEED", 1) * 2 + list) * 2 + 6364136223846793005);
    let (one, other) = std::thread::scope(|scope| {
        let other = scope.spawn(|| play_random(&programs, texts / 2, random(1)));
        (play_random(&programs, texts - texts / 2, random(0)), other.join().unwrap())
    });
    let bytes = one.0 + other.0;
    let endings: [u64; 10] = std::array::from_fn(|n| one.1[n] + other.1[n]);
    println!("{texts} texts of {bytes} bytes: {} played to the end, refused {:?}", endings[0], &endings[1..]);
    assert!([0, 1, 3, 4, 5, 6, 7, 8, 9].iter().all(|&n| endings[n] > 0), "some ending never came: {endings:?}");
}

/// A trace of sixteen ports that no player refuses: in every slot a cell for each input that has not 62 of them yet, for two
/// outputs in some slots and for all in others. Ranks rise with the clock.
fn dense_trace(r: &mut Random, slots: u64) -> Vec<u8> {
    let highest = [[[0; 8]; 16]; 16];
    let mut traffic = Traffic { ports: 16, outputs: 16, flows: 8, ranks: 0, load: 100, faults: 1, highest };
    let (mut text, mut pifo, mut waiting) = (Vec::new(), Pifo::fresh(16, 0, 0), 0);
    put(&mut text, "ports", 16);
    put(&mut text, "first", 0);
    for slot in 0..slots {
        traffic.outputs = if slot / 32 % 2 == 0 { 2 } else { 16 };
        traffic.ranks = 100 + slot / 2;
        let cells = pifo.cells();
        let has_room = |input: &u64| cells.iter().filter(|c| c.input as u64 == *input).count() < 62;
        let records: Vec<Record> = (0..16).filter(has_room).map(|input| traffic.record(r, input)).collect();
        put_block(&mut text, slot, &records);
        pifo.slot(&records).expect("the slot runs");
        waiting += cells.len() as u64;
    }
    put(&mut text, "end", slots);
    assert!(waiting > 16 * 40 * slots, "{} cells wait", waiting / slots);
    text
}

#[test]
fn a_long_dense_trace() {
    let text = dense_trace(&mut Random(setting("SEED", 1) * 2 + 2685821657736338717), 4000);
    let (programs, path) = (programs(), kept("dense.trace", &text));
    let playing = programs.each_ref().map(|program| Playing::start(program, File::open(&path).unwrap()));
    let want = wanted(&text);
    finish(&programs, playing, &text, &want);
    assert_eq!(status_after(&want), 0);
}
