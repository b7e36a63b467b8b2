//! `fast program` and `fast vectors`: the answers of the program by leaping
//! from event to event, written for speed. It shares nothing with the model
//! but the reading of hexadecimal lines.

use std::collections::hash_map::Entry;
use std::collections::HashMap;
use std::hash::{BuildHasherDefault, Hasher};
use std::io::{self, BufRead, BufWriter, Read, Write};
use std::process::ExitCode;

const MOST_BYTES: usize = 4096;
const HYPER_PERIOD_LIMIT: u64 = 36_864;
const HISTORY_LIMIT: u64 = 1_048_576;

/// A stream with its state on the bus.
#[derive(Clone, Copy)]
struct Stream {
    slot: u8,
    m: u8,
    k: u8,
    /// k ones.
    mask: u16,
    /// Bit 0 is the newest outcome.
    history: u16,
    distance: u8,
    period: u64,
    /// D − C: how long after its release a frame may still start.
    slack: u64,
    service: u64,
    next_release: u64,
    /// How many frames have been released.
    released: u64,
    /// The last instant at which the waiting frame may start.
    latest_start: u64,
}

impl Stream {
    /// Enters an outcome and tells whether the history passes after it.
    #[inline(always)]
    fn enter(&mut self, met: u16) -> bool {
        self.history = (self.history << 1 | met) & self.mask;
        self.distance = distance(self.history, self.m, self.k);
        self.distance != 0
    }

    fn restoring_distance(&self) -> u64 {
        // After r mets the r oldest outcomes have left and r ones have entered.
        let mut r = 0;
        while (self.history & self.mask >> r).count_ones() + r < u32::from(self.m) {
            r += 1;
        }
        u64::from(r)
    }
}

/// k less the place of the m-th one plus 1; 0 with fewer than m ones.
#[inline(always)]
fn distance(history: u16, m: u8, k: u8) -> u8 {
    if history.count_ones() < u32::from(m) {
        return 0;
    }
    let mut rest = history;
    for _ in 1..m {
        rest &= rest - 1;
    }
    k - rest.trailing_zeros() as u8
}

#[derive(Clone, Copy)]
enum Word {
    Del,
    Deh,
    Dml,
    Drel,
    El,
    Ml,
}

impl Word {
    fn named(word: &[u8]) -> Option<Word> {
        Some(match word {
            b"DEL" => Word::Del,
            b"DEH" => Word::Deh,
            b"DML" => Word::Dml,
            b"DREL" => Word::Drel,
            b"EL" => Word::El,
            b"ML" => Word::Ml,
            _ => return None,
        })
    }

    /// All keys and the bottom in one number; the least goes first.
    #[inline(always)]
    fn key(self, stream: &Stream, now: u64) -> u64 {
        let distance = u64::from(stream.distance) << 40;
        let time_left = || (stream.latest_start + stream.service - now) << 8;
        let period = stream.period << 8;
        let slot = u64::from(stream.slot);
        match self {
            Word::Del => distance | time_left() | slot,
            Word::Deh => distance | time_left() | (7 - slot),
            Word::Dml => distance | period | slot,
            Word::Drel => distance | stream.restoring_distance() << 32 | time_left() | slot,
            Word::El => time_left() | slot,
            Word::Ml => period | slot,
        }
    }
}

/// A refusal: number, place, layer.
type Fault = (u32, usize, &'static str);

struct Table {
    streams: Vec<Stream>,
    hyper_period: u64,
}

fn read_table(file: &[u8]) -> Result<Table, Fault> {
    let short = (9, file.len(), "file");
    let slot_map = *file.first().ok_or(short)?;
    let mut at = 1;
    let mut streams = Vec::with_capacity(8);
    let mut hyper_period = 1;
    let mut history_count = 1;
    let mut period = 0;
    for slot in 0..8u8 {
        if slot_map >> slot & 1 == 0 {
            continue;
        }
        let place = at;
        let map = *file.get(at).ok_or(short)?;
        at += 1;
        if map & 0xC0 != 0 {
            return Err((10, place, "file"));
        }
        if map & 1 == 0 && streams.is_empty() {
            return Err((11, place, "file"));
        }
        let need = [2, 2, 2, 1, 1, 2].iter().enumerate().map(|(i, n)| (map as usize >> i & 1) * n);
        if file.len() - at < need.sum::<usize>() {
            return Err(short);
        }
        let mut field = |bit: u8, bytes: usize, missing: u64| {
            if map >> bit & 1 == 0 {
                return missing;
            }
            let value =
                file[at..at + bytes].iter().fold(0, |high, low| high << 8 | u64::from(*low));
            at += bytes;
            value
        };
        period = field(0, 2, period);
        let service = field(1, 2, 1);
        let deadline = field(2, 2, period);
        let k = field(3, 1, 1);
        let m = field(4, 1, k);
        let history = field(5, 2, (1 << (k & 31)) - 1);

        let refuse = |number| Err((number, place, "stream"));
        if !(1..=4096).contains(&period) {
            return refuse(2);
        }
        if !(1..=period).contains(&deadline) {
            return refuse(3);
        }
        if !(1..=deadline).contains(&service) {
            return refuse(4);
        }
        if !(1..=16).contains(&k) {
            return refuse(5);
        }
        if !(1..=k).contains(&m) {
            return refuse(6);
        }
        if history >> k != 0 {
            return refuse(7);
        }
        hyper_period *= period / gcd(hyper_period, period);
        if hyper_period > HYPER_PERIOD_LIMIT {
            return Err((22, place, "table"));
        }
        history_count *= passing(m, k);
        if history_count > HISTORY_LIMIT {
            return Err((23, place, "table"));
        }
        streams.push(Stream {
            slot,
            m: m as u8,
            k: k as u8,
            mask: ((1u32 << k) - 1) as u16,
            history: history as u16,
            distance: distance(history as u16, m as u8, k as u8),
            period,
            slack: deadline - service,
            service,
            next_release: 0,
            released: 0,
            latest_start: 0,
        });
    }
    if at < file.len() {
        return Err((12, at, "file"));
    }
    Ok(Table { streams, hyper_period })
}

fn gcd(a: u64, b: u64) -> u64 {
    if b == 0 {
        a
    } else {
        gcd(b, a % b)
    }
}

/// How many histories of k outcomes have at least m ones.
fn passing(m: u64, k: u64) -> u64 {
    let mut term = 1;
    let mut sum = 0;
    for j in 0..=k {
        if j >= m {
            sum += term;
        }
        term = term * (k - j) / (j + 1);
    }
    sum
}

/// Counts from instant 0.
#[derive(Clone, Copy, Default)]
struct Counts {
    busy: u64,
    met: u64,
    missed: u64,
}

enum Answer {
    Holds { first: u64, second: u64, length: u64, counts: Counts },
    Fails { slot: u8, frame: u64, instant: u64 },
}

fn forecast(word: Word, table: Table) -> Answer {
    let Table { mut streams, hyper_period } = table;
    let streams = streams.as_mut_slice();
    if streams.is_empty() {
        return Answer::Holds { first: 0, second: 1, length: 1, counts: Counts::default() };
    }

    let mut now = 0;
    let mut next_boundary = 0;
    let mut counts = Counts::default();
    // Bit i: the frame of stream i waits.
    let mut waiting = 0u32;
    // The stream of the frame in transit and its end.
    let mut transit = usize::MAX;
    let mut end = u64::MAX;

    let mut seen: HashMap<u128, u64, BuildHasherDefault<Mix>> = HashMap::default();
    let mut at_boundary: Vec<Counts> = Vec::new();

    loop {
        // Leave and drop; the failure in the lowest slot is the first.
        let mut failed = usize::MAX;
        if end == now {
            counts.met += 1;
            if !streams[transit].enter(1) {
                failed = transit;
            }
            end = u64::MAX;
        }
        let mut rest = waiting;
        while rest != 0 {
            let i = rest.trailing_zeros() as usize;
            rest &= rest - 1;
            let stream = &mut streams[i];
            if stream.latest_start < now {
                waiting &= !(1 << i);
                counts.missed += 1;
                if !stream.enter(0) {
                    failed = failed.min(i);
                }
            }
        }
        if failed != usize::MAX {
            let stream = &streams[failed];
            return Answer::Fails { slot: stream.slot, frame: stream.released, instant: now };
        }

        // Boundary.
        if now == next_boundary {
            let second = at_boundary.len() as u64;
            let histories =
                streams.iter().fold(0, |key, stream| key << 16 | u128::from(stream.history));
            match seen.entry(histories) {
                Entry::Occupied(entry) => {
                    let first = *entry.get();
                    let from = at_boundary[first as usize];
                    return Answer::Holds {
                        first,
                        second,
                        length: (second - first) * hyper_period,
                        counts: Counts {
                            busy: counts.busy - from.busy,
                            met: counts.met - from.met,
                            missed: counts.missed - from.missed,
                        },
                    };
                }
                Entry::Vacant(entry) => {
                    entry.insert(second);
                }
            }
            at_boundary.push(counts);
            next_boundary += hyper_period;
        }

        // Release.
        let mut next = end;
        for (i, stream) in streams.iter_mut().enumerate() {
            if stream.next_release == now {
                waiting |= 1 << i;
                stream.latest_start = now + stream.slack;
                stream.released += 1;
                stream.next_release += stream.period;
            }
            next = next.min(stream.next_release);
        }

        // Start.
        if end == u64::MAX && waiting != 0 {
            let mut front = waiting.trailing_zeros() as usize;
            let mut rest = waiting & (waiting - 1);
            if rest != 0 {
                let mut least = word.key(&streams[front], now);
                while rest != 0 {
                    let i = rest.trailing_zeros() as usize;
                    rest &= rest - 1;
                    let key = word.key(&streams[i], now);
                    if key < least {
                        least = key;
                        front = i;
                    }
                }
            }
            waiting &= !(1 << front);
            transit = front;
            end = now + streams[front].service;
            counts.busy += streams[front].service;
            next = next.min(end);
        }

        // The next event: a release, the end of the frame in transit, a drop.
        let mut rest = waiting;
        while rest != 0 {
            let i = rest.trailing_zeros() as usize;
            rest &= rest - 1;
            next = next.min(streams[i].latest_start + 1);
        }
        now = next;
    }
}

/// A quick hash of histories.
#[derive(Default)]
struct Mix(u64);

impl Hasher for Mix {
    fn write(&mut self, bytes: &[u8]) {
        for byte in bytes {
            self.0 = (self.0 ^ u64::from(*byte)).wrapping_mul(0x9E37_79B9_7F4A_7C15);
        }
    }

    fn write_u128(&mut self, value: u128) {
        let low = (value as u64).wrapping_mul(0x9E37_79B9_7F4A_7C15);
        let high = ((value >> 64) as u64).wrapping_mul(0xC2B2_AE3D_27D4_EB4F);
        let mixed = low ^ high.rotate_left(32);
        self.0 = (mixed ^ mixed >> 29).wrapping_mul(0xBF58_476D_1CE4_E5B9);
        self.0 ^= self.0 >> 32;
    }

    fn finish(&self) -> u64 {
        self.0
    }
}

fn respond(input: &[u8], out: &mut impl Write) -> io::Result<()> {
    let input = &input[..input.len().min(MOST_BYTES)];
    let end = input.iter().position(|byte| *byte == 10);
    let named = end.and_then(|end| Some((Word::named(&input[..end])?, &input[end + 1..])));
    let Some((word, file)) = named else {
        return writeln!(out, "refused 13 at 0 word");
    };
    match read_table(file) {
        Err((number, place, layer)) => writeln!(out, "refused {number} at {place} {layer}"),
        Ok(table) => match forecast(word, table) {
            Answer::Fails { slot, frame, instant } => {
                writeln!(out, "fails slot {slot} frame {frame} instant {instant}")
            }
            Answer::Holds { first, second, length, counts } => writeln!(
                out,
                "holds {first} {second}\nlength {length} busy {} met {} missed {} load {}",
                counts.busy,
                counts.met,
                counts.missed,
                1000 * counts.busy / length
            ),
        },
    }
}

fn main() -> ExitCode {
    let arguments: Vec<String> = std::env::args().skip(1).collect();
    let done = match arguments.iter().map(String::as_str).collect::<Vec<_>>().as_slice() {
        ["program"] => program(),
        ["vectors"] => vectors(),
        _ => Err(io::Error::other("usage: fast program | vectors")),
    };
    match done {
        Ok(()) => ExitCode::SUCCESS,
        Err(error) => {
            eprintln!("fast: {error}");
            ExitCode::FAILURE
        }
    }
}

fn program() -> io::Result<()> {
    let mut input = Vec::with_capacity(MOST_BYTES);
    io::stdin().lock().take(MOST_BYTES as u64).read_to_end(&mut input)?;
    let mut text = Vec::new();
    respond(&input, &mut text)?;
    io::stdout().write_all(&text)
}

fn vectors() -> io::Result<()> {
    let mut out = BufWriter::new(io::stdout());
    for (index, line) in io::stdin().lock().lines().enumerate() {
        let Some(input) = simulator::hex::bytes(&line?) else {
            out.flush()?;
            return Err(io::Error::other(format!("line {} is not hexadecimal", index + 1)));
        };
        respond(&input, &mut out)?;
    }
    out.flush()
}
