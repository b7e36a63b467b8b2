//! `generate vectors SEED COUNT`: random whole inputs of the program, one on a
//! line in hexadecimal. `generate scripts SEED COUNT`: random scripts.
//! The same seed and count give the same lines.

use std::io::{self, BufWriter, Write};
use std::process::ExitCode;

/// A xorshift generator.
struct Random(u64);

impl Random {
    fn new(seed: u64) -> Random {
        // Spreads small seeds and never gives the state 0.
        let mut state = seed.wrapping_add(0x9E37_79B9_7F4A_7C15);
        state = (state ^ state >> 30).wrapping_mul(0xBF58_476D_1CE4_E5B9);
        state = (state ^ state >> 27).wrapping_mul(0x94D0_49BB_1331_11EB);
        Random(state | 1)
    }

    fn next(&mut self) -> u64 {
        self.0 ^= self.0 << 13;
        self.0 ^= self.0 >> 7;
        self.0 ^= self.0 << 17;
        self.0.wrapping_mul(0x2545_F491_4F6C_DD1D) >> 11
    }

    /// 0 to n − 1.
    fn below(&mut self, n: u64) -> u64 {
        self.next() % n
    }

    fn between(&mut self, low: u64, high: u64) -> u64 {
        low + self.below(high - low + 1)
    }

    /// True in so many of a hundred cases.
    fn percent(&mut self, cases: u64) -> bool {
        self.below(100) < cases
    }

    fn pick<T: Clone>(&mut self, list: &[T]) -> T {
        list[self.below(list.len() as u64) as usize].clone()
    }
}

const WORDS: [&str; 6] = ["DEL", "DEH", "DML", "DREL", "EL", "ML"];

/// The numbers of a stream, lawful or not.
#[derive(Clone)]
struct Numbers {
    t: u64,
    d: u64,
    c: u64,
    m: u64,
    k: u64,
    h: u64,
}

// ------------------------------------------------------------------- Tables

/// What the streams of one table are drawn from.
struct Family {
    periods: Vec<u64>,
    /// The largest k that is drawn often.
    k: u64,
    /// The share of the bus that one stream asks for, in thousandths, at most.
    share: u64,
    /// How many of a hundred histories may be such that do not pass.
    not_passing: u64,
    /// In how many of a hundred cases m is drawn twice and the smaller taken.
    gentle: u64,
}

fn family(random: &mut Random, streams: u64) -> Family {
    let divisors = |p: u64| (1..=p.min(4096)).filter(|t| p % t == 0).collect::<Vec<u64>>();
    let (periods, k) = match random.below(100) {
        0..=66 => {
            let p = random.pick(&[
                1, 2, 3, 4, 5, 6, 7, 8, 9, 10, 12, 12, 14, 15, 16, 18, 20, 20, 21, 24, 24, 28, 30,
                32, 36, 40, 42, 45, 48, 50, 54, 56, 60, 72, 80, 84, 90, 96, 100, 120,
            ]);
            (divisors(p), 5)
        }
        67..=80 => ((2..=6).collect(), 5),
        81..=86 => ((1..=10).collect(), 4),
        87..=94 => {
            let p = random.pick(&[144, 180, 210, 240, 256, 360, 420, 480, 504, 720, 840, 1000]);
            (divisors(p), 4)
        }
        95..=97 => {
            let p = random.pick(&[
                1024, 1260, 2520, 4093, 4095, 4096, 8190, 12_288, 24_558, 27_720, 30_030, 36_864,
            ]);
            (divisors(p), 2)
        }
        98 => (vec![9, 11, 4095, 4096], 2),
        _ => ((1..=4096).collect(), 2),
    };
    let asked = random.between(200, 1400);
    Family {
        periods,
        k,
        share: 2 * asked / streams.max(1),
        not_passing: random.pick(&[0, 0, 0, 0, 0, 10, 50, 100]),
        gentle: random.pick(&[0, 100, 100]),
    }
}

fn stream(random: &mut Random, family: &Family) -> Numbers {
    let mut t = random.pick(&family.periods);
    if random.percent(60) {
        t = t.max(random.pick(&family.periods));
    }
    let share = random.between(1, family.share);
    let c = (t * share / 1000).clamp(1, t);
    let d = match random.below(10) {
        0..=5 => t,
        6..=8 => random.between(c, t),
        _ => c,
    };
    let k = match random.below(20) {
        0..=15 => random.between(1, family.k),
        16..=18 => random.between(1, 2 * family.k),
        _ => random.between(1, 16),
    };
    let mut m = random.between(1, k);
    if random.percent(family.gentle) {
        m = m.min(random.between(1, k));
    }
    Numbers { t, d, c, m, k, h: history(random, m, k, family.not_passing) }
}

fn history(random: &mut Random, m: u64, k: u64, not_passing: u64) -> u64 {
    let all = (1 << k) - 1;
    if random.percent(not_passing) {
        let mut h = random.below(1 << k);
        if random.percent(50) {
            // One met short of passing: m − 1 ones, none of them the oldest.
            h &= all >> 1;
            while u64::from(h.count_ones()) >= m {
                h &= h - 1;
            }
            while u64::from(h.count_ones()) < m - 1 {
                h |= 1 << random.below(k - 1);
            }
        }
        return h;
    }
    if random.percent(55) {
        return all;
    }
    for _ in 0..20 {
        let h = random.below(1 << k);
        if u64::from(h.count_ones()) >= m {
            return h;
        }
    }
    all
}

/// How many histories of k outcomes pass.
fn passing(m: u64, k: u64) -> u64 {
    (0u64..1 << k).filter(|h| u64::from(h.count_ones()) >= m).count() as u64
}

/// The streams of a table, lowest slot first.
fn table(random: &mut Random) -> Vec<(u64, Numbers)> {
    if random.percent(4) {
        return limit_table(random);
    }
    if random.percent(30) {
        return alike_table(random);
    }
    let count = random.pick(&[0, 1, 1, 2, 2, 2, 2, 3, 3, 3, 3, 4, 4, 5, 5, 6, 6, 7, 8, 8]);
    let family = family(random, count);
    let mut streams = Vec::new();
    let mut n = 1;
    for slot in slots(random, count) {
        let mut numbers = stream(random, &family);
        // Mostly within the limit of N.
        while n * passing(numbers.m, numbers.k) > 1_048_576 && !random.percent(2) {
            numbers = stream(random, &family);
            if random.percent(50) {
                numbers.m = numbers.k;
                numbers.h = (1 << numbers.k) - 1;
            }
        }
        n *= passing(numbers.m, numbers.k);
        n = n.min(1 << 30);
        streams.push((slot, numbers));
    }
    streams
}

/// So many different slots, lowest first.
fn slots(random: &mut Random, count: u64) -> Vec<u64> {
    let mut slots: Vec<u64> = (0..8).collect();
    while slots.len() as u64 > count {
        let gone = random.below(slots.len() as u64) as usize;
        slots.remove(gone);
    }
    slots
}

/// Streams that are alike or nearly so and take turns in missing, so that the
/// histories come round only after some boundaries.
fn alike_table(random: &mut Random) -> Vec<(u64, Numbers)> {
    let count = random.pick(&[2, 2, 3, 3, 3, 4, 4, 5, 6]);
    let t = random.pick(&[2, 3, 4, 5, 6, 8, 10, 12, 20, 24]);
    // So many of the frames of one period can be sent.
    let sent = random.between(1, count).min(t);
    let k = random.between(2, if count < 5 { 6 } else { 4 });
    let m = (k * sent / count).clamp(1, k);
    let not_passing = random.pick(&[0, 0, 0, 0, 0, 5, 80]);
    let mut streams = Vec::new();
    let mut n = 1;
    for slot in slots(random, count) {
        let mut numbers = Numbers { t, d: t, c: t / sent, m, k, h: (1 << k) - 1 };
        if random.percent(15) {
            numbers.t = t * random.pick(&[2, 2, 3]);
            numbers.d = numbers.t;
        }
        if random.percent(20) {
            numbers.c = random.between(1, numbers.c);
        }
        if random.percent(15) {
            numbers.d = random.between(numbers.c, numbers.t);
        }
        if random.percent(30) {
            numbers.k = random.between(2, 7);
            numbers.m = (numbers.k * sent / count).clamp(1, numbers.k);
        }
        if n * passing(numbers.m, numbers.k) > 1_048_576 {
            numbers.k = 1;
            numbers.m = 1;
        }
        n *= passing(numbers.m, numbers.k);
        numbers.h = history(random, numbers.m, numbers.k, not_passing);
        streams.push((slot, numbers));
    }
    streams
}

/// Tables on both sides of the limits.
fn limit_table(random: &mut Random) -> Vec<(u64, Numbers)> {
    let ones = |k: u64| (1u64 << k) - 1;
    let plain = |t: u64, m: u64, k: u64| Numbers { t, d: t, c: 1, m, k, h: ones(k) };
    let mut list = match random.below(10) {
        0 => vec![plain(4096, 1, 1), plain(9, 1, 1)],
        1 => vec![plain(4096, 1, 1), plain(11, 1, 1)],
        2 => vec![plain(4, 1, 16), plain(6, 3, 5)],
        3 => vec![plain(4, 1, 16), plain(6, 1, 5)],
        // N is 16^5 = 1,048,576, and then twice or more of it.
        4 => vec![plain(6, 3, 5); 5],
        5 => vec![
            plain(7, 3, 5),
            plain(7, 3, 5),
            plain(7, 3, 5),
            plain(7, 3, 5),
            plain(7, 3, 5),
            plain(7, 1, 2),
        ],
        6 => vec![plain(4096, 1, 2); 8],
        7 => vec![plain(4096, 16, 16), plain(2304, 1, 1)],
        8 => vec![plain(16, 1, 16)],
        _ => vec![plain(1, 1, 1); 8],
    };
    for numbers in &mut list {
        if random.percent(40) {
            numbers.c = random.between(1, numbers.t.min(40));
        }
        if random.percent(10) {
            numbers.c = numbers.t;
        }
        if random.percent(30) {
            numbers.d = numbers.c;
        }
        if random.percent(30) {
            numbers.h = history(random, numbers.m, numbers.k, 10);
        }
    }
    slots(random, list.len() as u64).into_iter().zip(list).collect()
}

/// Puts one number past its limits.
fn spoil(random: &mut Random, numbers: &mut Numbers) {
    match random.below(6) {
        0 => numbers.t = random.pick(&[0, 4097, 4352, 32_768, 65_535]),
        1 => numbers.d = random.pick(&[0, numbers.t + 1, 65_535]),
        2 => numbers.c = random.pick(&[0, numbers.d + 1, numbers.t + 1, 65_535]),
        3 => numbers.k = random.pick(&[0, 17, 32, 64, 128, 255]),
        4 => numbers.m = random.pick(&[0, numbers.k + 1, 17, 255]),
        _ => numbers.h |= random.pick(&[1 << numbers.k.min(15), 0x8000, 0xFFFF]),
    }
    for number in [&mut numbers.t, &mut numbers.d, &mut numbers.c, &mut numbers.h] {
        *number = (*number).min(65_535);
    }
    for number in [&mut numbers.m, &mut numbers.k] {
        *number = (*number).min(255);
    }
}

// -------------------------------------------------------------- Table files

/// The table file of some streams; a field that may be missing often is.
fn write_file(random: &mut Random, streams: &[(u64, Numbers)]) -> Vec<u8> {
    let mut file = vec![streams.iter().fold(0u8, |map, (slot, _)| map | 1 << slot)];
    let mut before = None;
    for (_, numbers) in streams {
        let ones = (1u64 << numbers.k.min(16)) - 1;
        let fields = [
            (numbers.t, 2, before),
            (numbers.c, 2, Some(1)),
            (numbers.d, 2, Some(numbers.t)),
            (numbers.k, 1, Some(1)),
            (numbers.m, 1, Some(numbers.k)),
            (numbers.h, 2, Some(ones)),
        ];
        let mut map = 0u8;
        let mut bytes = Vec::new();
        for (bit, (value, width, missing)) in fields.into_iter().enumerate() {
            if missing == Some(value) && random.percent(75) {
                continue;
            }
            map |= 1 << bit;
            if width == 2 {
                bytes.push((value >> 8) as u8);
            }
            bytes.push(value as u8);
        }
        file.push(map);
        file.extend(bytes);
        before = Some(numbers.t);
    }
    file
}

fn flip_bits(random: &mut Random, bytes: &mut [u8]) {
    if bytes.is_empty() {
        return;
    }
    for _ in 0..random.between(1, 3) {
        let place = random.below(bytes.len() as u64) as usize;
        bytes[place] ^= 1 << random.below(8);
    }
}

fn random_bytes(random: &mut Random, most: u64) -> Vec<u8> {
    (0..random.between(1, most)).map(|_| random.below(256) as u8).collect()
}

/// A table file, damaged in some cases of a hundred.
fn file(random: &mut Random, damaged: u64) -> Vec<u8> {
    let mut streams = table(random);
    if !random.percent(damaged) {
        return write_file(random, &streams);
    }
    match random.below(20) {
        0..=7 => {
            for _ in 0..random.pick(&[1, 1, 2]) {
                if !streams.is_empty() {
                    let which = random.below(streams.len() as u64) as usize;
                    spoil(random, &mut streams[which].1);
                }
            }
            write_file(random, &streams)
        }
        8..=10 => {
            let mut file = write_file(random, &streams);
            file.truncate(random.below(file.len() as u64) as usize);
            file
        }
        11..=12 => {
            let mut file = write_file(random, &streams);
            file.extend(random_bytes(random, 4));
            file
        }
        13..=16 => {
            let mut file = write_file(random, &streams);
            flip_bits(random, &mut file);
            file
        }
        // The first field map without T, or with a bit that names no field.
        17..=18 => {
            let mut file = write_file(random, &streams);
            if file.len() > 1 {
                file[1] = if random.percent(50) {
                    file[1] & !1
                } else {
                    file[1] | 0x40 << random.below(2)
                };
            }
            file
        }
        _ => random_bytes(random, 20),
    }
}

// ------------------------------------------------------------- Whole inputs

fn input(random: &mut Random) -> Vec<u8> {
    let word = random.pick(&WORDS).as_bytes().to_vec();
    match random.below(100) {
        0..=91 => [word, vec![10], file(random, 28)].concat(),
        // A word of no rule.
        92..=94 => {
            let mut other = random.pick(&[
                "", "D", "L", "H", "DE", "DEM", "DELL", "del", " DEL", "DEL ", "DEL\r", "LED",
                "EH", "MH", "DREH", "KL", "DMH", "DERL", "\0", "forecast",
            ]);
            if random.percent(10) {
                other = "DELDELDELDELDELDELDELDEL";
            }
            [other.as_bytes().to_vec(), vec![10], file(random, 10)].concat()
        }
        // No byte 10, unless the table has one.
        95 => [word, file(random, 10)].concat(),
        96 => random.pick(&[vec![], vec![10], word.clone(), [word, vec![10]].concat()]),
        97..=98 => {
            let mut bytes = [word, vec![10], file(random, 0)].concat();
            flip_bits(random, &mut bytes);
            bytes
        }
        // Near or past the most bytes that are read; seldom, for they are long.
        _ => {
            let mut bytes = [word, vec![10], file(random, 0)].concat();
            if random.percent(20) {
                let length = random.pick(&[4095, 4096, 4097, 4200]);
                bytes.resize(length, random.pick(&[0, 10, 255]));
            } else if random.percent(10) {
                // The first byte 10 lies past them.
                bytes = [vec![b'D'; random.pick(&[4095, 4096])], vec![10], bytes].concat();
            }
            bytes
        }
    }
}

fn hexadecimal(bytes: &[u8], capital: bool) -> String {
    bytes
        .iter()
        .map(|byte| if capital { format!("{byte:02X}") } else { format!("{byte:02x}") })
        .collect()
}

fn vectors(random: &mut Random, count: u64, out: &mut impl Write) -> io::Result<()> {
    let mut written = 0;
    while written < count {
        let bytes = input(random);
        writeln!(out, "{}", hexadecimal(&bytes, false))?;
        written += 1;
        // Sometimes the same table under the other words.
        let end = bytes.iter().position(|byte| *byte == 10).unwrap_or(bytes.len());
        if end < bytes.len() && bytes.len() < 200 && random.percent(8) {
            for word in WORDS {
                if word.as_bytes() != &bytes[..end] && written < count {
                    let other = [word.as_bytes(), &bytes[end..]].concat();
                    writeln!(out, "{}", hexadecimal(&other, false))?;
                    written += 1;
                }
            }
        }
    }
    Ok(())
}

// ------------------------------------------------------------------ Scripts

/// A number as a script writes it.
fn text(random: &mut Random, number: u64) -> String {
    match random.below(20) {
        0 => format!("0x{number:x}"),
        1 => format!("0x{number:X}"),
        2 => format!("0{number}"),
        _ => number.to_string(),
    }
}

/// A number past some or all limits.
fn wild(random: &mut Random) -> String {
    random
        .pick(&[
            "8",
            "9",
            "17",
            "255",
            "256",
            "257",
            "4097",
            "65535",
            "65536",
            "65537",
            "131072",
            "0x10000",
            "4294967295",
            "4294967296",
            "4294967297",
            "1099511627776",
            "1099511627777",
            "9223372036854775807",
            "9223372036854775808",
            "18446744073709551615",
            "18446744073709551616",
            "18446744073709551617",
            "0x100000000",
            "0xFFFFFFFFFFFFFFFF",
            "0x10000000000000000",
            "0x10000000000000001",
            "0xffffffffffffffffffffffff",
            "340282366920938463463374607431768211457",
        ])
        .to_string()
}

fn script_slot(random: &mut Random, taken: &[bool; 8], want: bool) -> String {
    let wanted: Vec<u64> = (0..8).filter(|slot| taken[*slot as usize] == want).collect();
    if random.percent(5) {
        return wild(random);
    }
    if random.percent(15) || wanted.is_empty() {
        let slot = random.between(0, 8);
        return text(random, slot);
    }
    let slot = random.pick(&wanted);
    text(random, slot)
}

fn mark(taken: &mut [bool; 8], slot: &str, stands: bool) {
    if let Ok(slot @ 0..=7) = slot.parse::<usize>() {
        taken[slot] = stands;
    }
}

fn script(random: &mut Random, out: &mut impl Write) -> io::Result<()> {
    let mut family = family(random, 3);
    // Which slots are taken, as far as can be told without working the calls.
    let mut taken = [false; 8];
    let mut running = false;
    let mut fitted = 0;
    writeln!(out, "rule {}", random.pick(&WORDS))?;

    for _ in 0..random.between(6, 60) {
        let call = random.below(100);
        if !running {
            match call {
                0..=47 => {
                    let slot = script_slot(random, &taken, false);
                    let numbers = stream(random, &family);
                    let mut arguments: Vec<String> =
                        [numbers.t, numbers.d, numbers.c, numbers.m, numbers.k, numbers.h]
                            .into_iter()
                            .map(|number| text(random, number))
                            .collect();
                    if random.percent(14) {
                        for _ in 0..random.pick(&[1, 1, 2, 3]) {
                            let which = random.below(6) as usize;
                            arguments[which] = if random.percent(60) {
                                let mut spoilt = numbers.clone();
                                spoil(random, &mut spoilt);
                                let list =
                                    [spoilt.t, spoilt.d, spoilt.c, spoilt.m, spoilt.k, spoilt.h];
                                list[which].to_string()
                            } else if random.percent(20) {
                                "0".to_string()
                            } else {
                                wild(random)
                            };
                        }
                    }
                    writeln!(out, "fit {slot} {}", arguments.join(" "))?;
                    mark(&mut taken, &slot, true);
                    fitted += 1;
                }
                48..=57 => {
                    let slot = script_slot(random, &taken, true);
                    let h = match random.below(12) {
                        0 => wild(random),
                        1..=3 => random.below(1 << 16).to_string(),
                        _ => {
                            let bits = random.between(1, 6);
                            let h = random.below(1 << bits);
                            text(random, h)
                        }
                    };
                    writeln!(out, "prime {slot} {h}")?;
                }
                58..=65 => {
                    let slot = script_slot(random, &taken, true);
                    writeln!(out, "pull {slot}")?;
                    mark(&mut taken, &slot, false);
                }
                66..=72 => {
                    let file = file(random, 40);
                    if file.is_empty() {
                        writeln!(out, "load")?;
                    } else {
                        writeln!(out, "load {}", hexadecimal(&file, random.percent(70)))?;
                        for slot in 0..8 {
                            taken[slot] = file[0] >> slot & 1 == 1;
                        }
                        fitted += 2;
                    }
                }
                // Seldom with nothing fitted.
                _ if fitted > random.below(4) || random.percent(10) => {
                    writeln!(out, "start")?;
                    running = true;
                }
                _ => {}
            }
        } else {
            match call {
                0..=33 => {
                    let period = random.pick(&family.periods);
                    let units = match random.below(100) {
                        0..=4 => 0,
                        5..=24 => 1,
                        25..=64 => random.between(1, 2 * period),
                        65..=94 => random.between(1, 120),
                        95..=96 => random.between(1, 3000),
                        97 => random.pick(&[65_534, 65_535]),
                        _ => random.pick(&[65_536, 65_537, 70_000]),
                    };
                    if random.percent(2) {
                        let mut units = wild(random);
                        // The same cost as above: no long runs but few.
                        if units == "65535" {
                            units = "65536".to_string();
                        }
                        writeln!(out, "advance {units}")?;
                    } else {
                        writeln!(out, "advance {}", text(random, units))?;
                    }
                }
                34..=49 => writeln!(out, "disturb")?,
                // A burst of noise.
                50..=55 => {
                    for _ in 0..random.between(2, 8) {
                        writeln!(out, "disturb")?;
                    }
                }
                56..=69 => {
                    writeln!(out, "forecast")?;
                    if random.percent(70) {
                        writeln!(out, "figures")?;
                    }
                }
                70..=75 => writeln!(out, "figures")?,
                76..=88 => {
                    writeln!(out, "stop")?;
                    running = false;
                    fitted = 3;
                }
                89..=97 => {
                    writeln!(out, "stop")?;
                    writeln!(out, "start")?;
                    writeln!(out, "forecast")?;
                }
                // A new bench in the place of a running one.
                98 => {
                    writeln!(out, "rule {}", random.pick(&WORDS))?;
                    family = self::family(random, 3);
                    taken = [false; 8];
                    running = false;
                    fitted = 0;
                }
                _ => {}
            }
        }
    }
    Ok(())
}

fn main() -> ExitCode {
    let arguments: Vec<String> = std::env::args().skip(1).collect();
    let numbers =
        || Some((arguments.get(1)?.parse().ok()?, arguments.get(2)?.parse::<u64>().ok()?));
    let mut out = BufWriter::new(io::stdout());
    let done = match (arguments.first().map(String::as_str), numbers(), arguments.len()) {
        (Some("vectors"), Some((seed, count)), 3) => {
            vectors(&mut Random::new(seed), count, &mut out)
        }
        (Some("scripts"), Some((seed, count)), 3) => {
            let random = &mut Random::new(seed);
            (0..count).try_for_each(|_| script(random, &mut out))
        }
        _ => Err(io::Error::other(
            "usage: generate vectors SEED COUNT | generate scripts SEED COUNT",
        )),
    };
    match done.and_then(|()| out.flush()) {
        Ok(()) => ExitCode::SUCCESS,
        Err(error) => {
            eprintln!("generate: {error}");
            ExitCode::FAILURE
        }
    }
}
