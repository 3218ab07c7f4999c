// Compares the engine with the twin: `compare [CALLS [FIRST_SEED [LINES]]]`. Random inputs for checks, packing and reading, and
// random scripts, until there were so many calls. A script that gives a difference is made as short as it gets and printed.
// The status is 1 where there was a difference.
#[path = "embed.rs"]
mod embed;
#[path = "random.rs"]
#[allow(dead_code)]
mod random;
#[path = "twin.rs"]
#[allow(dead_code)]
mod twin;

use std::collections::BTreeMap;
use std::ops::RangeInclusive;

// ---- random numbers

struct Random(u64);

impl Random {
    fn new(seed: u64) -> Random {
        Random(seed.wrapping_mul(0x9E37_79B9_7F4A_7C15) | 1)
    }

    fn next(&mut self) -> u64 {
        self.0 ^= self.0 << 13;
        self.0 ^= self.0 >> 7;
        self.0 ^= self.0 << 17;
        self.0
    }

    fn within(&mut self, range: RangeInclusive<usize>) -> usize {
        range.start() + (self.next() >> 11) as usize % (range.end() - range.start() + 1)
    }

    fn chance(&mut self, percent: usize) -> bool {
        self.within(0..=99) < percent
    }

    fn byte(&mut self) -> u8 {
        (self.next() >> 20) as u8
    }

    fn bytes(&mut self, n: usize) -> Vec<u8> {
        (0..n).map(|_| self.byte()).collect()
    }

    /// 8 or 16, seldom another.
    fn kind(&mut self) -> u8 {
        if self.chance(3) { self.byte() } else { [8, 16][self.within(0..=1)] }
    }
}

fn kind_of(kind: u8) -> Option<twin::Kind> {
    match kind {
        8 => Some(twin::Kind::Crc8),
        16 => Some(twin::Kind::Crc16),
        _ => None,
    }
}

// ---- direct calls

/// Prints what differs; answers whether it does.
fn differs<T: PartialEq + std::fmt::Debug>(what: impl FnOnce() -> String, ours: &T, theirs: &T) -> bool {
    if ours == theirs {
        return false;
    }
    println!("DIFFERENCE {}\n  engine {ours:02X?}\n  twin   {theirs:02X?}", what());
    true
}

fn compare_checks(random: &mut Random) -> bool {
    let length = random.within(0..=48);
    let bytes = random.bytes(length);
    let bits = if random.chance(2) { usize::MAX - random.within(0..=9) } else { random.within(0..=400) };
    let what = |kind| move || format!("check of {kind} bits");
    differs(what(8), &u16::from(embed::crc8(&bytes, bits)), &twin::check8(&bytes, bits))
        | differs(what(16), &embed::crc16(&bytes, bits), &twin::check16(&bytes, bits))
}

struct Fields {
    kind: u8,
    address: Vec<u8>,
    pid: u8,
    no_ack: bool,
    payload: Vec<u8>,
}

fn fields(random: &mut Random) -> Fields {
    let often = random.chance(90);
    let (address, pid, payload) = if often { (3..=5, 0..=3, 0..=32) } else { (0..=8, 0..=255, 0..=40) };
    let (address, payload) = (random.within(address), random.within(payload));
    Fields {
        kind: random.kind(),
        address: random.bytes(address),
        pid: random.within(pid) as u8,
        no_ack: random.chance(50),
        payload: random.bytes(payload),
    }
}

/// The twin's answer in the words of the engine's call.
fn twin_packs(f: &Fields, frame: &mut [u8]) -> usize {
    let Some(kind) = kind_of(f.kind) else { return 0 };
    let Some(front) = frame.first_chunk_mut::<42>() else { return 0 };
    twin::pack(kind, &f.address, f.pid, f.no_ack, &f.payload, front)
}

fn compare_packing(random: &mut Random) -> bool {
    let f = fields(random);
    let room = if random.chance(90) { random.within(42..=64) } else { random.within(0..=41) };
    let mut ours = random.bytes(room);
    let mut theirs = ours.clone();
    let bits = embed::pack(f.kind, &f.address, f.pid, f.no_ack, &f.payload, &mut ours);
    let twin_bits = twin_packs(&f, &mut theirs);
    let what = || {
        format!("pack {} {:02X?} {} {} {:02X?}, room {room}", f.kind, f.address, f.pid, f.no_ack, f.payload)
    };
    differs(what, &(bits, ours), &(twin_bits, theirs))
}

fn twin_reads(kind: u8, width: usize, bytes: &[u8], bits: usize, packet: &mut embed::Packet) -> u8 {
    if !(3..=5).contains(&width) {
        return 255;
    }
    let read = match kind_of(kind) {
        None => return 255,
        Some(twin::Kind::Crc8) => twin::read_frame::<twin::Crc8>(bytes, bits, width),
        Some(twin::Kind::Crc16) => twin::read_frame::<twin::Crc16>(bytes, bits, width),
    };
    match read {
        Err(refusal) => refusal.number(),
        Ok(None) => 0,
        Ok(Some(read)) => {
            *packet = embed::Packet {
                check: read.check,
                pid: read.pid,
                no_ack: read.no_ack,
                length: read.length,
                address: read.address.bytes(),
                payload: read.bytes,
            };
            1
        }
    }
}

fn compare_reading(random: &mut Random) -> bool {
    let f = fields(random);
    let mut bytes = random.bytes(46);
    let mut bits = twin_packs(&f, &mut bytes);
    let (mut kind, mut width) = (f.kind, f.address.len());
    match random.within(0..=9) {
        0 => bits = random.within(0..=400),
        1 => bits = [bits.wrapping_sub(1), bits + 1, usize::MAX, 8 * bytes.len() + 1][random.within(0..=3)],
        2 => bytes.truncate(random.within(0..=46)),
        3 => (kind, width) = (random.kind(), random.within(0..=6)),
        4 | 5 => {
            let turned = random.within(0..=8 * bytes.len() - 1);
            bytes[turned / 8] ^= 0x80 >> (turned % 8);
        }
        _ => {}
    }
    let before = embed::Packet { check: 1, pid: 9, no_ack: true, length: 77, address: [3; 5], payload: [4; 32] };
    let (mut ours, mut theirs) = (before, before);
    let outcome = embed::read(kind, width, &bytes, bits, &mut ours);
    let twin_outcome = twin_reads(kind, width, &bytes, bits, &mut theirs);
    let what = || format!("read {kind} {width} {bits} of {bytes:02X?}");
    differs(what, &(outcome, ours), &(twin_outcome, theirs))
}

fn compare_direct(calls: u64, seed: u64) -> u64 {
    let mut random = Random::new(seed);
    let mut different = 0;
    for _ in 0..calls {
        different += u64::from(compare_checks(&mut random));
        different += u64::from(compare_packing(&mut random));
        different += u64::from(compare_reading(&mut random));
        if different > 20 {
            println!("too many differences");
            break;
        }
    }
    different
}

// ---- scripts

/// The results of the engine's lines without what explains them: ` (..)` behind a result, and lines for people.
fn bare(results: &[u8]) -> Vec<&[u8]> {
    let numbered = |line: &&[u8]| {
        let digits = line.iter().take_while(|byte| byte.is_ascii_digit()).count();
        digits > 0 && line.get(digits) == Some(&b':')
    };
    let result = |line| {
        let line: &[u8] = line;
        let end = line.windows(2).position(|two| two == b" (").unwrap_or(line.len());
        &line[..end]
    };
    results.split(|&byte| byte == b'\n').filter(numbered).map(result).collect()
}

/// The first place where the results differ, with the result of each; `None` stands for no further result.
fn difference(script: &[u8]) -> Option<(Option<String>, Option<String>)> {
    let ours = embed::run(script);
    let theirs = twin::run(script);
    let (ours, theirs) = (bare(&ours), bare(&theirs));
    let at = (0..ours.len().max(theirs.len())).find(|&at| ours.get(at) != theirs.get(at))?;
    let text = |line: Option<&&[u8]>| line.map(|line| String::from_utf8_lossy(line).into_owned());
    Some((text(ours.get(at)), text(theirs.get(at))))
}

/// Drops lines while there is still a difference, in ever smaller pieces.
fn shortened(script: &[u8]) -> Vec<u8> {
    let mut lines: Vec<&[u8]> = script.split_inclusive(|&byte| byte == b'\n').collect();
    let mut piece = lines.len().div_ceil(2);
    loop {
        let mut at = 0;
        let mut dropped = false;
        while at < lines.len() {
            let mut fewer = lines.clone();
            fewer.drain(at..(at + piece).min(lines.len()));
            if difference(&fewer.concat()).is_some() {
                lines = fewer;
                dropped = true;
            } else {
                at += piece;
            }
        }
        if piece > 1 {
            piece = piece.div_ceil(2);
        } else if !dropped {
            return lines.concat();
        }
    }
}

/// What came of each kind of line: how often it was carried out, refused by which numbers, and could not be.
#[derive(Default)]
struct Tally {
    calls: u64,
    by_verb: BTreeMap<String, BTreeMap<String, u64>>,
}

impl Tally {
    fn count(&mut self, script: &[u8], results: &[u8]) {
        let lines: Vec<&[u8]> = script.split(|&byte| byte == b'\n').collect();
        for result in String::from_utf8_lossy(results).lines() {
            let Some((number, result)) = result.split_once(": ") else { continue };
            let line = number.parse().ok().and_then(|number: usize| lines.get(number - 1));
            let line = String::from_utf8_lossy(line.copied().unwrap_or(b""));
            let verb = line.split_whitespace().next().unwrap_or("").to_string();
            let words: Vec<&str> = result.split(' ').collect();
            let outcome = match words[..] {
                ["refused", "unit" | "cell", _, number, ..] | ["refused", number, ..] => format!("refused {number}"),
                ["ok", "frame", ..] | ["ok", _, "frame", ..] => "ok frame".to_string(),
                [first, ..] => first.to_string(),
                [] => String::new(),
            };
            let known = result != "cannot" || verb.chars().all(|c| c.is_ascii_lowercase()) && verb.len() < 8;
            let verb = if known { verb } else { "(no verb)".to_string() };
            *self.by_verb.entry(verb).or_default().entry(outcome).or_default() += 1;
            self.calls += 1;
        }
    }

    fn print(&self) {
        let mut others: BTreeMap<String, u64> = BTreeMap::new();
        for (verb, outcomes) in &self.by_verb {
            if outcomes.len() == 1 && outcomes.contains_key("cannot") {
                *others.entry("cannot".to_string()).or_default() += outcomes["cannot"];
                continue;
            }
            let outcomes: Vec<String> = outcomes.iter().map(|(outcome, count)| format!("{outcome}: {count}")).collect();
            println!("  {verb:8} {}", outcomes.join("; "));
        }
        println!("  (others) cannot: {}", others.get("cannot").unwrap_or(&0));
    }
}

/// Odd seeds keep to what the documents settle, even ones have the rest of the grammar too, such as odd blanks and zeros.
fn script(seed: u64, lines: usize) -> Vec<u8> {
    random::script_with(seed, lines, seed.is_multiple_of(2))
}

fn compare_scripts(calls: u64, first: u64, lines: usize) -> u64 {
    let mut tally = Tally::default();
    let mut seed = first;
    let mut different = 0;
    while tally.calls < calls {
        let script = script(seed, lines);
        if let Some((ours, theirs)) = difference(&script) {
            different += 1;
            println!("DIFFERENCE in the script of seed {seed} ({lines} lines): engine {ours:?}, twin {theirs:?}; shortened:");
            let short = shortened(&script);
            println!("{}", String::from_utf8_lossy(&short));
            if let Some((ours, theirs)) = difference(&short) {
                println!("  engine {ours:?}\n  twin   {theirs:?}\n");
            }
            if different >= 10 {
                println!("too many differences");
                break;
            }
        }
        tally.count(&script, &twin::run(&script));
        seed += 1;
    }
    println!(
        "scripts: seeds {first} to {}, {lines} lines each, {} calls, {different} scripts with a difference; of the calls",
        seed - 1,
        tally.calls
    );
    tally.print();
    different
}

fn main() {
    let args: Vec<u64> = std::env::args().skip(1).map(|arg| arg.parse().expect("a number")).collect();
    let calls = args.first().copied().unwrap_or(1_000_000);
    let first = args.get(1).copied().unwrap_or(1);
    let lines = args.get(2).map_or(1000, |&lines| lines as usize);
    let mut different = compare_direct(calls / 4, first);
    println!("direct calls: seed {first}, {} each of both checks, pack and read, {different} differences", calls / 4);
    different += compare_scripts(calls, first, lines);
    println!("{}", if different == 0 { "no difference" } else { "THERE ARE DIFFERENCES" });
    std::process::exit(i32::from(different > 0));
}
