// Measures the engine beside the twin: `speed [ROUNDS]` (9 where none are named), and `speed hour` for a whole hour of six
// senders, once. Each line of the table is one loop of crates/embed/src/repeating/, done by the engine and by the twin in turn,
// so many rounds; the fastest round of each counts. Both must answer the same number.
#[path = "twin.rs"]
#[allow(dead_code)]
mod twin;

use std::hint::black_box;
use twin::{Bench, Boxed, Cell, Check, Crc8, Crc16, Kind, pack, read_frame};

const ADDRESS: [u8; 5] = [0xE7; 5];
const PAYLOAD: [u8; 32] = [0x5A; 32];

mod ours {
    unsafe extern "C" {
        pub safe fn sinkapricot_repeat_crc8(turns: u64) -> u8;
        pub safe fn sinkapricot_repeat_crc16(turns: u64) -> u16;
        pub safe fn sinkapricot_repeat_pack(kind: u8, turns: u64) -> u8;
        pub safe fn sinkapricot_repeat_read(kind: u8, turns: u64) -> u8;
        pub safe fn sinkapricot_repeat_tick_standby(turns: u64) -> u64;
        pub safe fn sinkapricot_repeat_tick_waiting(turns: u64) -> u64;
        pub safe fn sinkapricot_repeat_hear_taking(turns: u64) -> u64;
        pub safe fn sinkapricot_repeat_hear_knowing(turns: u64) -> u64;
        pub safe fn sinkapricot_repeat_exchange(turns: u64) -> u64;
        pub safe fn sinkapricot_repeat_round(turns: u64, every: u64) -> u64;
    }
}

// ---- the same loops over the twin

#[inline(never)]
fn check_again<C: Check>(bytes: &mut [u8; 42]) -> u16 {
    let check = C::of(black_box(bytes), black_box(321));
    bytes[0] = check as u8;
    check
}

fn checks_again<C: Check>(turns: u64) -> u64 {
    let mut bytes = [0x5A; 42];
    let mut check = 0;
    for _ in 0..turns {
        check = check_again::<C>(&mut bytes);
    }
    check.into()
}

#[inline(never)]
fn pack_again(kind: Kind, payload: &mut [u8; 32], frame: &mut [u8; 42]) {
    pack(kind, black_box(&ADDRESS), black_box(1), false, payload, frame);
    payload[0] = frame[39];
}

fn packs_again(kind: Kind, turns: u64) -> u64 {
    let mut payload = PAYLOAD;
    let mut frame = [0; 42];
    for _ in 0..turns {
        pack_again(kind, &mut payload, &mut frame);
    }
    frame[39].into()
}

#[inline(never)]
fn read_again(kind: Kind, bits: usize, frame: &mut [u8; 42]) {
    let packet = match kind {
        Kind::Crc8 => read_frame::<Crc8>(frame, bits, black_box(5)),
        Kind::Crc16 => read_frame::<Crc16>(frame, bits, black_box(5)),
    };
    if let Ok(Some(packet)) = black_box(packet) {
        frame[0] = frame[0].wrapping_add(packet.bytes[31]);
    }
}

fn reads_again(kind: Kind, turns: u64) -> u64 {
    let mut frame = [0; 42];
    let bits = pack(kind, &ADDRESS, 1, false, &PAYLOAD, &mut frame);
    for _ in 0..turns {
        read_again(kind, bits, &mut frame);
    }
    frame[0].into()
}

fn unit_up(profile: &[u8], config: u8, ce: bool) -> Boxed<Crc16> {
    let mut bench = Bench::new();
    let _ = bench.load(profile);
    let mut unit = bench.boxed();
    let mut buffer = [0; 42];
    let _ = unit.ce(ce);
    let _ = unit.command(&[0x20, config], &mut buffer);
    for _ in 0..213 {
        let _ = unit.tick(&mut buffer);
    }
    unit
}

fn sender(ce: bool) -> Boxed<Crc16> {
    unit_up(&[0x00, 0x00, 0x00, 0x11, 0x0C, 0xFF], 0x0E, ce)
}

fn receiver() -> Boxed<Crc16> {
    unit_up(&[0x00, 0x02, 0x00, 0x05, 0x0D, 0x01, 0x20], 0x0F, true)
}

#[inline(never)]
fn tick_again(unit: &mut Boxed<Crc16>, buffer: &mut [u8; 42]) -> u64 {
    let bits = unit.tick(buffer).unwrap_or(0);
    if unit.irq_low() {
        let _ = unit.command(&[0x27, 0x10], buffer);
    }
    bits as u64
}

fn ticks_again(mut unit: Boxed<Crc16>, turns: u64) -> u64 {
    let mut buffer = [0; 42];
    (0..turns).fold(0u64, |sum, _| sum.wrapping_add(tick_again(&mut unit, &mut buffer)))
}

fn standby(turns: u64) -> u64 {
    ticks_again(sender(false), turns)
}

fn waiting(turns: u64) -> u64 {
    let mut unit = sender(true);
    let _ = unit.command(&[0xA0, 0x5A], &mut [0; 42]);
    ticks_again(unit, turns)
}

#[inline(never)]
fn take_again(unit: &mut Boxed<Crc16>, frame: &[u8; 42], buffer: &mut [u8; 42]) -> u64 {
    let bits = unit.hear(frame, 329, buffer).unwrap_or(0);
    let _ = unit.command(&[0xE2], buffer);
    bits as u64
}

fn taking(turns: u64) -> u64 {
    let mut unit = receiver();
    let mut frames = [[0; 42]; 2];
    pack(Kind::Crc16, &ADDRESS, 0, false, &PAYLOAD, &mut frames[0]);
    pack(Kind::Crc16, &ADDRESS, 1, false, &PAYLOAD, &mut frames[1]);
    let mut buffer = [0; 42];
    let mut sum = 0u64;
    for turn in 0..turns {
        let frame = frames[(turn % 2) as usize];
        sum = sum.wrapping_add(take_again(&mut unit, &frame, &mut buffer));
    }
    sum
}

#[inline(never)]
fn know_again(unit: &mut Boxed<Crc16>, frame: &[u8; 42], buffer: &mut [u8; 42]) -> u64 {
    unit.hear(frame, 329, buffer).unwrap_or(0) as u64
}

fn knowing(turns: u64) -> u64 {
    let mut unit = receiver();
    let mut frame = [0; 42];
    pack(Kind::Crc16, &ADDRESS, 1, false, &PAYLOAD, &mut frame);
    let mut buffer = [0; 42];
    (0..turns).fold(0u64, |sum, _| sum.wrapping_add(know_again(&mut unit, &frame, &mut buffer)))
}

fn boxed(profile: &[u8]) -> Boxed<Crc16> {
    let mut bench = Bench::new();
    let _ = bench.load(profile);
    bench.boxed()
}

fn sender_to(pipe: u8) -> Boxed<Crc16> {
    let address = match pipe {
        0 => [0xE7; 5],
        1 => [0xC2; 5],
        _ => [0xC1 + pipe, 0xC2, 0xC2, 0xC2, 0xC2],
    };
    let mut profile = vec![0x00, 0x01, 0x04, 0x11, 0x0C, 0x2F];
    profile.extend(address);
    profile.extend(address);
    boxed(&profile)
}

fn cell_of_six() -> Cell<Crc16> {
    let receiver = [0x00, 0x7E, 0x00, 0x05, 0x0D, 0x3F, 0x20, 0x20, 0x20, 0x20, 0x20, 0x20];
    let mut units = vec![boxed(&receiver)];
    units.extend((0..6).map(sender_to));
    let Ok(mut cell) = Cell::make(units) else { panic!("no cell") };
    for unit in 0..7 {
        let config = if unit == 0 { 0x0F } else { 0x0E };
        let _ = cell.ce(unit, true);
        let _ = cell.command(unit, &[0x20, config], &mut [0; 33]);
        for _ in 0..213 {
            let _ = cell.tick(unit);
        }
    }
    cell
}

fn delivered(cell: &mut Cell<Crc16>, reply: &mut [u8; 33]) -> u64 {
    let _ = cell.carry(1, 0, 0);
    let _ = cell.carry(1, 0, 0);
    cell.command(0, &[0x61], reply).unwrap_or(0) as u64
}

#[inline(never)]
fn exchange_again(cell: &mut Cell<Crc16>, host: &mut [u8; 33], reply: &mut [u8; 33]) -> u64 {
    let _ = cell.command(1, host, reply);
    for _ in 0..14 {
        let _ = cell.tick(1);
    }
    host[1] = host[1].wrapping_add(1);
    delivered(cell, reply)
}

fn exchanges(turns: u64) -> u64 {
    let mut cell = cell_of_six();
    let mut host = [0x5A; 33];
    host[0] = 0xA0;
    let mut reply = [0; 33];
    (0..turns).fold(0u64, |sum, _| sum.wrapping_add(exchange_again(&mut cell, &mut host, &mut reply)))
}

#[inline(never)]
fn round_again(cell: &mut Cell<Crc16>, reply: &mut [u8; 33]) -> u64 {
    let mut sum = 0u64;
    for unit in 1..7 {
        if cell.tick(unit).unwrap_or(0) > 0 {
            sum = sum.wrapping_add(delivered(cell, reply));
        }
    }
    sum
}

fn round(turns: u64, every: u64) -> u64 {
    let mut cell = cell_of_six();
    let mut host = [0x5A; 33];
    host[0] = 0xA0;
    let mut reply = [0; 33];
    let (mut sum, mut left) = (0u64, 0u64);
    for _ in 0..turns {
        if left == 0 {
            for unit in 1..7 {
                let _ = cell.command(unit, &host, &mut reply);
            }
            left = every;
        }
        left = left.saturating_sub(1);
        sum = sum.wrapping_add(round_again(&mut cell, &mut reply));
    }
    sum
}

// ---- measuring

struct Row {
    what: &'static str,
    turns: u64,
    ours: fn(u64) -> u64,
    twins: fn(u64) -> u64,
}

/// The processor's time of this thread, in nanoseconds: other work on the machine does not count.
fn now() -> f64 {
    #[repr(C)]
    struct Time {
        seconds: i64,
        nanoseconds: i64,
    }
    unsafe extern "C" {
        fn clock_gettime(clock: i32, time: *mut Time) -> i32;
    }
    const THREAD: i32 = 3;
    let mut time = Time { seconds: 0, nanoseconds: 0 };
    assert_eq!(unsafe { clock_gettime(THREAD, &mut time) }, 0);
    time.seconds as f64 * 1e9 + time.nanoseconds as f64
}

/// Nanoseconds a turn, and what was answered.
fn timed(work: fn(u64) -> u64, turns: u64) -> (f64, u64) {
    let start = now();
    let answer = work(black_box(turns));
    ((now() - start) / turns as f64, answer)
}

fn measure(row: &Row, rounds: u64) -> bool {
    let (mut best_ours, mut best_twins) = (f64::MAX, f64::MAX);
    let mut same = true;
    for _ in 0..rounds {
        let (ours, answer) = timed(row.ours, row.turns);
        let (twins, twins_answer) = timed(row.twins, row.turns);
        best_ours = best_ours.min(ours);
        best_twins = best_twins.min(twins);
        same &= answer == twins_answer;
    }
    let remark = if same { "" } else { " DIFFERENT ANSWERS" };
    println!(
        "| {:67} | {best_ours:10.1} | {best_twins:10.1} | {:6.2} |{remark}",
        row.what,
        best_ours / best_twins
    );
    same
}

fn main() {
    let arg = std::env::args().nth(1);
    if arg.as_deref() == Some("hour") {
        // 360,000,000 ticks of 10 µs, and a payload of each sender every minute
        let hour = Row {
            what: "an hour: a tick of each of 6 senders, a payload every minute",
            turns: 360_000_000,
            ours: |n| ours::sinkapricot_repeat_round(n, 6_000_000),
            twins: |n| round(n, 6_000_000),
        };
        std::process::exit(i32::from(!measure(&hour, 1)));
    }
    // one loop of one of the two, by its row, for counting instructions
    let alone = arg.as_deref().filter(|&arg| arg == "engine" || arg == "twin").map(|whose| {
        let mut numbers = std::env::args().skip(2).map(|arg| arg.parse().expect("a number"));
        let row = numbers.next().filter(|row| (1..=12).contains(row)).expect("a row, 1 to 12");
        (whose.to_string(), row as usize, numbers.next().expect("turns"))
    });
    let rounds = arg.filter(|_| alone.is_none()).map_or(9, |arg| arg.parse().expect("a number"));
    let rows = [
        Row {
            what: "check of 8 bits, 321 bits",
            turns: 200_000,
            ours: |n| ours::sinkapricot_repeat_crc8(n).into(),
            twins: checks_again::<Crc8>,
        },
        Row {
            what: "check of 16 bits, 321 bits",
            turns: 200_000,
            ours: |n| ours::sinkapricot_repeat_crc16(n).into(),
            twins: checks_again::<Crc16>,
        },
        Row {
            what: "packing, 32 bytes, check of 8 bits",
            turns: 100_000,
            ours: |n| ours::sinkapricot_repeat_pack(8, n).into(),
            twins: |n| packs_again(Kind::Crc8, n),
        },
        Row {
            what: "packing, 32 bytes, check of 16 bits",
            turns: 100_000,
            ours: |n| ours::sinkapricot_repeat_pack(16, n).into(),
            twins: |n| packs_again(Kind::Crc16, n),
        },
        Row {
            what: "reading, 32 bytes, check of 8 bits",
            turns: 100_000,
            ours: |n| ours::sinkapricot_repeat_read(8, n).into(),
            twins: |n| reads_again(Kind::Crc8, n),
        },
        Row {
            what: "reading, 32 bytes, check of 16 bits",
            turns: 100_000,
            ours: |n| ours::sinkapricot_repeat_read(16, n).into(),
            twins: |n| reads_again(Kind::Crc16, n),
        },
        Row {
            what: "a tick in Standby",
            turns: 3_000_000,
            ours: |n| ours::sinkapricot_repeat_tick_standby(n),
            twins: standby,
        },
        Row {
            what: "a tick in Waiting, with one sending in 400",
            turns: 3_000_000,
            ours: |n| ours::sinkapricot_repeat_tick_waiting(n),
            twins: waiting,
        },
        Row {
            what: "hearing 32 bytes: taken and answered, FLUSH_RX",
            turns: 100_000,
            ours: |n| ours::sinkapricot_repeat_hear_taking(n),
            twins: taking,
        },
        Row {
            what: "hearing 32 bytes: known again and answered",
            turns: 100_000,
            ours: |n| ours::sinkapricot_repeat_hear_knowing(n),
            twins: knowing,
        },
        Row {
            what: "a whole exchange of 32 bytes: written, 14 ticks, two carries, read",
            turns: 50_000,
            ours: |n| ours::sinkapricot_repeat_exchange(n),
            twins: exchanges,
        },
        Row {
            what: "a round, a tick of each of 6 senders, a payload every 6,000 ticks",
            turns: 360_000,
            ours: |n| ours::sinkapricot_repeat_round(n, 6_000),
            twins: |n| round(n, 6_000),
        },
    ];
    if let Some((whose, row, turns)) = alone {
        let row = &rows[row - 1];
        let work = if whose == "twin" { row.twins } else { row.ours };
        println!("{}: {}", row.what, work(turns));
        return;
    }
    println!("| {:67} | engine, ns | twin, ns   | ratio  |", "");
    println!("|{}|------------|------------|--------|", "-".repeat(69));
    let mut same = true;
    for row in &rows {
        same &= measure(row, rounds);
    }
    std::process::exit(i32::from(!same));
}
