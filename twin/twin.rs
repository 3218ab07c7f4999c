// A packet engine of our own in one file of plain safe Rust: checks, frames, registers, host
// commands, profiles, bench units, boxed units, the cell, and a console over all of them.
// Written from the documentation alone.
//
// Use it with `#[path = "twin.rs"] mod twin;` or with `include!("twin.rs")`.
// No call of frames, units or cell allocates; only making a cell takes a `Vec`, and the console
// builds text.

use std::fmt;
use std::marker::PhantomData;

// ------------------------------------------------------------------------------------- refusals

/// Why a call was refused. A refused call has changed nothing.
#[derive(Clone, Copy, Debug, PartialEq, Eq)]
pub enum Refusal {
    NoCommand,
    UnknownCommand,
    NotServed,
    DataLength,
    NothingReceived,
    ShortReply,
    NotWritable,
    RadioBusy,
    /// With the register.
    NotAllowed(u8),
    QueueFull,
    BadProfile,
    /// With the register.
    Fault(u8),
    NoCell,
    NoUnit,
    AirHoldsFrame,
    AirEmpty,
    BadFate,
    FrameBuffer,
}

impl Refusal {
    pub const fn number(self) -> u8 {
        match self {
            Refusal::NoCommand => 1,
            Refusal::UnknownCommand => 2,
            Refusal::NotServed => 3,
            Refusal::DataLength => 4,
            Refusal::NothingReceived => 5,
            Refusal::ShortReply => 6,
            Refusal::NotWritable => 7,
            Refusal::RadioBusy => 8,
            Refusal::NotAllowed(_) => 9,
            Refusal::QueueFull => 10,
            Refusal::BadProfile => 11,
            Refusal::Fault(_) => 12,
            Refusal::NoCell => 13,
            Refusal::NoUnit => 14,
            Refusal::AirHoldsFrame => 15,
            Refusal::AirEmpty => 16,
            Refusal::BadFate => 17,
            Refusal::FrameBuffer => 18,
        }
    }

    pub const fn register(self) -> Option<u8> {
        match self {
            Refusal::NotAllowed(register) | Refusal::Fault(register) => Some(register),
            _ => None,
        }
    }
}

impl fmt::Display for Refusal {
    fn fmt(&self, f: &mut fmt::Formatter<'_>) -> fmt::Result {
        match *self {
            Refusal::NoCommand => f.write_str("no command byte"),
            Refusal::UnknownCommand => f.write_str("unknown command or register"),
            Refusal::NotServed => f.write_str("command not for a bench unit, or not for this role"),
            Refusal::DataLength => f.write_str("wrong number of data bytes"),
            Refusal::NothingReceived => f.write_str("nothing received"),
            Refusal::ShortReply => f.write_str("reply buffer too short"),
            Refusal::NotWritable => f.write_str("register read only, or fixed by boxing"),
            Refusal::RadioBusy => f.write_str("register write in Tuning, Waiting or RX"),
            Refusal::NotAllowed(r) => write!(f, "value not allowed in register {r:02X}"),
            Refusal::QueueFull => f.write_str("TX queue full"),
            Refusal::BadProfile => f.write_str("the profile's map or length is wrong"),
            Refusal::Fault(r) => write!(f, "fault at register {r:02X}"),
            Refusal::NoCell => f.write_str("no cell can be made of these units"),
            Refusal::NoUnit => f.write_str("no such unit"),
            Refusal::AirHoldsFrame => f.write_str("the air holds a frame"),
            Refusal::AirEmpty => f.write_str("the air is empty"),
            Refusal::BadFate => f.write_str("no such fate, or pattern not allowed"),
            Refusal::FrameBuffer => f.write_str("frame buffer too short, or bits beyond the bytes"),
        }
    }
}

/// A refusal by a cell: the unit that was called (the one at fault for `NoCell`, 0 for a carry).
#[derive(Clone, Copy, Debug, PartialEq, Eq)]
pub struct CellRefusal {
    pub unit: u8,
    pub cause: Refusal,
}

impl CellRefusal {
    /// Whether the cell itself refused, and not the unit.
    pub const fn by_cell(self) -> bool {
        self.cause.number() >= Refusal::NoCell.number()
    }
}

// --------------------------------------------------------------------------------------- checks

/// A kind of check: a number of `W` bits for each string of bits.
pub trait Check: Copy + fmt::Debug {
    const W: usize;

    /// The check of the first `n` bits of `bytes`, or of all of them where there are fewer.
    fn of(bytes: &[u8], n: usize) -> u16;
}

/// Polynomial 07, start FF.
#[derive(Clone, Copy, Debug, PartialEq, Eq)]
pub struct Crc8;

/// Polynomial 1021, start FFFF.
#[derive(Clone, Copy, Debug, PartialEq, Eq)]
pub struct Crc16;

// Both kinds share one implementation: the check register stands at the top of a 16-bit word, so
// for 8 bits the low byte is always 0.

/// `TABLES[k][v]`: an empty register after byte `v` and `k` bytes of zeros.
type Tables = [[u16; 256]; 8];

const fn one_bit(register: u16, polynomial: u16) -> u16 {
    (register << 1) ^ (polynomial & (register >> 15).wrapping_neg())
}

const fn tables(polynomial: u16) -> Tables {
    let mut t = [[0; 256]; 8];
    let mut v = 0;
    while v < 256 {
        let mut register = (v as u16) << 8;
        let mut k = 0;
        while k < 8 {
            let mut bit = 0;
            while bit < 8 {
                register = one_bit(register, polynomial);
                bit += 1;
            }
            t[k][v] = register;
            k += 1;
        }
        v += 1;
    }
    t
}

static TABLES_8: Tables = tables(0x0700);
static TABLES_16: Tables = tables(0x1021);

/// Puts `N` bytes, at least 2, through a register at once.
#[inline(always)]
fn step<const N: usize>(t: &Tables, register: u16, b: &[u8; N]) -> u16 {
    let [high, low] = register.to_be_bytes();
    let mut sum = t[N - 1][(b[0] ^ high) as usize] ^ t[N - 2][(b[1] ^ low) as usize];
    for i in 2..N {
        sum ^= t[N - 1 - i][b[i] as usize];
    }
    sum
}

#[inline(always)]
fn crc(t: &Tables, polynomial: u16, start: u16, bytes: &[u8], n: usize) -> u16 {
    let (whole, spare) = if n / 8 < bytes.len() { (n / 8, n % 8) } else { (bytes.len(), 0) };
    let mut register = start;
    let (eights, rest) = bytes[..whole].as_chunks::<8>();
    for b in eights {
        register = step(t, register, b);
    }
    let (fours, rest) = rest.as_chunks::<4>();
    for b in fours {
        register = step(t, register, b);
    }
    let (twos, rest) = rest.as_chunks::<2>();
    for b in twos {
        register = step(t, register, b);
    }
    for b in rest {
        register = (register << 8) ^ t[0][(b ^ (register >> 8) as u8) as usize];
    }
    if spare > 0 {
        register ^= ((bytes[whole] as u16) << 8) & !(0xFFFF >> spare);
        for _ in 0..spare {
            register = one_bit(register, polynomial);
        }
    }
    register
}

impl Check for Crc8 {
    const W: usize = 8;

    fn of(bytes: &[u8], n: usize) -> u16 {
        crc(&TABLES_8, 0x0700, 0xFF00, bytes, n) >> 8
    }
}

impl Check for Crc16 {
    const W: usize = 16;

    fn of(bytes: &[u8], n: usize) -> u16 {
        crc(&TABLES_16, 0x1021, 0xFFFF, bytes, n)
    }
}

/// `Crc8::of`
pub fn check8(bytes: &[u8], n: usize) -> u16 {
    Crc8::of(bytes, n)
}

/// `Crc16::of`
pub fn check16(bytes: &[u8], n: usize) -> u16 {
    Crc16::of(bytes, n)
}

/// A kind of check as a value, where a type will not do.
#[derive(Clone, Copy, Debug, PartialEq, Eq)]
pub enum Kind {
    Crc8,
    Crc16,
}

// --------------------------------------------------------------------------------------- frames

/// The bytes that the longest frame fills.
pub const FRAME: usize = 42;
pub const PAYLOAD: usize = 32;

/// An address of 3 to 5 bytes. As a number its low byte is the first byte of a register.
#[derive(Clone, Copy, Debug, PartialEq, Eq)]
pub struct Address {
    value: u64,
    width: usize,
}

impl Address {
    /// `None` unless there are 3 to 5 bytes.
    pub fn low_first(bytes: &[u8]) -> Option<Address> {
        let width = bytes.len();
        let value = bytes.iter().rev().fold(0, |value, &b| value << 8 | b as u64);
        (3..=5).contains(&width).then_some(Address { value, width })
    }

    /// The address in use of a five-byte register.
    fn in_use(register: &[u8; 5], width: usize) -> Address {
        let value = register[..width].iter().rev().fold(0, |value, &b| value << 8 | b as u64);
        Address { value, width }
    }

    pub fn width(self) -> usize {
        self.width
    }

    pub fn value(self) -> u64 {
        self.value
    }

    /// Low byte first; bytes from the width on are 0.
    pub fn bytes(self) -> [u8; 5] {
        let b = self.value.to_le_bytes();
        [b[0], b[1], b[2], b[3], b[4]]
    }
}

/// What a frame carries.
#[derive(Clone, Copy, Debug, PartialEq, Eq)]
pub struct Packet {
    pub address: Address,
    pub pid: u8,
    pub no_ack: bool,
    pub length: u8,
    /// The payload, then zeros.
    pub bytes: [u8; PAYLOAD],
    pub check: u16,
}

impl Packet {
    pub fn payload(&self) -> &[u8] {
        &self.bytes[..self.length as usize]
    }
}

/// A frame in its buffer, of the right length; its check may still be wrong.
struct Frame<'a> {
    /// From the preamble to the frame's end, or longer.
    bytes: &'a [u8],
    address: Address,
    length: usize,
    pid: u8,
    no_ack: bool,
}

impl<'a> Frame<'a> {
    /// `None` unless the first `count` bits, which stand in `bytes`, fit their length field.
    #[inline]
    fn find<C: Check>(bytes: &'a [u8], count: usize, width: usize) -> Option<Frame<'a>> {
        let least = 8 + 8 * width + 9 + C::W;
        if count < least {
            return None;
        }
        let control = bytes[1 + width];
        let length = (control >> 2) as usize;
        if length > PAYLOAD || count != least + 8 * length {
            return None;
        }
        let value = bytes[1..1 + width].iter().fold(0, |value, &b| value << 8 | b as u64);
        Some(Frame {
            bytes,
            address: Address { value, width },
            length,
            pid: control & 3,
            no_ack: bytes[2 + width] & 0x80 != 0,
        })
    }

    /// The frame's check, if it is right.
    #[inline]
    fn check<C: Check>(&self) -> Option<u16> {
        let covered = self.address.width + 1 + self.length;
        let tail = &self.bytes[1 + covered..];
        let stands = if C::W == 16 {
            (tail[0] as u16) << 9 | (tail[1] as u16) << 1 | (tail[2] as u16) >> 7
        } else {
            (tail[0] as u16 & 0x7F) << 1 | (tail[1] as u16) >> 7
        };
        (stands == C::of(&self.bytes[1..], 8 * covered + 1)).then_some(stands)
    }

    /// Writes the payload to the front of `out`.
    #[inline]
    fn payload(&self, out: &mut [u8; PAYLOAD]) {
        let start = 2 + self.address.width;
        let bits = &self.bytes[start..start + self.length + 1];
        for (byte, two) in out.iter_mut().zip(bits.array_windows::<2>()) {
            *byte = two[0] << 1 | two[1] >> 7;
        }
    }
}

/// Packs a frame. `pid` is below 4 and the payload has at most 32 bytes.
#[inline]
fn write_frame<C: Check>(
    address: Address,
    pid: u8,
    no_ack: bool,
    payload: &[u8],
    out: &mut [u8; FRAME],
) -> usize {
    let width = address.width;
    let length = payload.len();
    out[0] = if address.value >> (8 * width - 1) & 1 == 1 { 0xAA } else { 0x55 };
    out[1..1 + width].copy_from_slice(&address.value.to_be_bytes()[8 - width..]);
    out[1 + width] = (length as u8) << 2 | pid;

    // All that follows stands one bit off the bytes.
    let body = &mut out[2 + width..];
    let mut before = no_ack as u8;
    for (out, &byte) in body.iter_mut().zip(payload) {
        *out = before << 7 | byte >> 1;
        before = byte;
    }
    body[length] = before << 7;
    let covered = 8 * (width + 1 + length) + 1;
    let check = C::of(&out[1..], covered) << (16 - C::W);
    let tail = &mut out[2 + width + length..];
    tail[0] |= (check >> 9) as u8;
    tail[1] = (check >> 1) as u8;
    if C::W == 16 {
        tail[2] = (check << 7) as u8;
    }
    8 + covered + C::W
}

#[inline]
fn frame_buffer(out: &mut [u8]) -> Result<&mut [u8; FRAME], Refusal> {
    out.first_chunk_mut().ok_or(Refusal::FrameBuffer)
}

#[inline]
fn holds(bytes: &[u8], count: usize) -> Result<(), Refusal> {
    if count.div_ceil(8) > bytes.len() { Err(Refusal::FrameBuffer) } else { Ok(()) }
}

/// Packs a frame at the front of a buffer and answers its bits; later bytes stay. Of `pid` the low
/// two bits count, and a payload beyond 32 bytes is cut off.
pub fn pack_frame<C: Check>(
    address: Address,
    pid: u8,
    no_ack: bool,
    payload: &[u8],
    out: &mut [u8],
) -> Result<usize, Refusal> {
    let out = frame_buffer(out)?;
    Ok(write_frame::<C>(address, pid & 3, no_ack, &payload[..payload.len().min(PAYLOAD)], out))
}

/// Reads the first `count` bits as a frame with an address of `width` bytes.
pub fn read_frame<C: Check>(
    bytes: &[u8],
    count: usize,
    width: usize,
) -> Result<Option<Packet>, Refusal> {
    holds(bytes, count)?;
    if !(3..=5).contains(&width) {
        return Ok(None);
    }
    let Some(frame) = Frame::find::<C>(bytes, count, width) else { return Ok(None) };
    let Some(check) = frame.check::<C>() else { return Ok(None) };
    let mut packet = Packet {
        address: frame.address,
        pid: frame.pid,
        no_ack: frame.no_ack,
        length: frame.length as u8,
        bytes: [0; PAYLOAD],
        check,
    };
    frame.payload(&mut packet.bytes);
    Ok(Some(packet))
}

/// Packs a frame from plain numbers, address low byte first, and answers its bits; 0, and nothing
/// is written, where the fields are none: an address not of 3 to 5 bytes, a `pid` above 3, a
/// payload beyond 32 bytes.
pub fn pack(
    kind: Kind,
    address: &[u8],
    pid: u8,
    no_ack: bool,
    payload: &[u8],
    out: &mut [u8; FRAME],
) -> usize {
    let Some(address) = Address::low_first(address) else { return 0 };
    if pid > 3 || payload.len() > PAYLOAD {
        return 0;
    }
    match kind {
        Kind::Crc8 => write_frame::<Crc8>(address, pid, no_ack, payload, out),
        Kind::Crc16 => write_frame::<Crc16>(address, pid, no_ack, payload, out),
    }
}

/// Reads the first `n` bits as a frame; `None` also where `bytes` has fewer.
pub fn read(kind: Kind, width: usize, bytes: &[u8], n: usize) -> Option<Packet> {
    match kind {
        Kind::Crc8 => read_frame::<Crc8>(bytes, n, width),
        Kind::Crc16 => read_frame::<Crc16>(bytes, n, width),
    }
    .ok()
    .flatten()
}

/// Turns the bits of a pattern among the first `count` bits, its top bit on bit `start`.
pub fn change(bytes: &mut [u8], count: usize, start: usize, pattern: u16) {
    let end = count.min(8 * bytes.len());
    for i in 0..16 {
        let bit = start.saturating_add(i);
        if pattern << i & 0x8000 != 0 && bit < end {
            bytes[bit / 8] ^= 0x80 >> (bit % 8);
        }
    }
}

// ------------------------------------------------------------------------------------ registers

pub const REGISTERS: u8 = 24;

pub const CONFIG: u8 = 0x00;
pub const EN_AA: u8 = 0x01;
pub const EN_RXADDR: u8 = 0x02;
pub const SETUP_AW: u8 = 0x03;
pub const SETUP_RETR: u8 = 0x04;
pub const RF_CH: u8 = 0x05;
pub const RF_SETUP: u8 = 0x06;
pub const STATUS: u8 = 0x07;
pub const OBSERVE_TX: u8 = 0x08;
pub const RESERVED: u8 = 0x09;
pub const RX_ADDR_P0: u8 = 0x0A;
pub const RX_ADDR_P1: u8 = 0x0B;
pub const RX_ADDR_P5: u8 = 0x0F;
pub const TX_ADDR: u8 = 0x10;
pub const RX_PW_P0: u8 = 0x11;
pub const RX_PW_P5: u8 = 0x16;
pub const FIFO_STATUS: u8 = 0x17;

const MASKS: u8 = 0x70;
const EN_CRC: u8 = 0x08;
const CRCO: u8 = 0x04;
const PWR_UP: u8 = 0x02;
const PRIM_RX: u8 = 0x01;

const RX_DR: u8 = 0x40;
const TX_DS: u8 = 0x20;
const MAX_RT: u8 = 0x10;
const FLAGS: u8 = RX_DR | TX_DS | MAX_RT;

const TX_FULL: u8 = 0x20;
const TX_EMPTY: u8 = 0x10;
const RX_FULL: u8 = 0x02;
const RX_EMPTY: u8 = 0x01;

const RATE: u8 = 0x28;

const PIPES: usize = 6;

/// How many bytes a register has.
const fn size(register: u8) -> usize {
    match register {
        RX_ADDR_P0 | RX_ADDR_P1 | TX_ADDR => 5,
        _ => 1,
    }
}

const fn read_only(register: u8) -> bool {
    matches!(register, OBSERVE_TX | RESERVED | FIFO_STATUS)
}

/// Whether `field`, which has the register's size, may be written.
fn allowed(register: u8, field: &[u8]) -> bool {
    let value = field[0];
    match register {
        CONFIG => value & 0x80 == 0,
        EN_AA | EN_RXADDR => value & 0xC0 == 0,
        SETUP_AW => matches!(value, 1..=3),
        RF_CH => value <= 0x7D,
        RF_SETUP => value & 0xD0 == 0 && value & RATE != RATE,
        STATUS => value & !FLAGS == 0,
        RX_PW_P0..=RX_PW_P5 => value as usize <= PAYLOAD,
        _ => true,
    }
}

/// All registers of a unit that is at rest, one after the other.
#[derive(Clone, Debug, PartialEq, Eq)]
struct Registers([u8; 36]);

const RESET: Registers = Registers([
    0x08, 0x3F, 0x03, 0x03, 0x03, 0x02, 0x0E, 0x0E, 0x00, 0x00, // 00 to 09
    0xE7, 0xE7, 0xE7, 0xE7, 0xE7, // RX_ADDR_P0
    0xC2, 0xC2, 0xC2, 0xC2, 0xC2, // RX_ADDR_P1
    0xC3, 0xC4, 0xC5, 0xC6, // RX_ADDR_P2 to RX_ADDR_P5
    0xE7, 0xE7, 0xE7, 0xE7, 0xE7, // TX_ADDR
    0x00, 0x00, 0x00, 0x00, 0x00, 0x00, // RX_PW_P0 to RX_PW_P5
    0x11, // FIFO_STATUS
]);

impl Registers {
    /// Where a register starts.
    const fn place(register: u8) -> usize {
        let mut place = register as usize;
        if register > RX_ADDR_P0 {
            place += 4;
        }
        if register > RX_ADDR_P1 {
            place += 4;
        }
        if register > TX_ADDR {
            place += 4;
        }
        place
    }

    #[inline]
    fn get(&self, register: u8) -> &[u8] {
        let place = Registers::place(register);
        &self.0[place..place + size(register)]
    }

    /// The register's only or low byte.
    #[inline]
    fn low(&self, register: u8) -> u8 {
        self.0[Registers::place(register)]
    }

    fn five(&self, register: u8) -> &[u8; 5] {
        self.0[Registers::place(register)..].first_chunk().expect("a register of five bytes")
    }

    fn set(&mut self, register: u8, field: &[u8]) {
        let place = Registers::place(register);
        self.0[place..place + size(register)].copy_from_slice(field);
    }

    fn width(&self) -> usize {
        self.low(SETUP_AW) as usize + 2
    }

    fn pipe_enabled(&self, pipe: u8) -> bool {
        self.low(EN_RXADDR) >> pipe & 1 == 1
    }

    /// The address in use of a pipe.
    fn pipe_address(&self, pipe: u8) -> Address {
        if pipe == 0 {
            return Address::in_use(self.five(RX_ADDR_P0), self.width());
        }
        let mut bytes = *self.five(RX_ADDR_P1);
        bytes[0] = self.low(RX_ADDR_P0 + pipe);
        Address::in_use(&bytes, self.width())
    }

    fn sending_address(&self) -> Address {
        Address::in_use(self.five(TX_ADDR), self.width())
    }

    /// The lowest register with a fault, for a check of `w` bits.
    fn fault(&self, w: usize) -> Option<u8> {
        let config = self.low(CONFIG);
        let crco = if w == 16 { CRCO } else { 0 };
        if config & (EN_CRC | PWR_UP | CRCO) != EN_CRC | crco {
            return Some(CONFIG);
        }
        let enabled = self.low(EN_RXADDR);
        let silent = enabled & !self.low(EN_AA);
        if config & PRIM_RX == 0 {
            if silent & 1 != 0 {
                return Some(EN_AA);
            }
            if enabled & 1 == 0 {
                return Some(EN_RXADDR);
            }
            return (self.sending_address() != self.pipe_address(0)).then_some(TX_ADDR);
        }
        if silent != 0 {
            return Some(EN_AA);
        }
        if enabled == 0 {
            return Some(EN_RXADDR);
        }
        let pipes = || (0..PIPES as u8).filter(|&pipe| self.pipe_enabled(pipe));
        let twice = pipes().find(|&pipe| {
            let address = self.pipe_address(pipe);
            pipes()
                .take_while(|&lower| lower < pipe)
                .any(|lower| self.pipe_address(lower) == address)
        });
        let silent_pipe = || pipes().find(|&pipe| self.low(RX_PW_P0 + pipe) == 0);
        match twice {
            Some(pipe) => Some(RX_ADDR_P0 + pipe),
            None => silent_pipe().map(|pipe| RX_PW_P0 + pipe),
        }
    }
}

// ------------------------------------------------------------------------------------- profiles

/// A profile that is sound by its fields.
#[derive(Clone, Copy, Debug)]
pub struct Profile<'a> {
    map: u32,
    bytes: &'a [u8],
}

impl<'a> Profile<'a> {
    /// Registers 00 to 06 and 0A to 16.
    const MAY_NAME: u32 = 0x007F_FC7F;
    const FIVES: u32 = 1 << RX_ADDR_P0 | 1 << RX_ADDR_P1 | 1 << TX_ADDR;

    /// The bytes that a map and the fields of its registers have.
    const fn length(map: u32) -> usize {
        (4 + map.count_ones() + 4 * (map & Profile::FIVES).count_ones()) as usize
    }

    pub fn read(bytes: &'a [u8]) -> Result<Profile<'a>, Refusal> {
        let map = u32::from_be_bytes(*bytes.first_chunk().ok_or(Refusal::BadProfile)?);
        if map & !Profile::MAY_NAME != 0 || bytes.len() != Profile::length(map) {
            return Err(Refusal::BadProfile);
        }
        Ok(Profile { map, bytes })
    }

    pub fn number_of_fields(&self) -> usize {
        self.map.count_ones() as usize
    }

    /// The field of one register; `None` where the map does not name it.
    pub fn field(&self, register: u8) -> Option<&'a [u8]> {
        if register >= REGISTERS || self.map >> register & 1 == 0 {
            return None;
        }
        let place = Profile::length(self.map & ((1 << register) - 1));
        Some(&self.bytes[place..place + size(register)])
    }

    /// Each named register with its field, in ascending order.
    fn fields(self) -> impl Iterator<Item = (u8, &'a [u8])> {
        let mut rest = &self.bytes[4..];
        (0..REGISTERS).filter(move |register| self.map >> register & 1 == 1).map(move |register| {
            let (field, behind) = rest.split_at(size(register));
            rest = behind;
            (register, field)
        })
    }
}

pub fn number_of_fields(profile: &[u8]) -> Result<usize, Refusal> {
    Ok(Profile::read(profile)?.number_of_fields())
}

pub fn field(profile: &[u8], register: u8) -> Result<Option<&[u8]>, Refusal> {
    Ok(Profile::read(profile)?.field(register))
}

// ------------------------------------------------------------------------------------- commands

#[derive(Clone, Copy, Debug, PartialEq, Eq)]
enum Command {
    ReadRegister(u8),
    WriteRegister(u8),
    WritePayload,
    ReadPayload,
    FlushTx,
    FlushRx,
    Nop,
}

impl Command {
    /// The command, and its data, of which the number may still be wrong.
    #[inline]
    fn read(host: &[u8]) -> Result<(Command, &[u8]), Refusal> {
        let (&first, data) = host.split_first().ok_or(Refusal::NoCommand)?;
        let command = match first {
            0x00..=0x17 => Command::ReadRegister(first),
            0x20..=0x37 => Command::WriteRegister(first - 0x20),
            0xA0 => Command::WritePayload,
            0x61 => Command::ReadPayload,
            0xE1 => Command::FlushTx,
            0xE2 => Command::FlushRx,
            0xFF => Command::Nop,
            _ => return Err(Refusal::UnknownCommand),
        };
        Ok((command, data))
    }

    #[inline]
    fn data_fits(self, data: &[u8]) -> Result<(), Refusal> {
        let fits = match self {
            Command::WriteRegister(register) => data.len() == size(register),
            Command::WritePayload => matches!(data.len(), 1..=PAYLOAD),
            _ => data.is_empty(),
        };
        if fits { Ok(()) } else { Err(Refusal::DataLength) }
    }
}

/// The front of a reply buffer for STATUS and `answer` more bytes.
#[inline]
fn reply_room(reply: &mut [u8], answer: usize) -> Result<(&mut u8, &mut [u8]), Refusal> {
    let room = reply.get_mut(..1 + answer).ok_or(Refusal::ShortReply)?;
    Ok(room.split_first_mut().expect("room for STATUS"))
}

// ----------------------------------------------------------------------------------- bench unit

/// A unit before it is boxed.
#[derive(Clone, Debug)]
pub struct Bench {
    registers: Registers,
}

impl Default for Bench {
    fn default() -> Bench {
        Bench::new()
    }
}

impl Bench {
    pub fn new() -> Bench {
        Bench { registers: RESET }
    }

    /// Carries out a host command; answers the reply's length.
    pub fn command(&mut self, host: &[u8], reply: &mut [u8]) -> Result<usize, Refusal> {
        let (command, data) = Command::read(host)?;
        let answer = match command {
            Command::ReadRegister(register) => size(register),
            Command::WriteRegister(_) | Command::Nop => 0,
            _ => return Err(Refusal::NotServed),
        };
        command.data_fits(data)?;
        let (status, rest) = reply_room(reply, answer)?;
        match command {
            Command::ReadRegister(register) => rest.copy_from_slice(self.registers.get(register)),
            Command::WriteRegister(register) => {
                if read_only(register) {
                    return Err(Refusal::NotWritable);
                }
                if !allowed(register, data) {
                    return Err(Refusal::NotAllowed(register));
                }
                // A write of STATUS clears flags, and none stands here.
                if register != STATUS {
                    self.registers.set(register, data);
                }
            }
            _ => {}
        }
        *status = self.registers.low(STATUS);
        Ok(1 + answer)
    }

    /// Sets all registers that a profile names, or none.
    pub fn load(&mut self, profile: &[u8]) -> Result<(), Refusal> {
        let profile = Profile::read(profile)?;
        if let Some((register, _)) = profile.fields().find(|&(r, field)| !allowed(r, field)) {
            return Err(Refusal::NotAllowed(register));
        }
        for (register, field) in profile.fields() {
            self.registers.set(register, field);
        }
        Ok(())
    }

    /// The check call.
    pub fn check<C: Check>(&self) -> Result<(), Refusal> {
        match self.registers.fault(C::W) {
            None => Ok(()),
            Some(register) => Err(Refusal::Fault(register)),
        }
    }

    /// Closes the unit for good.
    pub fn boxed<C: Check>(self) -> Boxed<C> {
        let registers = self.registers;
        let config = registers.low(CONFIG);
        let retries = registers.low(SETUP_RETR);
        let pipes = std::array::from_fn(|pipe| {
            let pipe = pipe as u8;
            if registers.pipe_enabled(pipe) {
                registers.pipe_address(pipe).value
            } else {
                NO_ADDRESS
            }
        });
        Boxed {
            fault: registers.fault(C::W),
            receiver: config & PRIM_RX != 0,
            width: registers.width() as u8,
            retries: retries & 0x0F,
            wait: 25 * ((retries >> 4) as u16 + 1),
            pipes,
            registers,
            ce: false,
            mode: Mode::Shutdown,
            config,
            flags: 0,
            resent: 0,
            lost: 0,
            pid: 0,
            queue: Queue::new(),
            memories: [None; PIPES],
            check: PhantomData,
        }
    }
}

// ----------------------------------------------------------------------------------- boxed unit

#[derive(Clone, Debug)]
struct Entry {
    /// The packet identity of an outgoing payload, the pipe of a received one.
    tag: u8,
    length: u8,
    bytes: [u8; PAYLOAD],
}

impl Entry {
    fn payload(&self) -> &[u8] {
        &self.bytes[..self.length as usize]
    }
}

/// At most three entries, in a ring.
#[derive(Clone, Debug)]
struct Queue {
    entries: [Entry; Queue::PLACES],
    oldest: u8,
    count: u8,
}

impl Queue {
    const PLACES: usize = 3;

    fn new() -> Queue {
        const FREE: Entry = Entry { tag: 0, length: 0, bytes: [0; PAYLOAD] };
        Queue { entries: [FREE; Queue::PLACES], oldest: 0, count: 0 }
    }

    fn is_empty(&self) -> bool {
        self.count == 0
    }

    fn is_full(&self) -> bool {
        self.count as usize == Queue::PLACES
    }

    fn oldest(&self) -> Option<&Entry> {
        (self.count > 0).then(|| &self.entries[self.oldest as usize])
    }

    /// Takes the next free place, which is to be filled; `None` where there is none.
    fn next(&mut self) -> Option<&mut Entry> {
        if self.is_full() {
            return None;
        }
        let place = (self.oldest as usize + self.count as usize) % Queue::PLACES;
        self.count += 1;
        Some(&mut self.entries[place])
    }

    fn remove_oldest(&mut self) {
        if self.count > 0 {
            self.oldest = (self.oldest + 1) % Queue::PLACES as u8;
            self.count -= 1;
        }
    }

    fn clear(&mut self) {
        self.count = 0;
    }
}

/// A number in a mode is how many of its ticks are left.
#[derive(Clone, Copy, Debug, PartialEq, Eq)]
enum Mode {
    Shutdown,
    Starting(u8),
    Standby,
    IdleTx,
    Tuning(u8),
    Waiting(u16),
    Rx,
}

/// No address has more than 40 bits.
const NO_ADDRESS: u64 = u64::MAX;

const STARTING: u8 = 200;
const TUNING: u8 = 13;

/// A unit that was closed for good, with the check of all its frames.
#[derive(Clone, Debug)]
pub struct Boxed<C: Check> {
    // Fixed by boxing.
    fault: Option<u8>,
    receiver: bool,
    width: u8,
    /// ARC.
    retries: u8,
    /// The ticks of Waiting.
    wait: u16,
    /// The addresses in use of the enabled pipes, as numbers; else `NO_ADDRESS`.
    pipes: [u64; PIPES],
    /// CONFIG stands here as it was boxed.
    registers: Registers,
    // What runs.
    ce: bool,
    mode: Mode,
    config: u8,
    /// As they stand in STATUS.
    flags: u8,
    /// ARC_CNT.
    resent: u8,
    /// PLOS_CNT.
    lost: u8,
    /// The packet identity counter.
    pid: u8,
    /// Outgoing payloads of a sender, received ones of a receiver.
    queue: Queue,
    /// Packet identity and check of the last payload taken on each pipe.
    memories: [Option<(u8, u16)>; PIPES],
    check: PhantomData<C>,
}

impl<C: Check> Boxed<C> {
    #[inline]
    fn no_fault(&self) -> Result<(), Refusal> {
        match self.fault {
            None => Ok(()),
            Some(register) => Err(Refusal::Fault(register)),
        }
    }

    /// STATUS as it reads now.
    fn status(&self) -> u8 {
        let (pipe, full) = if self.receiver {
            (self.queue.oldest().map_or(7, |entry| entry.tag), false)
        } else {
            (7, self.queue.is_full())
        };
        self.flags | pipe << 1 | full as u8
    }

    /// FIFO_STATUS as it reads now.
    fn fifo_status(&self) -> u8 {
        let (full, empty, other) = if self.receiver {
            (RX_FULL, RX_EMPTY, TX_EMPTY)
        } else {
            (TX_FULL, TX_EMPTY, RX_EMPTY)
        };
        let mut value = other;
        if self.queue.is_full() {
            value |= full;
        }
        if self.queue.is_empty() {
            value |= empty;
        }
        value
    }

    /// Writes a register as it reads now to a place of its size.
    fn read_register(&self, register: u8, out: &mut [u8]) {
        match register {
            CONFIG => out[0] = self.config,
            STATUS => out[0] = self.status(),
            OBSERVE_TX => out[0] = self.lost << 4 | self.resent,
            FIFO_STATUS => out[0] = self.fifo_status(),
            _ => out.copy_from_slice(self.registers.get(register)),
        }
    }

    /// The mode of a unit that is up and has nothing under way, by CE.
    fn ready(&self) -> Mode {
        match (self.ce, self.receiver) {
            (false, _) => Mode::Standby,
            (true, false) => Mode::IdleTx,
            (true, true) => Mode::Tuning(TUNING),
        }
    }

    /// Carries out a host command; answers the reply's length.
    pub fn command(&mut self, host: &[u8], reply: &mut [u8]) -> Result<usize, Refusal> {
        self.no_fault()?;
        let (command, data) = Command::read(host)?;
        match command {
            Command::WritePayload | Command::FlushTx if self.receiver => {
                return Err(Refusal::NotServed);
            }
            Command::ReadPayload | Command::FlushRx if !self.receiver => {
                return Err(Refusal::NotServed);
            }
            _ => {}
        }
        command.data_fits(data)?;
        let answer = match command {
            Command::ReadRegister(register) => size(register),
            Command::ReadPayload => {
                self.queue.oldest().ok_or(Refusal::NothingReceived)?.length as usize
            }
            _ => 0,
        };
        let (status, rest) = reply_room(reply, answer)?;
        let status_before = self.status();
        match command {
            Command::ReadRegister(register) => self.read_register(register, rest),
            Command::WriteRegister(register) => self.write_register(register, data[0])?,
            Command::WritePayload => {
                let entry = self.queue.next().ok_or(Refusal::QueueFull)?;
                self.pid = (self.pid + 1) & 3;
                entry.tag = self.pid;
                entry.length = data.len() as u8;
                entry.bytes[..data.len()].copy_from_slice(data);
            }
            Command::ReadPayload => {
                if let Some(entry) = self.queue.oldest() {
                    rest.copy_from_slice(entry.payload());
                }
                self.queue.remove_oldest();
            }
            Command::FlushTx => {
                self.queue.clear();
                if matches!(self.mode, Mode::Tuning(_) | Mode::Waiting(_)) {
                    self.mode = self.ready();
                }
            }
            Command::FlushRx => self.queue.clear(),
            Command::Nop => {}
        }
        *status = status_before;
        Ok(1 + answer)
    }

    /// Only CONFIG and STATUS can be written, and both have one byte.
    fn write_register(&mut self, register: u8, value: u8) -> Result<(), Refusal> {
        match register {
            STATUS => {
                if value & !FLAGS != 0 {
                    return Err(Refusal::NotAllowed(STATUS));
                }
                self.flags &= !value;
                Ok(())
            }
            CONFIG => {
                if (value ^ self.config) & !(MASKS | PWR_UP) != 0 {
                    return Err(Refusal::NotWritable);
                }
                if matches!(self.mode, Mode::Tuning(_) | Mode::Waiting(_) | Mode::Rx) {
                    return Err(Refusal::RadioBusy);
                }
                self.config = value;
                if value & PWR_UP == 0 {
                    self.mode = Mode::Shutdown;
                } else if self.mode == Mode::Shutdown {
                    self.mode = Mode::Starting(STARTING);
                }
                Ok(())
            }
            _ => Err(Refusal::NotWritable),
        }
    }

    /// Sets the level of CE.
    pub fn ce(&mut self, high: bool) -> Result<(), Refusal> {
        self.no_fault()?;
        if high == self.ce {
            return Ok(());
        }
        self.ce = high;
        match self.mode {
            Mode::Standby | Mode::IdleTx => self.mode = self.ready(),
            Mode::Tuning(_) | Mode::Rx if self.receiver => self.mode = self.ready(),
            _ => {}
        }
        Ok(())
    }

    /// One tick; answers the bits of the frame that is sent, 0 for none.
    #[inline]
    pub fn tick(&mut self, out: &mut [u8]) -> Result<usize, Refusal> {
        self.no_fault()?;
        let out = frame_buffer(out)?;
        match &mut self.mode {
            Mode::Shutdown | Mode::Standby | Mode::Rx => {}
            Mode::Starting(left) => {
                *left -= 1;
                if *left == 0 {
                    self.mode = self.ready();
                }
            }
            Mode::IdleTx => {
                if self.flags & MAX_RT == 0 && !self.queue.is_empty() {
                    self.start_transaction();
                }
            }
            Mode::Tuning(left) => {
                *left -= 1;
                if *left == 0 {
                    if self.receiver {
                        self.mode = Mode::Rx;
                    } else {
                        return Ok(self.send(out));
                    }
                }
            }
            Mode::Waiting(left) => {
                *left -= 1;
                if *left == 0 {
                    if self.resent < self.retries {
                        self.resent += 1;
                        return Ok(self.send(out));
                    }
                    self.flags |= MAX_RT;
                    self.lost = (self.lost + 1).min(15);
                    self.mode = self.ready();
                }
            }
        }
        Ok(0)
    }

    fn start_transaction(&mut self) {
        self.resent = 0;
        self.mode = Mode::Tuning(TUNING);
    }

    /// Sends the oldest payload.
    fn send(&mut self, out: &mut [u8; FRAME]) -> usize {
        self.mode = Mode::Waiting(self.wait);
        // A sender without a fault sends to the address of its pipe 0.
        let address = Address { value: self.pipes[0], width: self.width as usize };
        match self.queue.oldest() {
            Some(entry) => write_frame::<C>(address, entry.tag, false, entry.payload(), out),
            None => 0,
        }
    }

    /// Hears the first `count` bits of `bytes`; answers the bits of the frame that is sent back,
    /// 0 for none.
    pub fn hear(&mut self, bytes: &[u8], count: usize, out: &mut [u8]) -> Result<usize, Refusal> {
        self.no_fault()?;
        let out = frame_buffer(out)?;
        holds(bytes, count)?;
        let listens = matches!(self.mode, Mode::Rx | Mode::Waiting(_));
        if !listens {
            return Ok(0);
        }
        let Some(frame) = Frame::find::<C>(bytes, count, self.width as usize) else { return Ok(0) };
        if self.receiver {
            return Ok(self.receive(&frame, out));
        }
        if frame.length == 0 && frame.address.value == self.pipes[0] && frame.check::<C>().is_some()
        {
            self.acknowledged();
        }
        Ok(0)
    }

    fn acknowledged(&mut self) {
        self.queue.remove_oldest();
        self.flags |= TX_DS;
        if self.ce && !self.queue.is_empty() {
            self.start_transaction();
        } else {
            self.mode = self.ready();
        }
    }

    fn receive(&mut self, frame: &Frame<'_>, out: &mut [u8; FRAME]) -> usize {
        let Some(pipe) = self.pipes.iter().position(|&a| a == frame.address.value) else {
            return 0;
        };
        if frame.length != self.registers.low(RX_PW_P0 + pipe as u8) as usize {
            return 0;
        }
        let Some(check) = frame.check::<C>() else { return 0 };
        let seen = Some((frame.pid, check));
        if self.memories[pipe] != seen {
            let Some(entry) = self.queue.next() else { return 0 };
            entry.tag = pipe as u8;
            entry.length = frame.length as u8;
            frame.payload(&mut entry.bytes);
            self.memories[pipe] = seen;
            self.flags |= RX_DR;
        }
        if frame.no_ack {
            return 0;
        }
        write_frame::<C>(frame.address, frame.pid, false, &[], out)
    }

    /// Whether the IRQ pin is low.
    pub fn irq_low(&self) -> bool {
        self.flags & !self.config & FLAGS != 0
    }

    /// Whether the unit is as boxing without a fault gives it, with whatever interrupt masks.
    fn is_as_boxed(&self) -> bool {
        self.fault.is_none()
            && !self.ce
            && self.mode == Mode::Shutdown
            && (self.config ^ self.registers.low(CONFIG)) & !MASKS == 0
            && self.flags == 0
            && self.resent == 0
            && self.lost == 0
            && self.pid == 0
            && self.queue.is_empty()
            && self.memories == [None; PIPES]
    }
}

// ----------------------------------------------------------------------------------------- cell

/// The frame on the air, and the unit that sent it.
#[derive(Clone, Debug)]
struct Air {
    bytes: [u8; FRAME],
    /// 0 where the air is empty.
    bits: usize,
    from: usize,
}

/// One receiver, one to six senders and the air between them.
#[derive(Clone, Debug)]
pub struct Cell<C: Check> {
    units: Vec<Boxed<C>>,
    air: Air,
}

impl<C: Check> Cell<C> {
    /// Makes a cell; where that cannot be, the units come back.
    #[allow(clippy::result_large_err)]
    pub fn make(units: Vec<Boxed<C>>) -> Result<Cell<C>, (Vec<Boxed<C>>, CellRefusal)> {
        match Cell::at_fault(&units) {
            Some(unit) => Err((units, CellRefusal { unit, cause: Refusal::NoCell })),
            None => Ok(Cell { units, air: Air { bytes: [0; FRAME], bits: 0, from: 0 } }),
        }
    }

    /// The lowest unit at fault.
    fn at_fault(units: &[Boxed<C>]) -> Option<u8> {
        let Some((receiver, senders)) = units.split_first() else { return Some(0) };
        if !receiver.is_as_boxed() || !receiver.receiver {
            return Some(0);
        }
        if senders.is_empty() {
            return Some(1);
        }
        let common = |unit: &Boxed<C>| {
            let r = &unit.registers;
            (unit.width, r.low(RF_CH), r.low(RF_SETUP) & RATE, r.low(CONFIG) & CRCO)
        };
        let mut used = [false; PIPES];
        for (unit, sender) in (1..).zip(senders) {
            let fits = unit <= PIPES as u8
                && sender.is_as_boxed()
                && !sender.receiver
                && common(sender) == common(receiver);
            let address = sender.registers.sending_address().value;
            match receiver.pipes.iter().position(|&pipe| pipe == address) {
                Some(pipe) if fits && !used[pipe] => used[pipe] = true,
                _ => return Some(unit),
            }
        }
        None
    }

    pub fn units(&self) -> usize {
        self.units.len()
    }

    /// The frame on the air and its bits, 0 for none.
    pub fn air(&self) -> (&[u8], usize) {
        (&self.air.bytes[..self.air.bits.div_ceil(8)], self.air.bits)
    }

    #[inline]
    fn call<T>(
        &mut self,
        unit: u8,
        call: impl FnOnce(&mut Boxed<C>) -> Result<T, Refusal>,
    ) -> Result<T, CellRefusal> {
        self.units
            .get_mut(unit as usize)
            .ok_or(Refusal::NoUnit)
            .and_then(call)
            .map_err(|cause| CellRefusal { unit, cause })
    }

    pub fn command(
        &mut self,
        unit: u8,
        host: &[u8],
        reply: &mut [u8],
    ) -> Result<usize, CellRefusal> {
        self.call(unit, |unit| unit.command(host, reply))
    }

    pub fn ce(&mut self, unit: u8, high: bool) -> Result<(), CellRefusal> {
        self.call(unit, |unit| unit.ce(high))
    }

    /// One tick of a unit; answers the bits of the frame that is then on the air, 0 for none.
    pub fn tick(&mut self, unit: u8) -> Result<usize, CellRefusal> {
        let refused = |cause| CellRefusal { unit, cause };
        let called = self.units.get_mut(unit as usize).ok_or(refused(Refusal::NoUnit))?;
        if self.air.bits > 0 {
            return Err(refused(Refusal::AirHoldsFrame));
        }
        self.air.bits = called.tick(&mut self.air.bytes).map_err(refused)?;
        self.air.from = unit as usize;
        Ok(self.air.bits)
    }

    /// Gives the frame on the air its fate; answers the bits of the answer that is then on the
    /// air, 0 for none.
    pub fn carry(&mut self, fate: u8, start: u16, pattern: u16) -> Result<usize, CellRefusal> {
        let refused = |cause| Err(CellRefusal { unit: 0, cause });
        if self.air.bits == 0 {
            return refused(Refusal::AirEmpty);
        }
        match fate {
            0 => self.air.bits = 0,
            1 => self.everyone_hears(1),
            2 => self.everyone_hears(2),
            3 if self.pattern_allowed(start, pattern) => {
                change(&mut self.air.bytes, self.air.bits, start as usize, pattern);
                self.everyone_hears(1);
            }
            _ => return refused(Refusal::BadFate),
        }
        Ok(self.air.bits)
    }

    fn pattern_allowed(&self, start: u16, pattern: u16) -> bool {
        let last = start as usize + 15 - pattern.trailing_zeros().min(15) as usize;
        pattern != 0 && last < self.air.bits && (C::W == 16 || pattern & 0x00FF == 0)
    }

    /// All units but the sender hear the frame; the last answer takes its place on the air.
    fn everyone_hears(&mut self, times: usize) {
        let mut answer = [0; FRAME];
        let mut bits = 0;
        for _ in 0..times {
            bits = 0;
            for (number, unit) in self.units.iter_mut().enumerate() {
                if number != self.air.from {
                    // Only the receiver answers. No unit of a cell has a fault, and the frame
                    // stands in the air's bytes: nothing is refused.
                    bits += unit.hear(&self.air.bytes, self.air.bits, &mut answer).unwrap_or(0);
                }
            }
        }
        self.air = Air { bytes: answer, bits, from: 0 };
    }

    /// Whether the IRQ pin of a unit is low; `None` where there is no such unit.
    pub fn irq_low(&self, unit: u8) -> Option<bool> {
        Some(self.units.get(unit as usize)?.irq_low())
    }
}

// -------------------------------------------------------------------------------------- console

/// The results of a script: for each line with a call `N: RESULT` and a newline.
pub fn run(script: &[u8]) -> Vec<u8> {
    let mut console = Console::new();
    let mut results = Vec::new();
    for line in script.split_inclusive(|&byte| byte == b'\n') {
        if let Some(result) = console.line(line) {
            results.extend_from_slice(result.as_bytes());
            results.push(b'\n');
        }
    }
    results
}

/// Carries out a script line by line.
#[derive(Clone, Debug)]
pub struct Console {
    lines: u64,
    desk: AnyDesk,
}

impl Default for Console {
    fn default() -> Console {
        Console::new()
    }
}

impl Console {
    pub fn new() -> Console {
        Console { lines: 0, desk: AnyDesk::Crc16(Desk::new()) }
    }

    /// Carries out the next line, with its newline or without; answers `N: RESULT`, or nothing
    /// for a line with no word.
    pub fn line(&mut self, line: &[u8]) -> Option<String> {
        self.lines += 1;
        let line = line.strip_suffix(b"\n").unwrap_or(line);
        let mut words = Words::of(line);
        let verb = words.next()?;
        let mut text = format!("{}: ", self.lines);
        let start = text.len();
        if self.call(verb, words, &mut text).is_none() {
            text.truncate(start);
            text.push_str("cannot");
        }
        Some(text)
    }

    /// Writes the result of a call; `None` where it cannot be carried out.
    fn call(&mut self, verb: &[u8], mut words: Words<'_>, text: &mut String) -> Option<()> {
        if verb == b"kind" {
            let desk = match words.next()? {
                b"crc8" => AnyDesk::Crc8(Desk::new()),
                b"crc16" => AnyDesk::Crc16(Desk::new()),
                _ => return None,
            };
            words.end()?;
            self.desk = desk;
            text.push_str("ok");
            return Some(());
        }
        match &mut self.desk {
            AnyDesk::Crc8(desk) => desk.call(verb, words, text),
            AnyDesk::Crc16(desk) => desk.call(verb, words, text),
        }
    }
}

#[derive(Clone, Debug)]
enum AnyDesk {
    Crc8(Desk<Crc8>),
    Crc16(Desk<Crc16>),
}

// The desk keeps its units where they are; a few hundred bytes more for an empty label do no harm.
#[allow(clippy::large_enum_variant)]
#[derive(Clone, Debug)]
enum Place<C: Check> {
    Free,
    Bench(Bench),
    Boxed(Boxed<C>),
}

const LABELS: usize = 8;
const REPLY: usize = 255;
const USUAL_REPLY: u32 = 33;

/// The console's units under their labels, or the cell that was made of them.
#[derive(Clone, Debug)]
struct Desk<C: Check> {
    places: [Place<C>; LABELS],
    cell: Option<Cell<C>>,
}

impl<C: Check> Desk<C> {
    fn new() -> Desk<C> {
        Desk { places: std::array::from_fn(|_| Place::Free), cell: None }
    }

    fn call(&mut self, verb: &[u8], words: Words<'_>, text: &mut String) -> Option<()> {
        match (verb, &mut self.cell) {
            (b"pack", _) => pack_line::<C>(words, text),
            (b"read", _) => read_line::<C>(words, text),
            (b"field", _) => field_line(words, text),
            (_, Some(cell)) => cell_line(cell, verb, words, text),
            (_, None) => self.unit_line(verb, words, text),
        }
    }

    /// A line before a cell is made.
    fn unit_line(&mut self, verb: &[u8], mut words: Words<'_>, text: &mut String) -> Option<()> {
        if verb == b"make" {
            words.end()?;
            self.make(text);
            return Some(());
        }
        if !matches!(
            verb,
            b"bench"
                | b"load"
                | b"check"
                | b"box"
                | b"command"
                | b"ce"
                | b"irq"
                | b"tick"
                | b"hear"
        ) {
            return None;
        }
        let place = &mut self.places[words.number(LABELS as u32 - 1)? as usize];
        match (verb, place) {
            (b"bench", place) => {
                words.end()?;
                *place = Place::Bench(Bench::new());
                text.push_str("ok");
            }
            (b"load", Place::Bench(bench)) => put_done(text, bench.load(&words.bytes()?)),
            (b"check", Place::Bench(bench)) => {
                words.end()?;
                put_done(text, bench.check::<C>());
            }
            (b"box", place @ Place::Bench(_)) => {
                words.end()?;
                if let Place::Bench(bench) = std::mem::replace(place, Place::Free) {
                    *place = Place::Boxed(bench.boxed());
                }
                text.push_str("ok");
            }
            (b"command", Place::Bench(bench)) => {
                command(words, text, |host, reply| bench.command(host, reply))?;
            }
            (b"command", Place::Boxed(unit)) => {
                command(words, text, |host, reply| unit.command(host, reply))?;
            }
            (b"ce", Place::Boxed(unit)) => put_done(text, unit.ce(words.level()?)),
            (b"irq", Place::Boxed(unit)) => {
                words.end()?;
                put_irq(text, unit.irq_low());
            }
            (b"tick", Place::Boxed(unit)) => {
                let mut frame = [0; FRAME];
                let n = words.ticks()?;
                put_ticks(text, ticks(n, || unit.tick(&mut frame)), &frame);
            }
            (b"hear", Place::Boxed(unit)) => {
                let count = words.number(0xFFFF)? as usize;
                let bytes = words.bytes()?;
                let mut answer = [0; FRAME];
                put_frame(text, unit.hear(&bytes, count, &mut answer), &answer);
            }
            _ => return None,
        }
        Some(())
    }

    fn make(&mut self, text: &mut String) {
        let mut units = Vec::new();
        for place in &mut self.places {
            match std::mem::replace(place, Place::Free) {
                Place::Boxed(unit) => units.push(unit),
                other => {
                    *place = other;
                    break;
                }
            }
        }
        match Cell::make(units) {
            Ok(cell) => {
                self.cell = Some(cell);
                text.push_str("ok");
            }
            Err((units, refusal)) => {
                for (place, unit) in self.places.iter_mut().zip(units) {
                    *place = Place::Boxed(unit);
                }
                put_done(text, Err(refusal));
            }
        }
    }
}

/// A line once a cell is made.
fn cell_line<C: Check>(
    cell: &mut Cell<C>,
    verb: &[u8],
    mut words: Words<'_>,
    text: &mut String,
) -> Option<()> {
    match verb {
        b"command" => {
            let unit = words.number(255)? as u8;
            command(words, text, |host, reply| cell.command(unit, host, reply))?;
        }
        b"ce" => {
            let unit = words.number(255)? as u8;
            put_done(text, cell.ce(unit, words.level()?));
        }
        b"irq" => {
            let unit = words.number(255)? as u8;
            words.end()?;
            put_irq(text, cell.irq_low(unit)?);
        }
        b"tick" => {
            let unit = words.number(255)? as u8;
            let taken = ticks(words.ticks()?, || cell.tick(unit));
            put_ticks(text, taken, cell.air().0);
        }
        b"carry" => {
            let fate = words.number(255)? as u8;
            let (start, pattern) = if words.more() {
                (words.number(0xFFFF)? as u16, words.pattern()?)
            } else {
                (0, 0)
            };
            words.end()?;
            let carried = cell.carry(fate, start, pattern);
            put_frame(text, carried, cell.air().0);
        }
        _ => return None,
    }
    Some(())
}

fn pack_line<C: Check>(mut words: Words<'_>, text: &mut String) -> Option<()> {
    let digits = words.next()?;
    if !digits.len().is_multiple_of(2) {
        return None;
    }
    let mut bytes = digits.chunks(2).rev().map(byte).collect::<Option<Vec<u8>>>()?;
    let address = Address::low_first(&bytes)?;
    let pid = words.number(3)? as u8;
    let no_ack = words.number(1)? == 1;
    bytes = words.bytes()?;
    if bytes.len() > PAYLOAD {
        return None;
    }
    let mut frame = [0; FRAME];
    let packed = pack_frame::<C>(address, pid, no_ack, &bytes, &mut frame);
    put_frame(text, packed, &frame);
    Some(())
}

fn read_line<C: Check>(mut words: Words<'_>, text: &mut String) -> Option<()> {
    let width = words.number(5).filter(|&width| width >= 3)? as usize;
    let count = words.number(0xFFFF)? as usize;
    let bytes = words.bytes()?;
    match read_frame::<C>(&bytes, count, width) {
        Err(refusal) => put_refusal(text, refusal),
        Ok(None) => text.push_str("ok nothing"),
        Ok(Some(packet)) => {
            text.push_str("ok ");
            for &byte in packet.address.bytes()[..width].iter().rev() {
                put_byte(text, byte);
            }
            put_number(text, packet.pid as usize);
            put_number(text, packet.no_ack as usize);
            put_bytes(text, packet.payload());
        }
    }
    Some(())
}

fn field_line(mut words: Words<'_>, text: &mut String) -> Option<()> {
    let register = byte(words.next()?)?;
    let bytes = words.bytes()?;
    match field(&bytes, register) {
        Err(refusal) => put_refusal(text, refusal),
        Ok(None) => text.push_str("ok absent"),
        Ok(Some(field)) => {
            text.push_str("ok");
            put_bytes(text, field);
        }
    }
    Some(())
}

/// The words of a command line behind the unit.
fn command<E: Explain>(
    mut words: Words<'_>,
    text: &mut String,
    call: impl FnOnce(&[u8], &mut [u8]) -> Result<usize, E>,
) -> Option<()> {
    let room = words.room()? as usize;
    let host = words.bytes()?;
    let mut reply = [0; REPLY];
    match call(&host, &mut reply[..room]) {
        Ok(length) => {
            text.push_str("ok");
            put_bytes(text, &reply[..length]);
        }
        Err(refusal) => put_refusal(text, refusal),
    }
    Some(())
}

/// Up to `n` ticks; answers how many were taken, and the bits of the frame that ended them.
fn ticks<E>(n: u32, mut tick: impl FnMut() -> Result<usize, E>) -> Result<(u32, usize), E> {
    for taken in 1..=n {
        match tick() {
            Ok(0) => {}
            Ok(bits) => return Ok((taken, bits)),
            Err(refusal) if taken == 1 => return Err(refusal),
            Err(_) => return Ok((taken - 1, 0)),
        }
    }
    Ok((n, 0))
}

// The console's words.

struct Words<'a> {
    rest: &'a [u8],
}

impl<'a> Iterator for Words<'a> {
    type Item = &'a [u8];

    fn next(&mut self) -> Option<&'a [u8]> {
        self.skip_blanks();
        let end = self.rest.iter().position(|&b| is_blank(b)).unwrap_or(self.rest.len());
        let (word, rest) = self.rest.split_at(end);
        self.rest = rest;
        (!word.is_empty()).then_some(word)
    }
}

fn is_blank(byte: u8) -> bool {
    matches!(byte, b' ' | b'\t' | b'\r')
}

/// Two hexadecimal digits.
fn byte(word: &[u8]) -> Option<u8> {
    match *word {
        [high, low] => {
            let digit = |digit: u8| (digit as char).to_digit(16);
            Some((digit(high)? << 4 | digit(low)?) as u8)
        }
        _ => None,
    }
}

impl<'a> Words<'a> {
    /// The words of a line up to its comment.
    fn of(line: &'a [u8]) -> Words<'a> {
        let end = line.iter().position(|&byte| byte == b'#').unwrap_or(line.len());
        Words { rest: &line[..end] }
    }

    fn skip_blanks(&mut self) {
        let start = self.rest.iter().position(|&b| !is_blank(b)).unwrap_or(self.rest.len());
        self.rest = &self.rest[start..];
    }

    fn more(&mut self) -> bool {
        self.skip_blanks();
        !self.rest.is_empty()
    }

    fn end(&mut self) -> Option<()> {
        (!self.more()).then_some(())
    }

    /// A decimal number of at most `most`.
    fn number(&mut self, most: u32) -> Option<u32> {
        decimal(self.next()?, most)
    }

    /// All words to the end, each a byte.
    fn bytes(&mut self) -> Option<Vec<u8>> {
        self.map(byte).collect()
    }

    /// 0 or 1, and no more.
    fn level(&mut self) -> Option<bool> {
        let level = self.number(1)? == 1;
        self.end()?;
        Some(level)
    }

    /// A number of ticks, or none, and no more.
    fn ticks(&mut self) -> Option<u32> {
        let n = if self.more() { self.number(0xFFFF)? } else { 1 };
        self.end()?;
        (n > 0).then_some(n)
    }

    /// `/R`, if that comes.
    fn room(&mut self) -> Option<u32> {
        if self.more() && self.rest[0] == b'/' {
            decimal(&self.next()?[1..], REPLY as u32)
        } else {
            Some(USUAL_REPLY)
        }
    }

    /// Four hexadecimal digits.
    fn pattern(&mut self) -> Option<u16> {
        let (high, low) = self.next()?.split_at_checked(2)?;
        Some(u16::from_be_bytes([byte(high)?, byte(low)?]))
    }
}

fn decimal(word: &[u8], most: u32) -> Option<u32> {
    if word.is_empty() {
        return None;
    }
    word.iter().try_fold(0u32, |number, &digit| {
        let digit = (digit as char).to_digit(10)?;
        // `most` is small, so this stays far below what a u32 holds.
        Some(number * 10 + digit).filter(|&number| number <= most)
    })
}

// The console's results.

/// A refusal as the console writes it.
trait Explain {
    fn put(self, text: &mut String);
}

impl Explain for Refusal {
    fn put(self, text: &mut String) {
        put_number(text, self.number() as usize);
        if let Some(register) = self.register() {
            put_bytes(text, &[register]);
        }
    }
}

impl Explain for CellRefusal {
    fn put(self, text: &mut String) {
        text.push_str(if self.by_cell() { " cell" } else { " unit" });
        put_number(text, self.unit as usize);
        self.cause.put(text);
    }
}

fn put_refusal<E: Explain>(text: &mut String, refusal: E) {
    text.push_str("refused");
    refusal.put(text);
}

fn put_done<E: Explain>(text: &mut String, done: Result<(), E>) {
    match done {
        Ok(()) => text.push_str("ok"),
        Err(refusal) => put_refusal(text, refusal),
    }
}

fn put_irq(text: &mut String, low: bool) {
    text.push_str(if low { "ok low" } else { "ok high" });
}

fn put_ticks<E: Explain>(text: &mut String, taken: Result<(u32, usize), E>, frame: &[u8]) {
    match taken {
        Ok((ticks, bits)) => {
            text.push_str("ok");
            put_number(text, ticks as usize);
            put_bits(text, bits, frame);
        }
        Err(refusal) => put_refusal(text, refusal),
    }
}

fn put_frame<E: Explain>(text: &mut String, bits: Result<usize, E>, frame: &[u8]) {
    match bits {
        Ok(bits) => {
            text.push_str("ok");
            put_bits(text, bits, frame);
        }
        Err(refusal) => put_refusal(text, refusal),
    }
}

/// A frame, if there is one.
fn put_bits(text: &mut String, bits: usize, frame: &[u8]) {
    if bits > 0 {
        text.push_str(" frame");
        put_number(text, bits);
        put_bytes(text, &frame[..bits.div_ceil(8)]);
    }
}

fn put_number(text: &mut String, number: usize) {
    text.push(' ');
    text.push_str(&number.to_string());
}

fn put_bytes(text: &mut String, bytes: &[u8]) {
    for &byte in bytes {
        text.push(' ');
        put_byte(text, byte);
    }
}

fn put_byte(text: &mut String, byte: u8) {
    const DIGITS: &[u8; 16] = b"0123456789ABCDEF";
    text.push(DIGITS[byte as usize >> 4] as char);
    text.push(DIGITS[byte as usize & 15] as char);
}
