// The engine's calls, as c/sinkapricot.h has them.

#[repr(C)]
#[derive(Clone, Copy, Debug, PartialEq, Eq)]
pub struct Packet {
    pub check: u16,
    pub pid: u8,
    pub no_ack: bool,
    pub length: u8,
    pub address: [u8; 5],
    pub payload: [u8; 32],
}

mod c {
    use super::Packet;

    unsafe extern "C" {
        pub fn sinkapricot_crc8(bytes: *const u8, length: usize, bits: usize) -> u8;
        pub fn sinkapricot_crc16(bytes: *const u8, length: usize, bits: usize) -> u16;
        pub fn sinkapricot_pack(
            kind: u8,
            address: *const u8,
            address_length: usize,
            pid: u8,
            no_ack: bool,
            payload: *const u8,
            payload_length: usize,
            frame: *mut u8,
            frame_length: usize,
        ) -> usize;
        pub fn sinkapricot_read(
            kind: u8,
            width: usize,
            bytes: *const u8,
            length: usize,
            bits: usize,
            packet: *mut Packet,
        ) -> u8;
        pub fn sinkapricot_run(script: *const u8, length: usize, out: *mut u8, room: usize) -> usize;
    }
}

pub fn crc8(bytes: &[u8], bits: usize) -> u8 {
    unsafe { c::sinkapricot_crc8(bytes.as_ptr(), bytes.len(), bits) }
}

pub fn crc16(bytes: &[u8], bits: usize) -> u16 {
    unsafe { c::sinkapricot_crc16(bytes.as_ptr(), bytes.len(), bits) }
}

pub fn pack(kind: u8, address: &[u8], pid: u8, no_ack: bool, payload: &[u8], frame: &mut [u8]) -> usize {
    unsafe {
        c::sinkapricot_pack(
            kind,
            address.as_ptr(),
            address.len(),
            pid,
            no_ack,
            payload.as_ptr(),
            payload.len(),
            frame.as_mut_ptr(),
            frame.len(),
        )
    }
}

pub fn read(kind: u8, width: usize, bytes: &[u8], bits: usize, packet: &mut Packet) -> u8 {
    unsafe { c::sinkapricot_read(kind, width, bytes.as_ptr(), bytes.len(), bits, packet) }
}

/// The results of a script.
pub fn run(script: &[u8]) -> Vec<u8> {
    let mut out = vec![0; 4096 + 64 * script.len()];
    loop {
        let length =
            unsafe { c::sinkapricot_run(script.as_ptr(), script.len(), out.as_mut_ptr(), out.len()) };
        assert_ne!(length, usize::MAX, "no memory");
        let fits = length <= out.len();
        out.resize(length, 0);
        if fits {
            return out;
        }
    }
}
