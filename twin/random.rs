// Random scripts for the console: `script(seed, lines)`, the same for the same seed and lines.
// The maker runs its own lines through a console of twin.rs, to know which frames came and when a
// scene has gone wrong; the script is plain text and does not depend on who carries it out.
//
// `script_with(seed, lines, true)` also has what the documents say only by the way: numbers and blanks
// in odd spellings, and a unit that is used for its interrupt masks alone before a cell is made.

#[path = "twin.rs"]
#[allow(dead_code)]
mod script_twin;

/// A script of exactly `lines` lines, its seed in the first.
pub fn script(seed: u64, lines: usize) -> Vec<u8> {
    script_with(seed, lines, false)
}

pub fn script_with(seed: u64, lines: usize, unclear: bool) -> Vec<u8> {
    let mut maker = Maker::new(seed, lines, unclear);
    while !maker.done() {
        maker.scene();
    }
    let mut text = maker.text;
    if seed.is_multiple_of(3) {
        text.pop(); // A last line without a newline.
    }
    text
}

/// xorshift64*, its state spread from the seed by splitmix64.
struct Random(u64);

impl Random {
    fn new(seed: u64) -> Random {
        let mut z = seed.wrapping_add(0x9E37_79B9_7F4A_7C15);
        z = (z ^ z >> 30).wrapping_mul(0xBF58_476D_1CE4_E5B9);
        z = (z ^ z >> 27).wrapping_mul(0x94D0_49BB_1331_11EB);
        Random((z ^ z >> 31) | 1)
    }

    fn next(&mut self) -> u64 {
        self.0 ^= self.0 >> 12;
        self.0 ^= self.0 << 25;
        self.0 ^= self.0 >> 27;
        self.0.wrapping_mul(0x2545_F491_4F6C_DD1D) >> 16
    }

    fn below(&mut self, n: usize) -> usize {
        (self.next() % n as u64) as usize
    }

    fn between(&mut self, low: usize, high: usize) -> usize {
        low + self.below(high - low + 1)
    }

    fn chance(&mut self, percent: usize) -> bool {
        self.below(100) < percent
    }

    fn byte(&mut self) -> u8 {
        match self.below(8) {
            0 => 0x00,
            1 => 0xFF,
            _ => self.next() as u8,
        }
    }

    fn bytes(&mut self, n: usize) -> Vec<u8> {
        (0..n).map(|_| self.byte()).collect()
    }

    fn one<T: Copy>(&mut self, of: &[T]) -> T {
        of[self.below(of.len())]
    }

    /// An index, by weight.
    fn weighted(&mut self, weights: &[usize]) -> usize {
        let mut at = self.below(weights.iter().sum());
        for (index, &weight) in weights.iter().enumerate() {
            if at < weight {
                return index;
            }
            at -= weight;
        }
        unreachable!()
    }
}

/// What a unit is to be loaded with.
#[derive(Clone, Debug)]
struct Plan {
    config: u8,
    aa: u8,
    enabled: u8,
    width: usize,
    retr: u8,
    channel: u8,
    rf: u8,
    p0: [u8; 5],
    p1: [u8; 5],
    lows: [u8; 4],
    tx: [u8; 5],
    pw: [u8; 6],
}

impl Plan {
    fn receiver(&self) -> bool {
        self.config & 1 == 1
    }

    fn arc(&self) -> usize {
        (self.retr & 15) as usize
    }

    fn wait(&self) -> usize {
        25 * ((self.retr >> 4) as usize + 1)
    }

    /// Low byte first, five bytes.
    fn pipe(&self, pipe: usize) -> [u8; 5] {
        let mut address = if pipe == 0 { self.p0 } else { self.p1 };
        if pipe >= 2 {
            address[0] = self.lows[pipe - 2];
        }
        address
    }

    fn fields(&self) -> Vec<(u8, Vec<u8>)> {
        let mut fields = vec![
            (0x00, vec![self.config]),
            (0x01, vec![self.aa]),
            (0x02, vec![self.enabled]),
            (0x03, vec![self.width as u8 - 2]),
            (0x04, vec![self.retr]),
            (0x05, vec![self.channel]),
            (0x06, vec![self.rf]),
            (0x0A, self.p0.to_vec()),
            (0x0B, self.p1.to_vec()),
        ];
        fields.extend((0..4).map(|i| (0x0C + i, vec![self.lows[i as usize]])));
        fields.push((0x10, self.tx.to_vec()));
        fields.extend((0..6).map(|i| (0x11 + i, vec![self.pw[i as usize]])));
        fields
    }
}

fn profile(fields: &[(u8, Vec<u8>)]) -> Vec<u8> {
    let mut fields = fields.to_vec();
    fields.sort();
    let map = fields.iter().fold(0u32, |map, (register, _)| map | 1 << register);
    let mut bytes = map.to_be_bytes().to_vec();
    for (_, field) in fields {
        bytes.extend(field);
    }
    bytes
}

#[derive(Clone)]
struct Sent {
    bits: usize,
    bytes: Vec<u8>,
}

/// The frame of a result that holds one.
fn frame_in(result: &str) -> Option<Sent> {
    let mut words = result.split_once("frame ")?.1.split(' ');
    let bits = words.next()?.parse().ok()?;
    let bytes = words.map(|word| u8::from_str_radix(word, 16).unwrap()).collect();
    Some(Sent { bits, bytes })
}

struct Maker {
    random: Random,
    text: Vec<u8>,
    lines: usize,
    limit: usize,
    unclear: bool,
    console: script_twin::Console,
    crc8: bool,
    cell: bool,
    /// How many lines on end were `cannot`, misuse on purpose left out.
    stuck: usize,
    misuse: bool,
    /// How willingly the receiver's host reads in this scene, of 16.
    reading: usize,
    pool: Vec<Sent>,
}

impl Maker {
    fn new(seed: u64, limit: usize, unclear: bool) -> Maker {
        let mut maker = Maker {
            random: Random::new(seed),
            text: Vec::new(),
            lines: 0,
            limit,
            unclear,
            console: script_twin::Console::new(),
            crc8: false,
            cell: false,
            stuck: 0,
            misuse: false,
            reading: 16,
            pool: Vec::new(),
        };
        maker.put(format!("# seed {seed}").as_bytes());
        maker
    }

    fn done(&self) -> bool {
        self.lines >= self.limit
    }

    /// Whether a scene should go on.
    fn fine(&self) -> bool {
        !self.done() && self.stuck < 4
    }

    /// Puts a line as it is, and answers its result behind the number.
    fn put(&mut self, line: &[u8]) -> String {
        if self.done() {
            return String::new();
        }
        self.lines += 1;
        self.text.extend_from_slice(line);
        self.text.push(b'\n');
        let result = self.console.line(line).unwrap_or_default();
        let result = result.split_once(": ").map_or("", |(_, result)| result).to_string();
        let mut words = line.split(|b| b" \t\r#".contains(b)).filter(|word| !word.is_empty());
        if result == "ok" {
            match words.next() {
                Some(b"kind") => {
                    self.cell = false;
                    self.crc8 = words.next() == Some(b"crc8");
                }
                Some(b"make") => self.cell = true,
                _ => {}
            }
        }
        if let Some(sent) = frame_in(&result) {
            if self.pool.len() < 12 {
                self.pool.push(sent);
            } else {
                let place = self.random.below(12);
                self.pool[place] = sent;
            }
        }
        if !self.misuse {
            self.stuck = if result == "cannot" { self.stuck + 1 } else { 0 };
        }
        result
    }

    /// Puts a line, now and then with other blanks, a comment or another line before it.
    fn say(&mut self, line: &str) -> String {
        if !self.misuse && self.random.chance(5) {
            self.misuse = true;
            self.wrong_line();
            self.misuse = false;
        }
        if !self.misuse && self.random.chance(2) {
            // The line with a word too many, or too few.
            self.misuse = true;
            let wrong = if self.random.chance(75) {
                line.to_string() + self.random.one(&[" 0", " x", " 000", " 1 1"])
            } else {
                line.rsplit_once(' ').map_or(line, |(most, _)| most).to_string()
            };
            self.put(wrong.as_bytes());
            self.misuse = false;
        }
        let mut line = line.to_string();
        if self.random.chance(8) {
            let blank = self.random.one(&["  ", "\t", " \t ", " \r "]);
            line = line.replacen(' ', blank, self.random.between(1, 4));
        }
        if self.random.chance(3) {
            line.insert_str(0, self.random.one(&[" ", "\t", "   "]));
        }
        if self.random.chance(4) {
            line.push_str(self.random.one(&[" ", "\t", "\r", " # said", " #", "\t#1: ok"]));
        }
        self.put(line.as_bytes())
    }

    fn hex(&mut self, bytes: &[u8]) -> String {
        let mut text = String::new();
        for byte in bytes {
            let lower = self.random.chance(10);
            text += &if lower { format!(" {byte:02x}") } else { format!(" {byte:02X}") };
        }
        text
    }

    fn w(&self) -> usize {
        if self.crc8 { 8 } else { 16 }
    }

    fn pack(&self, address: &[u8], pid: u8, no_ack: bool, payload: &[u8]) -> Sent {
        let kind = if self.crc8 { script_twin::Kind::Crc8 } else { script_twin::Kind::Crc16 };
        let mut bytes = [0; 42];
        let bits = script_twin::pack(kind, address, pid, no_ack, payload, &mut bytes);
        Sent { bits, bytes: bytes[..bits.div_ceil(8)].to_vec() }
    }

    /// A frame whose check is right, whatever its length field says.
    fn any_frame(&self, address: &[u8], field: u8, pid: u8, payload: &[u8]) -> Sent {
        let mut covered: Vec<u8> = address.iter().rev().copied().collect();
        covered.push(field << 2 | pid);
        let mut before = 0; // NO_ACK
        for &byte in payload {
            covered.push(before << 7 | byte >> 1);
            before = byte;
        }
        covered.push(before << 7);
        let n = 8 * covered.len() - 7;
        let check = if self.crc8 {
            script_twin::check8(&covered, n) << 8
        } else {
            script_twin::check16(&covered, n)
        };
        *covered.last_mut().unwrap() |= (check >> 9) as u8;
        covered.extend([(check >> 1) as u8, (check << 7) as u8]);
        covered.insert(0, 0x55);
        let bits = 8 + n + self.w();
        covered.truncate(bits.div_ceil(8));
        Sent { bits, bytes: covered }
    }

    /// The check that stands in a frame of its own.
    fn check_of(&self, sent: &Sent, width: usize) -> u16 {
        let kind = if self.crc8 { script_twin::Kind::Crc8 } else { script_twin::Kind::Crc16 };
        script_twin::read(kind, width, &sent.bytes, sent.bits).map_or(0, |packet| packet.check)
    }

    /// A frame with this check, by trying last bytes, if there is one.
    fn twin_of(
        &mut self,
        check: u16,
        address: &[u8],
        pid: u8,
        no_ack: bool,
        length: usize,
    ) -> Option<Sent> {
        let mut payload = self.random.bytes(length);
        let tries = if self.crc8 { 256 } else { 65536 };
        if length < tries / 256 / 256 + 1 {
            return None;
        }
        for i in 0..tries {
            payload[length - 1] = i as u8;
            if !self.crc8 {
                payload[length - 2] = (i >> 8) as u8;
            }
            let sent = self.pack(address, pid, no_ack, &payload);
            if self.check_of(&sent, address.len()) == check {
                return Some(sent);
            }
        }
        None
    }

    // ------------------------------------------------------------------------------------ scenes

    fn scene(&mut self) {
        self.stuck = 0;
        self.reading = self.random.one(&[16, 16, 10, 4, 1]);
        if self.cell || self.random.chance(50) {
            self.kind();
        }
        match self.random.weighted(&[30, 30, 36, 14]) {
            0 => self.cell_scene(),
            1 => self.desk_scene(),
            2 => self.bench_scene(),
            _ => self.frame_scene(),
        }
    }

    fn kind(&mut self) {
        let kind = self.random.one(&["crc8", "crc16", "crc16"]);
        self.say(&format!("kind {kind}"));
    }

    // --------------------------------------------------------------------------- frames and fields

    fn frame_scene(&mut self) {
        for _ in 0..self.random.between(2, 10) {
            if !self.fine() {
                return;
            }
            self.frame_line();
        }
    }

    fn frame_line(&mut self) {
        match self.random.below(9) {
            8 => {
                // A right check, and a length field that most often is wrong.
                let width = self.random.between(3, 5);
                let address = self.random.bytes(width);
                let field = self.random.one(&[0, 1, 2, 31, 32, 33, 34, 63]);
                let length =
                    if self.random.chance(75) { field as usize } else { self.random.below(64) };
                let payload = self.random.bytes(length);
                let pid = self.random.below(4) as u8;
                let sent = self.any_frame(&address, field, pid, &payload);
                let width = if self.random.chance(80) { width } else { self.random.between(3, 5) };
                self.read_line(&sent, width);
            }
            0..=3 => {
                let width = self.random.between(3, 5);
                let address = self.random.bytes(width);
                let length = if self.random.chance(20) { 32 } else { self.random.below(9) };
                let payload = self.random.bytes(length);
                let (pid, no_ack) = (self.random.below(4), self.random.below(2));
                let address: String = self.hex(&address).split(' ').collect();
                let payload = self.hex(&payload);
                let result = self.say(&format!("pack {address} {pid} {no_ack}{payload}"));
                if let Some(sent) = frame_in(&result) {
                    self.read_line(&sent, width);
                    if self.random.chance(60) {
                        let bad = self.damaged(&sent);
                        self.read_line(&bad, width);
                    }
                }
            }
            4..=5 => {
                let width = self.random.between(3, 5);
                if let Some(sent) = self.pooled() {
                    self.read_line(&sent, width);
                }
            }
            _ => {
                let plan = self.receiver_plan();
                let fields = self.some_fields(&plan);
                self.field_lines(&profile(&fields));
            }
        }
    }

    fn read_line(&mut self, sent: &Sent, width: usize) -> String {
        let bytes = self.hex(&sent.bytes);
        self.say(&format!("read {width} {}{bytes}", sent.bits))
    }

    fn field_lines(&mut self, profile: &[u8]) {
        for _ in 0..self.random.between(1, 4) {
            let register = if self.random.chance(80) {
                self.random.below(0x17) as u8
            } else {
                self.random.byte()
            };
            let mut bytes = profile.to_vec();
            if self.random.chance(15) {
                self.spoil_profile(&mut bytes);
            }
            let (register, bytes) = (self.hex(&[register]), self.hex(&bytes));
            self.say(&format!("field{register}{bytes}"));
        }
    }

    fn spoil_profile(&mut self, bytes: &mut Vec<u8>) {
        match self.random.below(5) {
            0 => bytes.push(0),
            1 => {
                bytes.pop();
            }
            2 => bytes.truncate(self.random.below(4)),
            3 => {
                let bit = self.random.one(&[7, 8, 9, 0x17, 0x18, 0x1F]);
                if bytes.len() >= 4 {
                    bytes[3 - bit / 8] |= 1 << (bit % 8);
                    if self.random.chance(50) {
                        bytes.push(0);
                    }
                }
            }
            _ => {
                if bytes.len() >= 4 {
                    bytes[self.random.between(1, 3)] ^= 1 << self.random.below(7);
                }
            }
        }
    }

    fn pooled(&mut self) -> Option<Sent> {
        if self.pool.is_empty() {
            return None;
        }
        let place = self.random.below(self.pool.len());
        Some(self.pool[place].clone())
    }

    /// A copy with another bit count, other bits or other bytes.
    fn damaged(&mut self, sent: &Sent) -> Sent {
        let mut bad = sent.clone();
        match self.random.below(10) {
            0 => bad.bits += self.random.between(1, 9),
            1 => bad.bits = bad.bits.saturating_sub(self.random.between(1, 9)),
            2 => bad.bytes.extend(vec![0; self.random.between(1, 3)]),
            3 => {
                bad.bytes.pop();
            }
            4 if !bad.bytes.is_empty() => bad.bytes[0] ^= self.random.byte(), // Only the preamble.
            5 => {
                // Only the spare bits.
                if !bad.bits.is_multiple_of(8) {
                    *bad.bytes.last_mut().unwrap() ^= 0xFF >> (bad.bits % 8);
                }
            }
            _ => {
                let (start, pattern) = self.pattern(bad.bits);
                script_twin::change(&mut bad.bytes, bad.bits, start, pattern);
            }
        }
        bad
    }

    /// A pattern that is allowed on a frame of so many bits.
    fn pattern(&mut self, bits: usize) -> (usize, u16) {
        for _ in 0..100 {
            let start = self.random.below(bits.max(1));
            let pattern = match self.random.below(4) {
                0 => 0x8000,
                1 => 1 << self.random.below(16),
                2 => 0x8000 | 1 << self.random.below(16),
                _ => self.random.next() as u16,
            };
            let pattern = if self.crc8 { pattern & 0xFF00 } else { pattern };
            if pattern != 0 && start + 15 - (pattern.trailing_zeros() as usize) < bits {
                return (start, pattern);
            }
        }
        (0, 0x8000)
    }

    // -------------------------------------------------------------------------------------- plans

    fn address(&mut self) -> [u8; 5] {
        match self.random.below(6) {
            0 => [0xE7; 5],
            1 => [0xC2; 5],
            2 => {
                let mut address = std::array::from_fn(|_| self.random.next() as u8);
                address[3..].fill(0);
                address
            }
            _ => std::array::from_fn(|_| self.random.next() as u8),
        }
    }

    fn small_length(&mut self) -> u8 {
        match self.random.below(10) {
            0 => 32,
            1 => self.random.between(1, 32) as u8,
            _ => self.random.between(1, 4) as u8,
        }
    }

    fn retr(&mut self) -> u8 {
        let ard = if self.random.chance(85) { self.random.below(3) } else { self.random.below(16) };
        let arc = if self.random.chance(85) { self.random.below(4) } else { self.random.below(16) };
        (ard << 4 | arc) as u8
    }

    fn rf(&mut self) -> u8 {
        self.random.one(&[0x0E, 0x06, 0x26, 0x0E, 0x00, 0x0F])
    }

    fn config(&mut self, receiver: bool) -> u8 {
        let masks = if self.random.chance(60) { 0 } else { (self.random.below(8) << 4) as u8 };
        masks | 8 | if self.crc8 { 0 } else { 4 } | receiver as u8
    }

    /// A receiver without a fault.
    fn receiver_plan(&mut self) -> Plan {
        let mut plan = Plan {
            config: self.config(true),
            aa: 0x3F,
            enabled: self.random.between(1, 63) as u8,
            width: self.random.between(3, 5),
            retr: self.retr(),
            channel: self.random.below(126) as u8,
            rf: self.rf(),
            p0: self.address(),
            p1: self.address(),
            lows: [0; 4],
            tx: self.address(),
            pw: std::array::from_fn(|_| self.small_length()),
        };
        if self.random.chance(30) {
            plan.aa = plan.enabled;
        }
        // All six addresses differ in the low byte.
        let first = plan.p1[0];
        plan.lows = std::array::from_fn(|i| first.wrapping_add(1 + i as u8));
        if plan.p0[0].wrapping_sub(first) < 5 {
            plan.p0[0] = first.wrapping_add(self.random.between(5, 255) as u8);
        }
        plan
    }

    /// A sender without a fault, to an address.
    fn sender_plan(&mut self, to: [u8; 5], width: usize, channel: u8, rf: u8) -> Plan {
        let mut tx = to;
        if self.random.chance(40) {
            // The bytes that are not in use do not matter.
            for byte in &mut tx[width..] {
                *byte = self.random.next() as u8;
            }
        }
        Plan {
            config: self.config(false),
            aa: self.random.one(&[0x3F, 0x01, 0x03]),
            enabled: self.random.one(&[0x03, 0x01, 0x3F, 0x01]),
            width,
            retr: self.retr(),
            channel,
            rf,
            p0: to,
            p1: self.address(),
            lows: [0xC3, 0xC4, 0xC5, 0xC6],
            tx,
            pw: std::array::from_fn(|_| self.random.below(33) as u8),
        }
    }

    fn sender_for(&mut self, receiver: &Plan, pipe: usize) -> Plan {
        let rf = (receiver.rf & 0x28) | self.random.one(&[0x06, 0x00, 0x07]);
        self.sender_plan(receiver.pipe(pipe), receiver.width, receiver.channel, rf)
    }

    fn some_fields(&mut self, plan: &Plan) -> Vec<(u8, Vec<u8>)> {
        plan.fields().into_iter().filter(|_| self.random.chance(70)).collect()
    }

    /// Puts a value of a plan or two out of order, so that most often a fault comes of it.
    fn spoil_plan(&mut self, plan: &mut Plan) {
        self.spoil_once(plan);
        if self.random.chance(30) {
            self.spoil_once(plan);
        }
    }

    fn spoil_once(&mut self, plan: &mut Plan) {
        match self.random.below(14) {
            12 => {
                // Two pipes with one address, and pipes with no length.
                plan.enabled = 0x3F & !(1 << self.random.below(6));
                plan.aa = 0x3F;
                let lower = self.random.below(3);
                plan.lows[lower + 1] = plan.lows[lower];
                plan.pw[self.random.below(6)] = 0;
                plan.pw[self.random.below(6)] = 0;
            }
            13 => {
                // Alike in all bytes that are in use, or in all but the last of these.
                let differs = self.random.one(&[plan.width - 1, plan.width % 5]);
                plan.tx = plan.p0;
                plan.tx[differs] ^= 1;
                plan.p0[0] = plan.lows[0];
                plan.p0[1..].copy_from_slice(&plan.p1[1..]);
                plan.p0[differs] ^= 1;
            }
            0 => plan.config ^= 4,
            1 => plan.config ^= 1,
            2 => plan.config &= !8,
            3 => plan.config |= 2,
            4 => plan.aa = 0,
            5 => plan.enabled = if plan.receiver() { 0 } else { 0x3E },
            6 => plan.tx[0] ^= 0x10,
            7 => plan.pw = [0; 6],
            8 => {
                plan.enabled = 0x3F;
                plan.aa = 0x3F;
                plan.lows[self.random.below(4)] = plan.p1[0];
            }
            9 => plan.channel = (plan.channel + 1) % 126,
            10 => plan.width = plan.width % 3 + 3,
            _ => plan.rf ^= if plan.rf & 8 != 0 { 8 } else { 0x20 },
        }
    }

    // -------------------------------------------------------------------------------- the bench

    fn set_up(&mut self, label: usize, plan: &Plan) {
        self.say(&format!("bench {label}"));
        let mut fields = plan.fields();
        match self.random.below(10) {
            0..=5 => {
                let bytes = self.hex(&profile(&fields));
                self.say(&format!("load {label}{bytes}"));
            }
            6..=7 => {
                let later = fields.split_off(self.random.below(fields.len()));
                for part in [fields, later] {
                    let bytes = self.hex(&profile(&part));
                    self.say(&format!("load {label}{bytes}"));
                }
            }
            _ => {
                let later = fields.split_off(self.random.between(5, fields.len() - 1));
                for (register, field) in later {
                    let field = self.hex(&field);
                    self.say(&format!("command {label} {:02X}{field}", 0x20 + register));
                }
                let bytes = self.hex(&profile(&fields));
                self.say(&format!("load {label}{bytes}"));
            }
        }
        if self.random.chance(40) {
            self.say(&format!("check {label}"));
        }
    }

    fn bench_scene(&mut self) {
        let label = self.random.below(8);
        self.say(&format!("bench {label}"));
        for _ in 0..self.random.between(3, 20) {
            if !self.fine() {
                return;
            }
            match self.random.weighted(&[30, 20, 12, 18, 12, 6, 3]) {
                0 => {
                    let register = self.random.below(24) as u8;
                    self.command(label, &[register]);
                }
                1 => {
                    let register = self.random.below(24) as u8;
                    let length = if matches!(register, 0x0A | 0x0B | 0x10) { 5 } else { 1 };
                    let mut host = vec![0x20 + register];
                    if length == 1 && self.random.chance(50) {
                        host.push(self.near_value(register));
                    } else if self.random.chance(50) {
                        host.extend(self.random.bytes(length));
                    } else {
                        host.extend(vec![self.random.below(0x40) as u8; length]);
                    }
                    self.command(label, &host);
                }
                2 => {
                    let host = self.odd_command();
                    self.command(label, &host);
                }
                3 => {
                    let mut plan = if self.random.chance(50) {
                        self.receiver_plan()
                    } else {
                        let to = self.address();
                        let (width, channel, rf) =
                            (self.random.between(3, 5), self.random.below(126) as u8, self.rf());
                        self.sender_plan(to, width, channel, rf)
                    };
                    if self.random.chance(40) {
                        self.spoil_plan(&mut plan);
                    }
                    let mut fields = self.some_fields(&plan);
                    if self.random.chance(25) && !fields.is_empty() {
                        // A value that is not allowed, as a rule.
                        for _ in 0..self.random.between(1, 2) {
                            let place = self.random.below(fields.len());
                            let near = self.near_value(fields[place].0);
                            fields[place].1[0] = self.random.one(&[0x80, near, near, near | 0x80]);
                        }
                    }
                    let mut bytes = profile(&fields);
                    if self.random.chance(12) {
                        self.spoil_profile(&mut bytes);
                    }
                    if self.random.chance(25) {
                        self.field_lines(&bytes);
                    }
                    let bytes = self.hex(&bytes);
                    self.say(&format!("load {label}{bytes}"));
                }
                4 => {
                    self.say(&format!("check {label}"));
                }
                5 => {
                    self.say(&format!("bench {label}"));
                }
                _ => {
                    // As a rule with a fault: everything is refused.
                    self.say(&format!("box {label}"));
                    self.say(&format!("irq {label}"));
                    self.command(label, &[0xFF]);
                    self.ticks(label, 1);
                    self.say(&format!("ce {label} 1"));
                    if let Some(sent) = self.pooled() {
                        self.hear(label, &sent);
                    }
                    return;
                }
            }
        }
    }

    // ----------------------------------------------------------------------- single lines of units

    fn command(&mut self, unit: usize, host: &[u8]) -> String {
        let mut room = String::new();
        if self.random.chance(7) {
            let size = match self.random.below(6) {
                0 => 0,
                1 => 1,
                2 => self.random.below(7),
                3 => self.random.below(35),
                4 => 255,
                _ => 33,
            };
            room = format!(" /{size}");
        }
        let host = self.hex(host);
        self.say(&format!("command {unit}{room}{host}"))
    }

    fn ticks(&mut self, unit: usize, n: usize) -> String {
        if n == 1 && self.random.chance(60) {
            self.say(&format!("tick {unit}"))
        } else {
            self.say(&format!("tick {unit} {n}"))
        }
    }

    fn hear(&mut self, unit: usize, sent: &Sent) -> String {
        let bytes = self.hex(&sent.bytes);
        self.say(&format!("hear {unit} {}{bytes}", sent.bits))
    }

    fn odd_command(&mut self) -> Vec<u8> {
        let first = match self.random.below(4) {
            0 => self
                .random
                .one(&[0x00, 0x18, 0x1F, 0x38, 0x3F, 0x60, 0x62, 0xA1, 0xE0, 0xE3, 0xFE, 0x50]),
            1 => self.random.one(&[0xA0, 0x61, 0xE1, 0xE2, 0xFF]),
            2 => self.random.below(0x40) as u8,
            _ => self.random.byte(),
        };
        let length = match self.random.below(6) {
            0 => 5,
            1 => 33,
            2 => self.random.below(40),
            _ => self.random.below(3),
        };
        let mut host = vec![first];
        host.extend(self.random.bytes(length));
        if self.random.chance(10) {
            host.clear();
        }
        host
    }

    /// A value at or near the bounds of what a register takes.
    fn near_value(&mut self, register: u8) -> u8 {
        if self.random.chance(15) {
            return 1 << self.random.below(8);
        }
        self.random.one(match register {
            0x00 => &[0x00, 0x08, 0x0F, 0x7F, 0x80, 0x8C, 0x0C, 0x0D],
            0x01 | 0x02 => &[0x00, 0x01, 0x3F, 0x40, 0x41, 0x80, 0x7F, 0x3E],
            0x03 => &[0x00, 0x01, 0x02, 0x03, 0x04, 0x05, 0x81, 0xFF],
            0x05 => &[0x00, 0x7C, 0x7D, 0x7E, 0x7F, 0x80, 0xFF],
            0x06 => &[0x00, 0x08, 0x20, 0x28, 0x2E, 0x26, 0x0F, 0x10, 0x1E, 0x40, 0x80, 0x27],
            0x07 => &[0x00, 0x70, 0x40, 0x20, 0x10, 0x0E, 0x01, 0x80, 0x71],
            0x11..=0x16 => &[0x00, 0x01, 0x1F, 0x20, 0x21, 0x22, 0x40, 0x80],
            _ => &[0x00, 0x01, 0x7F, 0x80, 0xFF],
        })
    }

    /// Some command that does not change much.
    fn look(&mut self, unit: usize) {
        let register =
            self.random.one(&[0x07, 0x08, 0x17, 0x00, 0x07, 0x17, 0x08, 0x0A, 0x10, 0x09]);
        match self.random.below(6) {
            0 => {
                self.say(&format!("irq {unit}"));
            }
            1 => {
                self.command(unit, &[0xFF]);
            }
            2 => {
                let register = self.random.below(24) as u8;
                self.command(unit, &[register]);
            }
            _ => {
                self.command(unit, &[register]);
            }
        }
    }

    fn clear(&mut self, unit: usize) {
        let value = self.random.one(&[0x70, 0x70, 0x10, 0x20, 0x40, 0x30, 0x00, 0x60]);
        self.command(unit, &[0x27, value]);
    }

    fn power_up(&mut self, unit: usize, plan: &Plan) {
        let ce_first = self.random.chance(60);
        if ce_first {
            self.say(&format!("ce {unit} 1"));
        }
        self.command(unit, &[0x20, plan.config | 2]);
        match self.random.below(6) {
            0 => {
                self.ticks(unit, 199);
                self.look(unit);
                self.ticks(unit, 1);
            }
            4 => {
                // CONFIG again while it starts.
                let n = self.random.between(1, 199);
                self.ticks(unit, n);
                let masks = self.random.one(&[0, 0x10, 0x40]);
                self.command(unit, &[0x20, (plan.config | 2) ^ masks]);
                self.ticks(unit, 200 - n);
            }
            5 => {
                // Off and on again while it starts.
                let n = self.random.between(1, 199);
                self.ticks(unit, n);
                self.command(unit, &[0x20, plan.config]);
                self.ticks(unit, 1);
                self.command(unit, &[0x20, plan.config | 2]);
                self.ticks(unit, 200);
            }
            1 => {
                self.ticks(unit, 200);
            }
            _ => {
                let n = self.random.between(200, 240);
                self.ticks(unit, n);
            }
        }
        if !ce_first {
            self.say(&format!("ce {unit} 1"));
        }
        if plan.receiver() {
            self.tune(unit);
        }
    }

    /// From CE high to RX, as a rule.
    fn tune(&mut self, unit: usize) {
        match self.random.below(5) {
            0 => {
                self.ticks(unit, 12);
                self.ticks(unit, 1);
            }
            1 => {
                // CE low in Tuning.
                let n = self.random.between(1, 12);
                self.ticks(unit, n);
                self.say(&format!("ce {unit} 0"));
                let n = self.random.between(1, 14);
                self.ticks(unit, n);
                if self.random.chance(80) {
                    self.say(&format!("ce {unit} 1"));
                    let n = self.random.one(&[13, 13, 12]);
                    self.ticks(unit, n);
                }
            }
            _ => {
                self.ticks(unit, 13);
            }
        }
    }

    /// Off and on again, queues and all; a receiver must leave RX before.
    fn power_cycle(&mut self, unit: usize, plan: &Plan) {
        if plan.receiver() || self.random.chance(30) {
            self.say(&format!("ce {unit} 0"));
        }
        if self.command(unit, &[0x20, plan.config]).contains("refused") {
            return;
        }
        for _ in 0..self.random.between(0, 3) {
            let register = self.random.one(&[0x07, 0x08, 0x17, 0x00]);
            self.command(unit, &[register]);
        }
        if self.random.chance(30) {
            self.ticks(unit, 250);
        }
        if self.random.chance(25) {
            if plan.receiver() {
                self.command(unit, &[0x61]);
            } else {
                self.write_payload(unit, 1);
            }
        }
        self.power_up(unit, plan);
    }

    /// Answers the payload and the result.
    fn write_payload(&mut self, unit: usize, length: usize) -> (Vec<u8>, String) {
        let payload = self.random.bytes(length);
        let mut host = vec![0xA0];
        host.extend(&payload);
        let result = self.command(unit, &host);
        (payload, result)
    }

    /// A number of ticks at or near a change of mode.
    fn tick_count(&mut self, plan: &Plan) -> usize {
        let near = self.random.one(&[1, 1, 13, 14, plan.wait(), plan.wait(), 200]);
        match self.random.below(10) {
            0 => near + 1,
            1 => (near - 1).max(1),
            2 => self.random.between(1, 30),
            3 => self.random.between(1, 1000),
            _ => near,
        }
    }

    /// Things that one may do with a unit of any kind, in a cell or on the desk.
    fn unit_action(&mut self, unit: usize, plan: &Plan, length: usize) {
        match self.random.weighted(&[16, 8, 6, 4, 4, 5, 3, 3, 3]) {
            0 => self.look(unit),
            1 => self.clear(unit),
            2 => {
                if plan.receiver() {
                    self.command(unit, &[0x61]);
                } else {
                    self.write_payload(unit, length);
                }
            }
            3 => {
                let flush = if plan.receiver() != self.random.chance(10) { 0xE2 } else { 0xE1 };
                self.command(unit, &[flush]);
            }
            4 => {
                let level = self.random.below(2);
                self.say(&format!("ce {unit} {level}"));
                if self.random.chance(60) {
                    self.say(&format!("ce {unit} 1"));
                    if level == 0 && plan.receiver() && self.random.chance(70) {
                        self.tune(unit);
                    }
                }
            }
            5 => {
                let n = self.tick_count(plan);
                self.ticks(unit, n);
            }
            6 => {
                let host = self.odd_command();
                self.command(unit, &host);
            }
            7 => {
                // CONFIG: masks, power, or a bit that is fixed.
                let masks = (self.random.below(8) << 4) as u8;
                let up = if self.random.chance(75) { 2 } else { 0 };
                let wrong =
                    if self.random.chance(20) { self.random.one(&[0x80, 8, 4, 1]) } else { 0 };
                self.command(unit, &[0x20, (plan.config & 0x0D) ^ wrong | masks | up]);
                if up == 0 && self.random.chance(80) {
                    self.look(unit);
                    self.power_up(unit, plan);
                } else if self.random.chance(40) {
                    self.power_cycle(unit, plan);
                }
            }
            _ => {
                let register = if self.random.chance(30) { 7 } else { self.random.below(24) as u8 };
                let length = if matches!(register, 0x0A | 0x0B | 0x10) { 5 } else { 1 };
                let mut host = vec![0x20 + register];
                host.extend(self.random.bytes(length));
                self.command(unit, &host);
            }
        }
    }

    // ---------------------------------------------------------------------- boxed units on the desk

    fn desk_scene(&mut self) {
        let r = self.random.below(8);
        let s = (r + self.random.between(1, 7)) % 8;
        let mut receiver = self.receiver_plan();
        let pipes: Vec<usize> = (0..6).filter(|p| receiver.enabled >> p & 1 == 1).collect();
        let pipe = self.random.one(&pipes);
        let mut sender = self.sender_for(&receiver, pipe);
        if self.random.chance(12) {
            if self.random.chance(50) {
                self.spoil_plan(&mut receiver);
            } else {
                self.spoil_plan(&mut sender);
            }
        }
        self.set_up(r, &receiver);
        self.say(&format!("box {r}"));
        self.set_up(s, &sender);
        self.say(&format!("box {s}"));
        self.power_up(r, &receiver);
        self.power_up(s, &sender);
        let length = receiver.pw[pipe] as usize;
        let mut last: Option<Sent> = None;
        for _ in 0..self.random.between(10, 80) {
            if !self.fine() {
                return;
            }
            match self.random.weighted(&[30, 25, 14, 2 + self.reading, 8, 12, 4]) {
                // The sender's frame, by hand to the receiver and back.
                0 => {
                    if self.random.chance(70) {
                        self.write_payload(s, length);
                    }
                    let n = if self.random.chance(70) {
                        sender.wait().max(14)
                    } else {
                        self.tick_count(&sender)
                    };
                    let result = self.ticks(s, n);
                    if let Some(sent) = frame_in(&result) {
                        let arrives =
                            if self.random.chance(20) { self.damaged(&sent) } else { sent.clone() };
                        let result = self.hear(r, &arrives);
                        last = Some(sent);
                        if let Some(answer) = frame_in(&result) {
                            match self.random.below(10) {
                                0 => {}
                                1 => {
                                    let bad = self.damaged(&answer);
                                    self.hear(s, &bad);
                                }
                                _ => {
                                    self.hear(s, &answer);
                                }
                            }
                        }
                    }
                }
                // A frame of nobody's to the receiver.
                1 => {
                    let pipe = if self.random.chance(85) {
                        self.random.one(&pipes)
                    } else {
                        self.random.below(6)
                    };
                    let mut address = receiver.pipe(pipe)[..receiver.width].to_vec();
                    if self.random.chance(5) {
                        address[self.random.below(receiver.width)] ^= 1;
                    }
                    if self.random.chance(4) {
                        address.resize(3 + self.random.below(3), 0xE7);
                    }
                    let length = if self.random.chance(90) {
                        receiver.pw[pipe] as usize
                    } else {
                        self.random.below(33)
                    };
                    let payload = self.random.bytes(length);
                    let (pid, no_ack) = (self.random.below(4) as u8, self.random.chance(20));
                    let sent = self.pack(&address, pid, no_ack, &payload);
                    let arrives =
                        if self.random.chance(15) { self.damaged(&sent) } else { sent.clone() };
                    self.hear(r, &arrives);
                    last = Some(sent);
                }
                // The last one again.
                2 => {
                    let Some(sent) = last.clone() else { continue };
                    if self.random.chance(30) {
                        self.clear(r);
                    }
                    if self.random.chance(12) {
                        self.power_cycle(r, &receiver);
                    }
                    if self.random.chance(8) {
                        self.command(r, &[0xE2]);
                    }
                    self.hear(r, &sent);
                    if self.random.chance(30) {
                        self.look(r);
                    }
                }
                // Another frame with the check of the last one, on some pipe, with some identity.
                6 => {
                    let Some(sent) = last.clone() else { continue };
                    let check = self.check_of(&sent, receiver.width);
                    let pid = if self.random.chance(50) {
                        sent.bytes[1 + receiver.width] & 3
                    } else {
                        self.random.below(4) as u8
                    };
                    let pipe = self.random.one(&pipes);
                    let address = receiver.pipe(pipe);
                    let length = receiver.pw[pipe] as usize;
                    let no_ack = self.random.chance(10);
                    if let Some(other) =
                        self.twin_of(check, &address[..receiver.width], pid, no_ack, length)
                    {
                        self.hear(r, &sent);
                        self.hear(r, &other);
                        self.command(r, &[0x17]);
                        self.hear(r, &sent);
                        last = Some(other);
                    }
                }
                3 => {
                    self.command(r, &[0x61]);
                }
                // Something heard by the sender.
                4 => {
                    let mut address = sender.p0[..sender.width].to_vec();
                    if self.random.chance(25) {
                        address[self.random.below(sender.width)] ^= 1;
                    }
                    let length = if self.random.chance(80) { 0 } else { self.random.between(1, 4) };
                    let payload = self.random.bytes(length);
                    let pid = self.random.below(4) as u8;
                    let no_ack = self.random.chance(30);
                    let sent = self.pack(&address, pid, no_ack, &payload);
                    self.hear(s, &sent);
                }
                _ => {
                    if let (Some(sent), true) = (self.pooled(), self.random.chance(30)) {
                        let unit = self.random.one(&[r, s]);
                        self.hear(unit, &sent);
                    } else if self.random.chance(10) {
                        let (unit, plan) = self.random.one(&[(r, &receiver), (s, &sender)]);
                        self.power_cycle(unit, plan);
                    } else if self.random.chance(50) {
                        self.unit_action(r, &receiver, length);
                    } else {
                        self.unit_action(s, &sender, length);
                    }
                }
            }
        }
    }

    // ---------------------------------------------------------------------------------- the cell

    fn cell_scene(&mut self) {
        let mut receiver = self.receiver_plan();
        let count = self.random.between(1, 6);
        while (receiver.enabled.count_ones() as usize) < count {
            receiver.enabled |= 1 << self.random.below(6);
        }
        receiver.aa |= receiver.enabled;
        let mut pipes: Vec<usize> = (0..6).filter(|p| receiver.enabled >> p & 1 == 1).collect();
        while pipes.len() > count {
            pipes.remove(self.random.below(pipes.len()));
        }
        for i in (1..pipes.len()).rev() {
            pipes.swap(i, self.random.below(i + 1));
        }
        let mut plans = vec![receiver.clone()];
        for &pipe in &pipes {
            let plan = self.sender_for(&receiver, pipe);
            plans.push(plan);
        }
        for (label, plan) in plans.iter().enumerate() {
            self.set_up(label, plan);
            self.say(&format!("box {label}"));
            if !self.fine() {
                return;
            }
        }
        if count < 7 {
            // What a scene before left there would be taken for a sender.
            let next = count + 1;
            self.say(&format!("bench {next}"));
        }
        if self.random.chance(30) {
            self.spoil_cell(&plans, &pipes);
        }
        if self.say("make") != "ok" {
            return;
        }
        let mut order: Vec<usize> = (0..=count).collect();
        for i in (1..order.len()).rev() {
            order.swap(i, self.random.below(i + 1));
        }
        for unit in order {
            if self.random.chance(94) {
                self.power_up(unit, &plans[unit]);
            }
        }
        for _ in 0..self.random.between(10, 120) {
            if !self.fine() || !self.cell {
                return;
            }
            let sender = self.random.between(1, count);
            let length = receiver.pw[pipes[sender - 1]] as usize;
            self.cell_action(&plans, sender, length);
        }
    }

    /// Makes the cell with something wrong, and then puts it right.
    fn spoil_cell(&mut self, plans: &[Plan], pipes: &[usize]) {
        let unit = self.random.below(plans.len());
        let again = |maker: &mut Maker, plan: &Plan| {
            maker.set_up(unit, plan);
            maker.say(&format!("box {unit}"));
        };
        match self.random.below(if self.unclear { 12 } else { 11 }) {
            10 => {
                // Another width with the same address as a number.
                let mut plan = plans[unit].clone();
                if plan.receiver() || plan.width == 5 {
                    plan.width = plan.width % 3 + 3;
                } else {
                    plan.p0[plan.width..].fill(0);
                    plan.tx = plan.p0;
                    plan.width += self.random.between(1, 5 - plan.width);
                }
                again(self, &plan);
            }
            7..=9 => {
                self.used_unit(unit, &plans[unit]);
                return;
            }
            0 | 1 => {
                let mut plan = plans[unit].clone();
                self.spoil_plan(&mut plan);
                again(self, &plan);
            }
            2 => {
                // Two senders on one pipe.
                let plan = self.sender_for(&plans[0], pipes[0]);
                again(self, &plan);
            }
            3 => {
                self.say(&format!("ce {unit} 1"));
            }
            4 => {
                if unit > 0 {
                    self.write_payload(unit, 1);
                    if self.random.chance(50) {
                        self.command(unit, &[0xE1]);
                    }
                } else {
                    self.command(unit, &[0x20, plans[unit].config | 2]);
                }
            }
            5 => {
                // A seventh sender, as a rule after others that are at fault.
                for label in plans.len()..8 {
                    let plan = self.sender_for(&plans[0], (label - 1) % 6);
                    self.set_up(label, &plan);
                    self.say(&format!("box {label}"));
                }
                self.say("make");
                self.say(&format!("bench {}", plans.len()));
                return;
            }
            6 => {
                // Used, and back in its first state: it fits.
                self.command(unit, &[0x20, plans[unit].config | 2]);
                let n = self.random.between(1, 300);
                self.ticks(unit, n);
                self.command(unit, &[0x20, plans[unit].config]);
                return;
            }
            _ => {
                self.command(unit, &[0x20, plans[unit].config ^ 0x10]);
            }
        }
        if self.say("make") == "ok" {
            return;
        }
        if self.random.chance(90) {
            let plan = plans[unit].clone();
            again(self, &plan);
        }
    }

    /// Uses a unit on the desk and brings it back to its first state, but for one thing or none.
    fn used_unit(&mut self, unit: usize, plan: &Plan) {
        let but = self.random.below(7);
        self.say(&format!("ce {unit} 1"));
        self.command(unit, &[0x20, plan.config | 2]);
        self.ticks(unit, 200);
        if plan.receiver() {
            self.ticks(unit, 13);
            let pipe = (0..6).find(|pipe| plan.enabled >> pipe & 1 == 1).unwrap_or(0);
            let payload = self.random.bytes(plan.pw[pipe] as usize);
            let sent = self.pack(&plan.pipe(pipe)[..plan.width], 1, false, &payload);
            if but != 0 {
                self.hear(unit, &sent);
            }
            if but != 1 {
                self.command(unit, &[0x61]);
            }
            if but != 2 {
                self.command(unit, &[0x27, 0x70]);
            }
        } else {
            let answer = self.pack(&plan.p0[..plan.width], 0, false, &[]);
            let writes = self.random.one(&[4, 4, 4, 8, 3]);
            for i in 1..=writes {
                self.write_payload(unit, 1);
                if but == 4 && i == writes {
                    break;
                }
                if self.random.chance(50) && !(but == 5 && i == writes) {
                    self.command(unit, &[0xE1]);
                    continue;
                }
                self.ticks(unit, 14);
                if but == 3 && i == 1 {
                    // MAX_RT.
                    for _ in 0..=plan.arc() {
                        self.ticks(unit, plan.wait());
                    }
                    self.command(unit, &[0x27, 0x10]);
                    self.command(unit, &[0xE1]);
                    continue;
                }
                if but == 5 && i == writes {
                    self.ticks(unit, plan.wait());
                }
                self.hear(unit, &answer);
            }
            if but != 2 {
                self.command(unit, &[0x27, 0x70]);
            }
        }
        if but != 6 {
            self.say(&format!("ce {unit} 0"));
        }
        self.command(unit, &[0x20, plan.config]);
        if self.say("make") != "ok" && self.random.chance(90) {
            self.set_up(unit, plan);
            self.say(&format!("box {unit}"));
        }
    }

    fn fate(&mut self, bits: usize) -> String {
        match self.random.weighted(&[60, 13, 10, 12, 3, 2]) {
            0 => self.say("carry 1"),
            1 => self.say("carry 0"),
            2 => self.say("carry 2"),
            3 => {
                let (start, pattern) = self.pattern(bits);
                self.say(&format!("carry 3 {start} {pattern:04X}"))
            }
            4 => {
                // Wrong, as a rule.
                let fate = self.random.one(&[3, 3, 3, 4, 5, 255]);
                let start =
                    self.random.one(&[0, 7, bits - 1, bits, bits - 15, bits - 16, bits - 8, 65535]);
                let pattern = self.random.one(&[0x0000u16, 0x0001, 0x8001, 0x0100, 0x00FF, 0xFFFF]);
                self.say(&format!("carry {fate} {start} {pattern:04x}"))
            }
            _ => {
                let fate = self.random.below(6);
                self.say(&format!("carry {fate}"))
            }
        }
    }

    /// Lets a sender's frame and its answer find their fates.
    fn exchange(&mut self, sender: usize, n: usize) {
        let result = self.ticks(sender, n);
        let Some(sent) = frame_in(&result) else {
            // Most often MAX_RT stands then.
            if result.starts_with("ok") && self.random.chance(60) {
                self.clear(sender);
            }
            return;
        };
        if self.random.chance(6) {
            self.ticks(sender, 1); // The air holds a frame.
        }
        let mut bits = sent.bits;
        for _ in 0..4 {
            if self.random.chance(5) {
                // While its frame or the answer is on the air.
                let level = self.random.below(2);
                match self.random.below(4) {
                    0 => self.command(sender, &[0xE1]),
                    1 => self.command(0, &[0x61]),
                    _ => self.say(&format!("ce {sender} {level}")),
                };
            }
            let result = self.fate(bits);
            match frame_in(&result) {
                Some(answer) => bits = answer.bits,
                None if result.starts_with("ok") => break,
                None => {}
            }
        }
        if self.random.chance(10) {
            self.command(sender, &[0x08]);
        }
    }

    fn cell_action(&mut self, plans: &[Plan], sender: usize, length: usize) {
        let plan = &plans[sender];
        match self.random.weighted(&[40, 14, self.reading, 14, 5, 2, 4, 4, 2, 2, 1, 3]) {
            // A payload and its exchange.
            0 => {
                if self.random.chance(75) {
                    let length =
                        if self.random.chance(93) { length } else { self.random.below(35) };
                    if self.write_payload(sender, length).1.contains(" 10")
                        && self.random.chance(50)
                    {
                        match self.random.below(4) {
                            0 => self.command(sender, &[0xE1]),
                            1 => self.say(&format!("ce {sender} 1")),
                            _ => self.command(sender, &[0x27, 0x70]),
                        };
                    }
                }
                let n = if self.random.chance(60) {
                    plan.wait().max(14)
                } else {
                    self.tick_count(plan)
                };
                self.exchange(sender, n);
            }
            // Whatever is under way goes on.
            1 => self.exchange(sender, plan.wait()),
            // The receiver's host reads.
            2 => {
                for _ in 0..self.random.between(1, 4) {
                    if self.command(0, &[0x61]).contains("refused") {
                        break;
                    }
                }
            }
            3 => {
                let unit = if self.random.chance(40) { 0 } else { sender };
                self.unit_action(unit, &plans[unit], length);
            }
            // Losses up to MAX_RT, which is cleared then.
            4 => {
                if self.random.chance(70) {
                    self.write_payload(sender, length);
                }
                for _ in 0..plan.arc() + 2 {
                    if frame_in(&self.ticks(sender, plan.wait().max(14))).is_none() {
                        break;
                    }
                    if self.random.chance(85) {
                        self.say("carry 0");
                    } else {
                        self.say("carry 1");
                        self.say("carry 0");
                    }
                }
                self.look(sender);
                if self.random.chance(50) {
                    self.ticks(sender, 20);
                }
                if self.random.chance(85) {
                    self.clear(sender);
                }
            }
            // The same identity and check again, after four writes: a repeat that is none.
            5 => {
                let (payload, _) = self.write_payload(sender, length);
                self.ticks(sender, plan.wait().max(14));
                self.say("carry 1");
                self.say("carry 0");
                self.command(sender, &[0xE1]);
                for _ in 0..3 {
                    self.write_payload(sender, length);
                    if self.random.chance(90) {
                        self.command(sender, &[0xE1]);
                    }
                }
                let mut host = vec![0xA0];
                host.extend(&payload);
                self.command(sender, &host);
                self.ticks(sender, plan.wait().max(14));
                self.say("carry 1");
                self.say("carry 1");
            }
            // More than the TX queue holds.
            6 => {
                for _ in 0..self.random.between(2, 4) {
                    self.write_payload(sender, length);
                }
            }
            7 => {
                let unit = self.random.one(&[plans.len(), 7, 8, 255, 0]);
                match self.random.below(4) {
                    0 => self.say(&format!("tick {unit} 3")),
                    1 => self.say(&format!("ce {unit} 1")),
                    2 => self.say(&format!("irq {unit}")),
                    _ => self.command(unit, &[0xFF]),
                };
            }
            8 => {
                // As a rule the air is empty.
                self.fate(73);
            }
            9 => self.frame_line(),
            // Power goes while there is something to keep.
            11 => {
                self.write_payload(sender, length);
                match self.random.below(3) {
                    0 => self.power_cycle(sender, plan),
                    1 => {
                        // Taken, the answer lost, the receiver off and on, and heard again.
                        self.ticks(sender, plan.wait().max(14));
                        self.say("carry 1");
                        self.say("carry 0");
                        self.power_cycle(0, &plans[0]);
                        self.exchange(sender, plan.wait());
                    }
                    _ => {
                        self.exchange(sender, plan.wait().max(14));
                        self.power_cycle(sender, plan);
                        self.power_cycle(0, &plans[0]);
                        self.command(0, &[0x61]);
                    }
                }
            }
            // So many losses that PLOS_CNT stays at 15, or long waits.
            _ => {
                if plan.arc() > 1 {
                    let n = self.random.between(1000, 65535);
                    self.ticks(sender, n);
                    self.ticks(0, n);
                    return;
                }
                self.write_payload(sender, length);
                for _ in 0..self.random.between(8, 24) {
                    self.command(sender, &[0x27, 0x70]);
                    for _ in 0..=plan.arc() {
                        self.ticks(sender, 400);
                        self.say("carry 0");
                    }
                    self.ticks(sender, plan.wait());
                }
                self.command(sender, &[0x08]);
            }
        }
    }

    // ------------------------------------------------------------------------------------- misuse

    /// A line that is wrong, or right at the wrong time, or none.
    fn wrong_line(&mut self) {
        let label = self.random.below(10);
        let line = match self.random.below(30) {
            0 => String::new(),
            1 => "# a line for people".into(),
            2 => " \t".into(),
            3 => format!("kind {}", self.random.one(&["crc32", "", "CRC8", "16", "crc8 crc8"])),
            4 => format!(
                "{} {label}",
                self.random.one(&[
                    "Bench",
                    "boxed",
                    "units",
                    "1:",
                    "tock",
                    "\u{e9}t\u{e9}",
                    "pack!",
                    "-"
                ])
            ),
            5 => format!("load {label}"),
            6 => format!("check {label}"),
            7 => format!("box {label} {}", self.random.one(&["", "", "0"])),
            8 => format!("make {}", self.random.one(&["0", "now", "crc8"])),
            9 => format!(
                "tick {label} {}",
                self.random.one(&[
                    "0",
                    "65536",
                    "-1",
                    "+2",
                    "1.5",
                    "0x10",
                    "F",
                    "99999999999999999999",
                    "1 1"
                ])
            ),
            10 => format!("ce {label} {}", self.random.one(&["2", "high", "", "-0", "1 1", "1O"])),
            11 => format!("irq {label} {}", self.random.one(&["", "0", "irq"])),
            12 => format!(
                "command {label} {}",
                self.random.one(&[
                    "F", "FFF", "0xFF", "GG", "FF /5", "/ FF", "/256 FF", "/-1 FF", "/5/5 FF",
                    "/5x FF", "F F", "\u{e9}", "+F", "-1"
                ])
            ),
            13 => format!("command {label}"),
            14 => format!(
                "carry {}",
                self.random.one(&[
                    "",
                    "256",
                    "-1",
                    "1 0",
                    "3 0 800",
                    "3 0 80000",
                    "3 65536 8000",
                    "3 0 8000 0",
                    "3 0 GGGG",
                    "x"
                ])
            ),
            15 => format!(
                "hear {label} {}",
                self.random.one(&[
                    "",
                    "0",
                    "65536",
                    "9 FF",
                    "8 FF",
                    "65535 00 11",
                    "-1 00",
                    "8 F",
                    "8 FF FFF"
                ])
            ),
            16 => format!(
                "read {}",
                self.random.one(&[
                    "",
                    "2 0",
                    "6 0",
                    "3",
                    "3 1",
                    "3 65535 00",
                    "3 65536",
                    "4 8 5",
                    "5 8 55 AA",
                    "3 0",
                    "3 49 55 00 00 00 00 00"
                ])
            ),
            17 => format!(
                "pack {}",
                self.random.one(&[
                    "",
                    "E7E7 0 0",
                    "E7E7E 0 0",
                    "E7E7E7E7E7E7 0 0",
                    "E7E7E7 4 0",
                    "E7E7E7 0 2",
                    "E7E7E7 0",
                    "G7E7E7 0 0",
                    "E7E7E7 0 0 1",
                    "E7 E7 E7 0 0"
                ])
            ),
            18 => format!("pack 010203 1 0{}", " 5A".repeat(self.random.between(30, 35))),
            19 => format!(
                "field {}",
                self.random.one(&[
                    "",
                    "5",
                    "005",
                    "05",
                    "05 00 00 00",
                    "05 00 00 00 30 2F 4C",
                    "05 00 00 00 30 2F 4",
                    "GG 00 00 00 00"
                ])
            ),
            20 => format!("bench {}", self.random.one(&["8", "-1", "", "0 0", "A", "255", "256"])),
            21 => format!("hear {label}{}", {
                let length = self.random.below(50);
                let bytes = self.random.bytes(length);
                format!(" {}{}", 8 * length, self.hex(&bytes))
            }),
            22 => {
                // All at once away, seldom.
                if self.random.chance(15) {
                    format!("kind {}", self.random.one(&["crc8", "crc16"]))
                } else {
                    "carry 1".into()
                }
            }
            23 => format!("load {label} 00 00 00 30 2F 4C"),
            24 => format!("tick {label}"),
            25 => format!("ce {label} {}", self.random.below(2)),
            26 => {
                let host = self.odd_command();
                format!("command {label} /{}{}", self.random.below(40), self.hex(&host))
            }
            27 if self.random.chance(20) => format!("bench {label}"),
            28 if self.random.chance(30) => "make".into(),
            29 if self.unclear => self
                .random
                .one(&[
                    "bench 07",
                    "bench 0000000000000000000000005",
                    "command 1 /033 FF",
                    "tick 0 0001",
                    "ce 1 01",
                    "irq 0#1",
                    "command 0 FF#",
                    "ce 0 1#",
                    "carry 01",
                    "pack E7E7E7 03 00",
                    "read 03 0",
                    "bench 6\u{b}",
                    "irq 0\u{c}",
                    "\u{feff}irq 0",
                    "tick 1 00",
                ])
                .into(),
            _ => {
                let host = self.odd_command();
                format!("command {label}{}", self.hex(&host))
            }
        };
        self.say(&line);
    }
}
