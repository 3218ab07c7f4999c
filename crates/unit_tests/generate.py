#!/usr/bin/env python3
"""Writes src/table.rt: calls on boxed units, each with what it must answer.

The answers come from the small model below, written from the pages in docs/ and not from the engine. Checks are
remainders of a long division of polynomials over GF(2). The cases further down also say themselves what they expect
at the telling points, so that a slip in the model shows here. Usage: python3 generate.py > src/table.rt
"""

# --- checks and frames ---

KINDS = {8: (0x107, 0xFF), 16: (0x11021, 0xFFFF)}


def remainder(a, g):
    while a.bit_length() >= g.bit_length():
        a ^= g << (a.bit_length() - g.bit_length())
    return a


def check(bits, w):
    g, start = KINDS[w]
    m = int(bits, 2) if bits else 0
    return remainder(m << w ^ start << len(bits), g)


def bits_of(data):
    return ''.join(format(b, '08b') for b in data)


def bytes_of(bits):
    padded = bits + '0' * (-len(bits) % 8)
    return bytes(int(padded[i:i + 8], 2) for i in range(0, len(padded), 8))


def frame(w, address, pid, no_ack, payload, length=None):
    """The bits of a frame; the address comes low byte first. `length` overrides the length field."""
    length = len(payload) if length is None else length
    covered = bits_of(reversed(address)) + format(length, '06b') + format(pid, '02b') + format(no_ack, '01b') + bits_of(payload)
    preamble = '10101010' if covered[0] == '1' else '01010101'
    return preamble + covered + format(check(covered, w), '0%db' % w)


def read(w, width, bits):
    """(address, pid, no_ack, payload, check) of a sound frame, else None."""
    head = 8 + 8 * width
    if len(bits) < head + 9 + w:
        return None
    length = int(bits[head:head + 6], 2)
    if length > 32 or len(bits) != head + 9 + 8 * length + w:
        return None
    covered, seal = bits[8:-w], int(bits[-w:], 2)
    if check(covered, w) != seal:
        return None
    address = bytes(reversed(bytes_of(bits[8:head])))
    return address, int(bits[head + 6:head + 8], 2), int(bits[head + 8]), bytes_of(bits[head + 9:-w]), seal


# --- the unit ---

RESET = {address: bytes.fromhex(value) for address, value in {
    0x00: '08', 0x01: '3F', 0x02: '03', 0x03: '03', 0x04: '03', 0x05: '02', 0x06: '0E', 0x07: '0E', 0x08: '00',
    0x09: '00', 0x0A: 'E7E7E7E7E7', 0x0B: 'C2C2C2C2C2', 0x0C: 'C3', 0x0D: 'C4', 0x0E: 'C5', 0x0F: 'C6',
    0x10: 'E7E7E7E7E7', 0x11: '00', 0x12: '00', 0x13: '00', 0x14: '00', 0x15: '00', 0x16: '00', 0x17: '11'}.items()}
RX_DR, TX_DS, MAX_RT = 0x40, 0x20, 0x10


class Refused(Exception):
    pass


class Unit:
    def __init__(self, w, settings):
        self.w = w
        self.regs = dict(RESET)
        self.regs.update(settings)
        self.ce, self.mode, self.left = False, 'Shutdown', 0
        self.flags = self.retries = self.lost = self.identity = 0
        self.tx, self.rx, self.memories = [], [], {}
        self.fault = self.find_fault()

    def reg(self, a):
        return self.regs[a][0]

    @property
    def receiver(self):
        return bool(self.reg(0) & 1)

    @property
    def width(self):
        return self.reg(3) + 2

    def enabled(self, pipe):
        return bool(self.reg(2) >> pipe & 1)

    def address(self, pipe):
        whole = self.regs[0x0A + pipe] if pipe < 2 else self.regs[0x0A + pipe] + self.regs[0x0B][1:]
        return whole[:self.width]

    def find_fault(self):
        config = self.reg(0)
        if not config & 8 or config & 2 or bool(config & 4) != (self.w == 16):
            return 0x00
        pipes = [p for p in range(6) if self.enabled(p)]
        acknowledged = pipes if self.receiver else [p for p in pipes if p == 0]
        if any(not self.reg(1) >> p & 1 for p in acknowledged):
            return 0x01
        if not acknowledged:
            return 0x02
        if self.receiver:
            for p in pipes:
                if any(self.address(p) == self.address(q) for q in pipes if q < p):
                    return 0x0A + p
            for p in pipes:
                if self.reg(0x11 + p) == 0:
                    return 0x11 + p
        elif self.regs[0x10][:self.width] != self.address(0):
            return 0x10
        return None

    def stop_at_fault(self):
        if self.fault is not None:
            raise Refused(12, self.fault)

    # what the registers read

    def status(self):
        pipe = self.rx[0][0] if self.rx else 7
        return self.flags | pipe << 1 | (len(self.tx) == 3)

    def value(self, a):
        if a == 0x07:
            return bytes([self.status()])
        if a == 0x08:
            return bytes([self.lost << 4 | self.retries])
        if a == 0x17:
            return bytes([(len(self.tx) == 3) << 5 | (not self.tx) << 4 | (len(self.rx) == 3) << 1 | (not self.rx)])
        return self.regs[a]

    def irq(self):
        return bool(self.flags & ~self.reg(0) & 0x70)

    # commands

    def command(self, data, room):
        self.stop_at_fault()
        if not data:
            raise Refused(1)
        first, rest = data[0], data[1:]
        if not (first <= 0x17 or 0x20 <= first <= 0x37 or first in (0xA0, 0x61, 0xE1, 0xE2, 0xFF)):
            raise Refused(2)
        if first in ((0xA0, 0xE1) if self.receiver else (0x61, 0xE2)):
            raise Refused(3)
        register = first - 0x20 if 0x20 <= first <= 0x37 else None
        wanted = range(1, 33) if first == 0xA0 else [len(self.regs[register])] if register is not None else [0]
        if len(rest) not in wanted:
            raise Refused(4)
        if first == 0x61 and not self.rx:
            raise Refused(5)
        reply = bytes([self.status()])
        if first <= 0x17:
            reply += self.value(first)
        elif first == 0x61:
            reply += self.rx[0][1]
        if room < len(reply):
            raise Refused(6)
        if register is not None:
            self.write(register, rest)
        elif first == 0xA0:
            if len(self.tx) == 3:
                raise Refused(10)
            self.identity = (self.identity + 1) % 4
            self.tx.append((self.identity, rest))
        elif first == 0x61:
            self.rx.pop(0)
        elif first == 0xE1:
            self.tx = []
            if self.mode in ('Tuning', 'Waiting'):
                self.rest()
        elif first == 0xE2:
            self.rx = []
        return reply

    def write(self, register, data):
        if register not in (0x00, 0x07) or register == 0 and (data[0] ^ self.reg(0)) & 0x8D:
            raise Refused(7)
        if register == 0 and self.mode in ('Tuning', 'Waiting', 'RX'):
            raise Refused(8)
        if register == 7:
            if data[0] & 0x8F:
                raise Refused(9, 7)
            self.flags &= ~data[0]
            return
        self.regs[0] = data
        if not data[0] & 2:
            self.enter('Shutdown')
        elif self.mode == 'Shutdown':
            self.enter('Starting', 200)

    # modes

    def enter(self, mode, left=0):
        self.mode, self.left = mode, left

    def rest(self):
        """Where the unit is, by CE, when it has nothing under way."""
        if not self.ce:
            self.enter('Standby')
        elif self.receiver:
            self.enter('Tuning', 13)
        else:
            self.enter('Idle-TX')

    def set_ce(self, high):
        self.stop_at_fault()
        changed, self.ce = high != self.ce, high
        if changed and (high and self.mode == 'Standby' or not high and (
                self.mode == 'Idle-TX' or self.receiver and self.mode in ('Tuning', 'RX'))):
            self.rest()

    def sent(self):
        self.enter('Waiting', 25 * ((self.reg(4) >> 4) + 1))
        identity, payload = self.tx[0]
        return frame(self.w, self.regs[0x10][:self.width], identity, 0, payload)

    def tick(self, room):
        self.stop_at_fault()
        if room < 42:
            raise Refused(18)
        if self.mode == 'Idle-TX' and self.tx and not self.flags & MAX_RT:
            self.retries = 0
            self.enter('Tuning', 13)
            return ''
        if not self.left:
            return ''
        self.left -= 1
        if self.left:
            return ''
        if self.mode == 'Starting':
            self.rest()
        elif self.mode == 'Tuning':
            if not self.receiver:
                return self.sent()
            self.enter('RX')
        elif self.retries < self.reg(4) & 15:
            self.retries += 1
            return self.sent()
        else:
            self.flags |= MAX_RT
            self.lost = min(self.lost + 1, 15)
            self.rest()
        return ''

    # hearing

    def hear(self, count, data, room):
        self.stop_at_fault()
        if room < 42 or count > 8 * len(data):
            raise Refused(18)
        heard = read(self.w, self.width, bits_of(data)[:count])
        if heard is None or self.mode != ('RX' if self.receiver else 'Waiting'):
            return ''
        if self.receiver:
            return self.take(*heard)
        if heard[0] == self.address(0) and heard[3] == b'':
            self.tx.pop(0)
            self.flags |= TX_DS
            if self.ce and self.tx:
                self.retries = 0
                self.enter('Tuning', 13)
            else:
                self.rest()
        return ''

    def take(self, address, pid, no_ack, payload, seal):
        pipes = [p for p in range(6) if self.enabled(p) and self.address(p) == address]
        if not pipes or len(payload) != self.reg(0x11 + pipes[0]):
            return ''
        pipe = pipes[0]
        if self.memories.get(pipe) != (pid, seal):
            if len(self.rx) == 3:
                return ''
            self.rx.append((pipe, payload))
            self.flags |= RX_DR
            self.memories[pipe] = (pid, seal)
        return '' if no_ack else frame(self.w, address, pid, 0, b'')


# --- cases ---

class Kind:
    """A kind of check with an address width; the addresses in use, low byte first."""

    def __init__(self, w, width, home, base, long):
        self.w, self.width, self.home, self.base = w, width, bytes.fromhex(home), bytes.fromhex(base)
        self.long = long
        self.config = 0x0C if w == 16 else 0x08

    def frame(self, pid, payload, no_ack=0, address=None, length=None):
        return frame(self.w, self.home if address is None else address, pid, no_ack, payload, length)


class Case:
    """One boxed unit and the calls on it. The arguments named `reply`, `sends` and so on are what the case expects."""

    def __init__(self, steps, about, kind, settings):
        self.kind, self.steps = kind, steps
        settings = {a: bytes.fromhex(v) if isinstance(v, str) else bytes([v]) for a, v in settings.items()}
        named = sum(1 << a for a in settings)
        steps.append((None, about))
        profile = named.to_bytes(4, 'big') + b''.join(settings[a] for a in sorted(settings))
        steps.append(('Load', [profile]))
        self.unit = Unit(kind.w, settings)

    def step(self, call, values, answer, wanted, refusal):
        """Runs the model and holds it to what the case expects."""
        try:
            got, refused = answer(), None
        except Refused as r:
            got, refused = None, r.args
        assert refused == refusal, (call, values, 'refused', refused, 'expected', refusal)
        assert refusal or got == wanted, (call, values, 'got', got, 'expected', wanted)
        front = bytes_of(got) if isinstance(got, str) else got or b''
        self.steps.append((call, values + [refusal if refusal else [len(got or ''), front]]))

    def command(self, data, reply=None, no=None, room=48):
        data = bytes.fromhex(data) if isinstance(data, str) else data
        reply = reply if reply is None or isinstance(reply, bytes) else bytes.fromhex(reply)
        self.step('Command', [data, room], lambda: self.unit.command(data, room), reply, no)

    def ce(self, high, no=None):
        self.step('Ce', [high], lambda: self.unit.set_ce(high), None, no)

    def quiet(self, n):
        """n ticks that send nothing"""
        for _ in range(n):
            assert self.unit.tick(42) == ''
        self.steps.append(('Ticks', [n]))

    def sends(self, pid, payload):
        """a tick that sends this"""
        wanted = self.kind.frame(pid, bytes.fromhex(payload))
        self.step('Tick', [48], lambda: self.unit.tick(48), wanted, None)

    def no_tick(self, room, no):
        self.step('Tick', [room], lambda: self.unit.tick(room), None, no)

    def hear(self, bits, answer='', no=None, room=42, data=None, count=None):
        data = bytes_of(bits) if data is None else data
        count = len(bits) if count is None else count
        self.step('Hear', [count, data, room], lambda: self.unit.hear(count, data, room), answer, no)

    def irq(self, low):
        assert self.unit.irq() == low
        self.steps.append(('Irq', [low]))

    # common stretches

    def config(self, bits, no=None):
        """writes CONFIG with these of the bits 70 and 02, the others as they stand"""
        reply = None if no else bytes([self.unit.status()])
        self.command(bytes([0x20, self.unit.reg(0) & 0x0D | bits]), reply, no)

    def status(self, value):
        self.command('FF', bytes([value]))

    def reads(self, register, value):
        self.command(bytes([register]), bytes([self.unit.status()]) + bytes.fromhex(value))

    def busy(self):
        """in Tuning, Waiting or RX"""
        self.config(2, no=(8,))

    def free(self):
        self.config(2)

    def power(self):
        self.config(2)
        self.quiet(200)

    def put(self, payload):
        self.command('A0' + payload, bytes([self.unit.status()]))

    def start(self, pid, payload):
        """from Idle-TX to the first sending"""
        self.quiet(13)
        self.sends(pid, payload)

    def ack(self, pid=0, no_ack=0):
        self.hear(self.kind.frame(pid, b'', no_ack))

    def flags_cleared(self, bits):
        self.command('27%02X' % bits, bytes([self.unit.status()]))


class Table:
    def __init__(self, kind):
        self.kind, self.steps = kind, []

    def sender(self, about, retr=0x01, **more):
        k = self.kind
        spare = 5 - k.width
        settings = {0x00: k.config, 0x03: k.width - 2, 0x04: retr, 0x0A: (k.home + b'\x11' * spare).hex(),
                    0x10: (k.home + b'\x22' * spare).hex()}
        settings.update({int(a[1:], 16): v for a, v in more.items()})
        return Case(self.steps, about, k, settings)

    def running_sender(self, about, retr=0x01):
        c = self.sender(about, retr)
        c.power()
        c.ce(True)
        return c

    def receiver(self, about, **more):
        k = self.kind
        spare = 5 - k.width
        settings = {0x00: k.config | 1, 0x02: 0x0B, 0x03: k.width - 2, 0x0A: (k.home + b'\x11' * spare).hex(),
                    0x0B: (k.base + b'\x33' * spare).hex(), 0x0D: 0x5A, 0x11: 2, 0x12: k.long, 0x13: 2, 0x14: 3}
        settings.update({int(a[1:], 16): v for a, v in more.items()})
        return Case(self.steps, about, k, settings)

    def running_receiver(self, about, **more):
        c = self.receiver(about, **more)
        c.power()
        c.ce(True)
        c.quiet(13)
        return c


def starting(t):
    c = t.sender('A sender that starts with CE high and a payload: 200 ticks, the tick in Idle-TX, 13 ticks.')
    c.status(0x0E)
    c.put('A1')
    c.ce(True)
    c.quiet(20)
    c.config(2)
    c.quiet(213)
    c.sends(1, 'A1')
    c = t.receiver('A receiver at the 199th and the 200th tick of Starting with CE high.')
    c.ce(True)
    c.config(2)
    c.quiet(199)
    c.free()
    c.quiet(1)
    c.busy()
    c.quiet(12)
    c.hear(t.kind.frame(1, b'\x01\x02'))
    c.quiet(1)
    c.hear(t.kind.frame(1, b'\x01\x02'), t.kind.frame(1, b''))
    c = t.receiver('A receiver that starts with CE low: in Standby after 200 ticks, not after 199.')
    c.config(2)
    c.quiet(199)
    c.ce(True)
    c.free()
    c.ce(False)
    c.quiet(1)
    c.free()
    c.ce(True)
    c.busy()


def waiting(t):
    c = t.running_sender('Tuning of 13 ticks, Waiting of 25, one retransmit, then MAX_RT.', 0x01)
    c.quiet(5)
    c.put('B0B1')
    c.quiet(1)
    c.busy()
    c.quiet(12)
    c.ack()
    c.sends(1, 'B0B1')
    c.busy()
    c.reads(0x08, '00')
    c.quiet(24)
    c.sends(1, 'B0B1')
    c.reads(0x08, '01')
    c.quiet(24)
    c.busy()
    c.status(0x0E)
    c.irq(False)
    c.quiet(1)
    c.status(0x1E)
    c.irq(True)
    c.free()
    c.reads(0x08, '11')
    c.reads(0x17, '01')
    c = t.running_sender('Waiting of 100 ticks (ARD 3) and two retransmits.', 0x32)
    c.put('C0')
    c.start(1, 'C0')
    for _ in range(2):
        c.quiet(99)
        c.sends(1, 'C0')
    c.reads(0x08, '02')
    c.quiet(99)
    c.status(0x0E)
    c.quiet(1)
    c.status(0x1E)
    c.reads(0x08, '12')
    c = t.running_sender('No retransmits (ARC 0): MAX_RT at the end of the first wait.', 0x00)
    c.put('C1')
    c.start(1, 'C1')
    c.quiet(24)
    c.status(0x0E)
    c.busy()
    c.quiet(1)
    c.status(0x1E)
    c.free()
    c.reads(0x08, '10')


def most_retransmits(t):
    c = t.running_sender('Fifteen retransmits (ARC 15).', 0x0F)
    c.put('C2')
    c.start(1, 'C2')
    for _ in range(15):
        c.quiet(24)
        c.sends(1, 'C2')
    c.reads(0x08, '0F')
    c.quiet(24)
    c.status(0x0E)
    c.quiet(1)
    c.status(0x1E)
    c.reads(0x08, '1F')


def longest_wait(t):
    c = t.running_sender('The longest wait: 400 ticks (ARD 15).', 0xF1)
    c.put('C3')
    c.start(1, 'C3')
    c.quiet(399)
    c.sends(1, 'C3')
    c.quiet(399)
    c.status(0x0E)
    c.quiet(1)
    c.status(0x1E)


def lost(t):
    c = t.running_sender('PLOS_CNT counts to 15 and stays there.', 0x00)
    c.put('D0')
    for n in range(1, 18):
        c.start(1, 'D0')
        c.quiet(25)
        c.reads(0x08, '%X0' % min(n, 15))
        c.flags_cleared(0x10)


def max_rt(t):
    c = t.running_sender('MAX_RT keeps the payload and blocks until STATUS is written.', 0x00)
    c.put('D1')
    c.start(1, 'D1')
    c.quiet(25)
    c.put('D2')
    c.quiet(60)
    c.free()
    c.ce(False)
    c.ce(True)
    c.quiet(30)
    c.flags_cleared(0x60)
    c.quiet(30)
    c.flags_cleared(0x10)
    c.irq(False)
    c.start(1, 'D1')
    c.ack()
    c.status(0x2E)
    c.quiet(12)
    c.sends(2, 'D2')
    c = t.running_sender('FLUSH_TX leaves MAX_RT; the next payload waits for it.', 0x00)
    c.put('D3')
    c.start(1, 'D3')
    c.quiet(25)
    c.command('E1', '1E')
    c.status(0x1E)
    c.reads(0x08, '10')
    c.put('D4')
    c.quiet(30)
    c.flags_cleared(0x10)
    c.start(2, 'D4')


def ce_of_sender(t):
    c = t.sender('CE low in Shutdown and Starting: Standby at the end.')
    c.put('E0')
    c.ce(True)
    c.ce(False)
    c.config(2)
    c.ce(True)
    c.quiet(100)
    c.ce(False)
    c.quiet(150)
    c.free()
    c.ce(False)
    c.quiet(40)
    c.ce(True)
    c.quiet(13)
    c.sends(1, 'E0')
    c = t.sender('CE low and high again in Starting: still 200 ticks.')
    c.put('E3')
    c.config(2)
    c.ce(True)
    c.quiet(100)
    c.ce(False)
    c.quiet(50)
    c.ce(True)
    c.quiet(50)
    c.start(1, 'E3')
    c = t.running_sender('CE low in Idle-TX, then a payload: nothing is sent until CE is high.')
    c.ce(True)
    c.ce(False)
    c.put('E1')
    c.quiet(40)
    c.ce(True)
    c.quiet(13)
    c.sends(1, 'E1')
    c = t.running_sender('CE low in Tuning and in Waiting: the transaction goes on, and ends in Standby.')
    c.put('E2')
    c.quiet(7)
    c.ce(False)
    c.ce(True)
    c.busy()
    c.ce(False)
    c.busy()
    c.quiet(6)
    c.sends(1, 'E2')
    c.ce(True)
    c.quiet(10)
    c.ce(False)
    c.busy()
    c.quiet(14)
    c.sends(1, 'E2')
    c.quiet(25)
    c.status(0x1E)
    c.free()
    c.flags_cleared(0x10)
    c.quiet(40)
    c.ce(True)
    c.quiet(13)
    c.sends(1, 'E2')
    c.ce(False)
    c.ce(True)
    c.quiet(24)
    c.sends(1, 'E2')


def ce_of_receiver(t):
    sound, ack = t.kind.frame(2, b'\x71\x72'), t.kind.frame(2, b'')
    c = t.receiver('CE low in Tuning and RX of a receiver; the countdown starts anew.')
    c.power()
    c.hear(sound)
    c.ce(True)
    c.quiet(6)
    c.ce(True)
    c.quiet(6)
    c.ce(False)
    c.free()
    c.quiet(5)
    c.hear(sound)
    c.ce(True)
    c.quiet(12)
    c.hear(sound)
    c.quiet(1)
    c.ce(True)
    c.hear(sound, ack)
    c.quiet(100)
    c.busy()
    c.hear(sound, ack)
    c.ce(False)
    c.hear(sound)
    c.free()
    c.quiet(30)
    c.hear(sound)
    c.command('61', '407172')
    c.command('61', no=(5,))


def flush_tx(t):
    c = t.running_sender('FLUSH_TX in Tuning with CE high.')
    c.put('F0')
    c.quiet(13)
    c.busy()
    c.command('E1', '0E')
    c.free()
    c.reads(0x17, '11')
    c.quiet(40)
    c.put('F1')
    c.start(2, 'F1')
    c.quiet(24)
    c.sends(2, 'F1')
    c.put('F2')
    c.command('E1', '0E')
    c.free()
    c.reads(0x08, '01')
    c.ack(2)
    c.status(0x0E)
    c.irq(False)
    c.quiet(60)
    c.put('F3')
    c.reads(0x08, '01')
    c.quiet(1)
    c.reads(0x08, '00')
    c.quiet(12)
    c.sends(0, 'F3')
    c = t.running_sender('FLUSH_TX in Tuning and Waiting with CE low, and with nothing under way.')
    c.put('F4')
    c.quiet(5)
    c.ce(False)
    c.command('E1', '0E')
    c.free()
    c.put('F5')
    c.quiet(40)
    c.command('E1', '0E')
    c.ce(True)
    c.quiet(40)
    c.command('E1', '0E')
    c.put('F6')
    c.start(3, 'F6')
    c.ce(False)
    c.command('E1', '0E')
    c.free()
    c.ack(3)
    c.status(0x0E)
    c.put('F7')
    c.quiet(40)
    c = t.sender('FLUSH_TX in Shutdown and Starting leaves the mode.')
    c.put('F8')
    c.ce(True)
    c.command('E1', '0E')
    c.put('F9')
    c.quiet(40)
    c.config(2)
    c.quiet(100)
    c.command('E1', '0E')
    c.put('FA')
    c.quiet(100)
    c.start(3, 'FA')


def acknowledged(t):
    k = t.kind
    c = t.running_sender('Acknowledged with a payload left and CE high: Tuning at once, ARC_CNT 0.')
    c.put('10')
    c.start(1, '10')
    c.put('11')
    c.quiet(24)
    c.sends(1, '10')
    c.reads(0x08, '01')
    c.ack(1)
    c.status(0x2E)
    c.irq(True)
    c.reads(0x08, '00')
    c.reads(0x17, '01')
    c.busy()
    c.quiet(12)
    c.sends(2, '11')
    c.quiet(24)
    c.ack(0, 1)
    c.reads(0x17, '11')
    c.free()
    c.flags_cleared(0x20)
    c.irq(False)
    c.status(0x0E)
    c.quiet(40)
    c.put('12')
    c.start(3, '12')
    c = t.running_sender('Acknowledged with CE low: Standby, with a payload left and without.')
    c.put('13')
    c.put('14')
    c.start(1, '13')
    c.ce(False)
    c.ack(1)
    c.status(0x2E)
    c.free()
    c.quiet(40)
    c.ce(True)
    c.start(2, '14')
    c.ce(False)
    c.ack(2)
    c.free()
    c.put('15')
    c.quiet(40)
    c = t.running_sender('What a sender in Waiting does not take for the acknowledgement.')
    c.put('16')
    c.ack(1)
    c.start(1, '16')
    c.hear(k.frame(1, b'\x01'))
    c.hear(k.frame(1, b'', address=k.base))
    c.hear(k.frame(1, b'', address=b'\xC2' * k.width))
    c.hear(flipped(k.frame(1, b''), -1))
    c.hear(flipped(k.frame(1, b''), 20))
    c.hear(k.frame(1, b'') + '0')
    c.hear(k.frame(1, b'')[:-1])
    c.hear('')
    c.status(0x0E)
    c.quiet(24)
    c.sends(1, '16')
    c.hear(flipped(k.frame(1, b''), 0))
    c.status(0x2E)
    c.ack(1)
    c.status(0x2E)
    c.quiet(40)


def flipped(bits, at):
    at %= len(bits)
    return bits[:at] + ('1' if bits[at] == '0' else '0') + bits[at + 1:]


def identities(t):
    c = t.running_sender('Packet identities 1, 2, 3, 0, 1; a refused write takes none.')
    c.put('20')
    c.put('21')
    c.put('22')
    c.command('A023', no=(10,))
    c.quiet(1)
    for n in range(5):
        c.quiet(12)
        c.sends((n + 1) % 4, '%02X' % (0x20 + n))
        c.ack((n + 1) % 4)
        if n < 2:
            c.put('%02X' % (0x23 + n))
    c.reads(0x17, '11')


def power(t):
    c = t.sender('PWR_UP in Shutdown, Starting and Standby.')
    c.config(0)
    c.quiet(210)
    c.ce(True)
    c.put('30')
    c.config(2)
    c.quiet(199)
    c.config(0)
    c.quiet(50)
    c.config(2)
    c.config(2)
    c.quiet(100)
    c.config(2)
    c.quiet(99)
    c.ce(False)
    c.quiet(1)
    c.config(2)
    c.config(0)
    c.quiet(50)
    c.ce(True)
    c.quiet(250)
    c.ce(False)
    c.config(2)
    c.quiet(150)
    c.ce(True)
    c.quiet(50)
    c.start(1, '30')
    c = t.running_sender('PWR_UP cleared in Idle-TX: CE, queue, flags and counters stay.', 0x01)
    c.put('31')
    c.start(1, '31')
    c.quiet(24)
    c.sends(1, '31')
    c.quiet(25)
    c.put('32')
    c.config(0)
    c.status(0x1E)
    c.irq(True)
    c.quiet(250)
    c.reads(0x08, '11')
    c.reads(0x17, '01')
    c.flags_cleared(0x10)
    c.config(2)
    c.quiet(200)
    c.start(1, '31')
    c.config(0, no=(8,))
    c.ack(1)
    c.config(0, no=(8,))
    c.quiet(12)
    c.sends(2, '32')
    c.reads(0x08, '10')
    c.ack()
    c.put('33')
    c.start(3, '33')
    c = t.running_receiver('PWR_UP at a receiver: not in Tuning or RX; queue and memories stay over Shutdown.')
    sound, ack = t.kind.frame(3, b'\x33\x34'), t.kind.frame(3, b'')
    c.config(0, no=(8,))
    c.hear(sound, ack)
    c.ce(False)
    c.config(0)
    c.hear(sound)
    c.ce(True)
    c.quiet(20)
    c.status(0x40)
    c.reads(0x17, '10')
    c.config(2)
    c.quiet(200)
    c.config(0, no=(8,))
    c.quiet(13)
    c.hear(sound, ack)
    c.command('61', '403334')
    c.hear(sound, ack)
    c.reads(0x17, '11')
    c.status(0x4E)


def refusals_of_sender(t):
    k = t.kind
    c = t.sender('Refusals of a sender, in their order: the smallest input, then one that meets a later row too.')
    c.command('', no=(1,))
    c.command('', no=(1,), room=0)
    for first in ('18', '1F', '38', '3F', '40', '60', '62', '9F', 'A1', 'E0', 'E3', 'FE'):
        c.command(first, no=(2,))
    c.command('3800', no=(2,), room=0)
    c.command('61', no=(3,))
    c.command('E2', no=(3,))
    c.command('6100', no=(3,), room=0)
    c.command('E200', no=(3,), room=0)
    c.command('0000', no=(4,))
    c.command('FF00', no=(4,))
    c.command('E100', no=(4,))
    c.command('A0', no=(4,))
    c.command(b'\xA0' + bytes(33), no=(4,))
    c.command('20', no=(4,))
    c.command('280000', no=(4,), room=0)
    c.command('30E7E7E7E7', no=(4,))
    c.command('30E7E7E7E7E7E7', no=(4,))
    c.command('27', no=(4,))
    c.command('FF', no=(6,), room=0)
    c.command('FF', '0E', room=1)
    c.command('05', no=(6,), room=1)
    c.command('05', '0E02', room=2)
    c.command('10', no=(6,), room=5)
    c.command('10', b'\x0E' + k.home + b'\x22' * (5 - k.width), room=6)
    c.command('2800', no=(6,), room=0)
    c.command('270F', no=(6,), room=0)
    c.command('E1', no=(6,), room=0)
    c.command('A001', no=(6,), room=0)
    c.reads(0x17, '11')
    for register in range(0x18):
        if register not in (0x00, 0x07):
            c.command(bytes([0x20 + register]) + RESET[register], no=(7,))
    c.command('257E', no=(7,))
    for bit in (0x80, 0x08, 0x04, 0x01):
        c.command(bytes([0x20, k.config ^ bit]), no=(7,))
    for value in (0x80, 0x08, 0x04, 0x02, 0x01, 0x0E, 0x7F):
        c.command(bytes([0x27, value]), no=(9, 7))
    c.command(b'\xA0' + bytes(range(32)), '0E')
    c.put('41')
    c.put('42')
    c.status(0x0F)
    c.reads(0x17, '21')
    c.command('A043', no=(10,))
    c.status(0x0F)
    c.command('A0', no=(4,))
    c.command('A043', no=(6,), room=0)
    c.command('2701', no=(9, 7))
    c.no_tick(41, (18,))
    c.no_tick(0, (18,))
    c.hear('', no=(18,), room=41)
    c.hear('1', no=(18,), data=b'')
    c.hear('', no=(18,), data=b'\xAA', count=9)
    c.hear('', no=(18,), data=b'\xAA', count=9, room=0)
    c.hear('', data=b'\xAA', count=8)
    c.power()
    c.ce(True)
    c.quiet(13)
    c.no_tick(41, (18,))
    sent = bytes(range(32)).hex()
    c.sends(1, sent)
    c.command(bytes([0x20, k.config | 2]), no=(8,))
    c.command(bytes([0x20, k.config | 0x82]), no=(7,))
    c.command('257E', no=(7,))
    c.command('2780', no=(9, 7))
    c.command('A044', no=(10,))
    c.hear(k.frame(1, b''), no=(18,), room=41)
    c.hear(k.frame(1, b''), no=(18,), count=len(k.frame(1, b'')) // 8 * 8 + 9)
    c.quiet(24)
    c.sends(1, sent)
    c.ack()
    c.status(0x2E)


def refusals_of_receiver(t):
    k = t.kind
    c = t.running_receiver('Refusals of a receiver.')
    c.command('', no=(1,))
    c.command('A1', no=(2,))
    c.command('A001', no=(3,))
    c.command('E1', no=(3,))
    c.command('A0', no=(3,), room=0)
    c.command('E100', no=(3,), room=0)
    c.command('6100', no=(4,))
    c.command('E200', no=(4,), room=0)
    c.command('61', no=(5,))
    c.command('61', no=(5,), room=0)
    c.command('E2', no=(6,), room=0)
    c.command('2800', no=(7,))
    c.command('257E', no=(7,))
    c.command(bytes([0x20, k.config | 0x83]), no=(7,))
    c.command(bytes([0x20, k.config]), no=(7,))
    c.command(bytes([0x20, k.config | 3]), no=(8,))
    c.command(bytes([0x20, k.config | 3]), no=(6,), room=0)
    c.command('270E', no=(9, 7))
    c.no_tick(41, (18,))
    sound, ack = k.frame(1, b'\x51\x52'), k.frame(1, b'')
    c.hear(sound, no=(18,), room=41)
    c.hear('', no=(18,), data=bytes_of(sound), count=8 * len(bytes_of(sound)) + 1)
    c.reads(0x17, '11')
    c.hear(sound, ack)
    c.command('61', no=(6,), room=0)
    c.command('61', no=(6,), room=2)
    c.reads(0x17, '10')
    c.command('61', '405152', room=3)
    c.command('61', no=(5,))


def faults(t):
    k = t.kind
    receiver, sender = t.receiver, t.sender
    made = [(sender, {'_00': k.config ^ 4}, 0x00), (sender, {'_00': k.config | 2}, 0x00), (sender, {'_00': k.config & 7}, 0x00),
            (sender, {'_01': 0x3E}, 0x01), (sender, {'_02': 0x3E, '_01': 0x3E}, 0x02), (sender, {'_10': '0000000000'}, 0x10),
            (receiver, {'_00': k.config & 7 | 1}, 0x00), (receiver, {'_01': 0x37}, 0x01), (receiver, {'_02': 0}, 0x02),
            (receiver, {'_0B': (k.home + b'\x44' * (5 - k.width)).hex()}, 0x0B), (receiver, {'_0D': k.base[0], '_14': 0}, 0x0D),
            (receiver, {'_11': 0, '_14': 0}, 0x11), (receiver, {'_14': 0}, 0x14)]
    for make, more, register in made:
        c = make('A fault at register %02X is answered first.' % register, **more)
        c.command('', no=(12, register))
    c.command('FF', no=(12, register))
    c.command('18', no=(12, register), room=0)
    c.command('E1', no=(12, register))
    c.config(2, no=(12, register))
    c.ce(True, no=(12, register))
    c.ce(False, no=(12, register))
    c.no_tick(42, (12, register))
    c.no_tick(0, (12, register))
    c.hear(k.frame(1, b'\x01\x02'), no=(12, register))
    c.hear('', no=(12, register), data=b'', count=1, room=0)
    c.irq(False)


def readout(t):
    for make in (t.sender, t.receiver):
        c = make('Every register of a boxed unit.')
        for register in range(0x18):
            c.reads(register, c.unit.value(register).hex())


def hearing(t):
    k = t.kind
    low3 = bytes([0x5A]) + k.base[1:]
    sound, ack = k.frame(1, b'\x61\x62'), k.frame(1, b'')
    c = t.running_receiver('Frames that a receiver drops.')
    c.hear('')
    c.hear(k.frame(1, b'\x61\x62', address=flip_address(k.home)))
    c.hear(k.frame(1, b'\x61\x62', address=bytes([0xC3]) + k.base[1:]))
    c.hear(k.frame(1, b'\x61'))
    c.hear(k.frame(1, b'\x61\x62\x63'))
    c.hear(k.frame(1, b''))
    c.hear(k.frame(1, b'\x61\x62', address=low3))
    c.hear(k.frame(1, bytes(33)))
    c.hear(k.frame(1, b'\x61\x62', length=3))
    c.hear(k.frame(1, b'\x61\x62', length=1))
    c.hear(flipped(sound, -1))
    c.hear(flipped(sound, 8))
    c.hear(flipped(sound, 30))
    c.hear(sound[:-1])
    c.hear(sound + '0')
    c.hear(frame(24 - k.w, k.home, 1, 0, b'\x61\x62'))
    c.hear(frame(k.w, other_width(k.home), 1, 0, b'\x61\x62'))
    c.status(0x0E)
    c.irq(False)
    c.reads(0x17, '11')
    c = t.running_receiver('Sound frames on pipes 0, 1 and 3; preamble and spare bits are not looked at.')
    c.hear(sound, ack)
    c.status(0x40)
    c.irq(True)
    c.flags_cleared(0x40)
    c.status(0x00)
    c.irq(False)
    c.hear(flipped(sound, 3), ack)
    c.status(0x00)
    long = bytes(range(0xE0, 0xE0 + k.long))
    on1 = k.frame(2, long, address=k.base)
    c.hear('', k.frame(2, b'', address=k.base), data=bytes_of(on1 + '1' * (-len(on1) % 8)) + b'\xFF\x00', count=len(on1))
    c.status(0x40)
    c.hear(k.frame(2, b'\x01\x02\x03', address=low3), k.frame(2, b'', address=low3))
    c.reads(0x17, '12')
    c.command('61', '406162')
    c.command('61', no=(6,), room=k.long)
    c.command('61', b'\x42' + long, room=k.long + 1)
    c.command('61', '46010203')
    c.status(0x4E)
    c.command('61', no=(5,))
    c.flags_cleared(0x40)
    c.hear(k.frame(3, b'\x61\x62', no_ack=1))
    c.status(0x40)
    c.hear(k.frame(3, b'\x61\x62', no_ack=1))
    c.hear(k.frame(3, b'\x61\x62'), k.frame(3, b''))
    c.command('61', '406162')
    c.command('61', '406162')
    c.command('61', no=(5,))
    six = dict(_02=0x3F, _11=1, _12=2, _13=3, _14=4, _15=5, _16=6)
    c = t.running_receiver('Six pipes, each with a length of its own.', **six)
    lows = [None, None, 0xC3, 0x5A, 0xC5, 0xC6]
    for pipe in range(6):
        address = (k.home, k.base)[pipe] if pipe < 2 else bytes([lows[pipe]]) + k.base[1:]
        payload = bytes([0xD0 + pipe] * (pipe + 1))
        c.hear(k.frame(1, payload + b'\x00', address=address))
        c.hear(k.frame(1, payload, address=address), k.frame(1, b'', address=address))
        c.command('61', bytes([0x40 | pipe << 1]) + payload)


def flip_address(address):
    return address[:-1] + bytes([address[-1] ^ 1])


def other_width(address):
    return address + b'\x11' if len(address) < 5 else address[:4]


def repeats(t):
    k = t.kind
    a, b = b'\x81\x82', b'\x83\x84'
    ack = lambda pid: k.frame(pid, b'')
    c = t.running_receiver('Repeats: the same identity and check. Another of either is a new payload.')
    c.hear(k.frame(1, a), ack(1))
    c.hear(k.frame(1, a), ack(1))
    c.reads(0x17, '10')
    c.hear(k.frame(2, a), ack(2))
    c.hear(k.frame(2, b), ack(2))
    c.reads(0x17, '12')
    c.status(0x40)
    c.hear(k.frame(3, a))
    c.hear(k.frame(1, a))
    c.hear(k.frame(2, b), ack(2))
    c.flags_cleared(0x40)
    c.hear(k.frame(2, b), ack(2))
    c.hear(k.frame(3, a))
    c.status(0x00)
    c.command('61', '008182')
    c.reads(0x17, '10')
    c.hear(k.frame(2, b), ack(2))
    c.hear(k.frame(3, a), ack(3))
    c.command('61', '408182')
    c.command('61', '408384')
    c.command('61', '408182')
    c.hear(k.frame(3, a), ack(3))
    c.command('61', no=(5,))
    c = t.running_receiver('The memory holds identity and check: another payload with both is a repeat, with one it is new.')
    low3 = bytes([0x5A]) + k.base[1:]
    ack = lambda pid: k.frame(pid, b'', address=low3)
    first = b'\x85\x86\x87'
    like = k.frame(1, first, address=low3)[-k.w:]
    same, other = twin(k, low3, 1, first, like), twin(k, low3, 2, first, like)
    c.hear(k.frame(1, first, address=low3), ack(1))
    c.hear(k.frame(1, same, address=low3), ack(1))
    c.hear(k.frame(2, other, address=low3), ack(2))
    c.command('61', b'\x46' + first)
    c.command('61', b'\x46' + other)
    c.command('61', no=(5,))


def twin(k, address, pid, payload, like):
    """another payload whose frame has this check"""
    for n in range(1 << 20):
        found = n.to_bytes(len(payload), 'big')
        if found != payload and k.frame(pid, found, address=address)[-k.w:] == like:
            return found


def memories(t):
    k = t.kind
    low3 = bytes([0x5A]) + k.base[1:]
    on0, on3 = k.frame(1, b'\x91\x92'), k.frame(1, b'\x93\x94\x95', address=low3)
    ack0, ack3 = k.frame(1, b''), k.frame(1, b'', address=low3)
    c = t.running_receiver('Each pipe has its own memory, which FLUSH_RX keeps.')
    c.hear(on0, ack0)
    c.hear(on3, ack3)
    c.hear(on0, ack0)
    c.hear(on3, ack3)
    c.reads(0x17, '10')
    c.command('61', '409192')
    c.status(0x46)
    c.hear(on0, ack0)
    c.command('E2', '46')
    c.status(0x4E)
    c.reads(0x17, '11')
    c.hear(on3, ack3)
    c.hear(on0, ack0)
    c.reads(0x17, '11')
    again = k.frame(2, b'\x91\x92')
    c.hear(again, k.frame(2, b''))
    c.hear(on3, ack3)
    c.status(0x40)
    c.command('61', '409192')
    c.command('61', no=(5,))
    c.command('E2', '4E')
    for pid in (3, 0, 1):
        c.hear(k.frame(pid, b'\x96\x97'), k.frame(pid, b''))
    c.reads(0x17, '12')
    c.command('E2', '40')
    c.reads(0x17, '11')


def interrupts(t):
    c = t.running_sender('The IRQ pin of a sender under each mask.', 0x00)
    c.put('70')
    c.start(1, '70')
    c.ack()
    c.ce(False)
    for masks, low in ((0x20, False), (0x50, True), (0x70, False), (0x10, True), (0x40, True)):
        c.config(masks | 2)
        c.irq(low)
    c.ce(True)
    c.put('71')
    c.start(2, '71')
    c.quiet(25)
    c.status(0x3E)
    for masks, low in ((0x20, True), (0x10, True), (0x30, False), (0x70, False), (0x40, True), (0x00, True)):
        c.config(masks | 2)
        c.irq(low)
    c.flags_cleared(0x20)
    for masks, low in ((0x10, False), (0x60, True), (0x20, True)):
        c.config(masks | 2)
        c.irq(low)
    c.reads(0x00, '%02X' % (t.kind.config | 0x22))
    c.flags_cleared(0x10)
    c.irq(False)
    c = t.running_receiver('The IRQ pin of a receiver under each mask.')
    c.hear(t.kind.frame(0, b'\x01\x02'), t.kind.frame(0, b''))
    c.irq(True)
    c.command('61', '400102')
    c.irq(True)
    c.ce(False)
    for masks, low in ((0x40, False), (0x30, True), (0x70, False), (0x10, True), (0x20, True)):
        c.config(masks | 2)
        c.irq(low)
    c.flags_cleared(0x30)
    c.irq(True)
    c.flags_cleared(0x70)
    c.irq(False)


BOTH = (starting, waiting, max_rt, flush_tx, acknowledged, identities, power, refusals_of_sender, refusals_of_receiver,
        faults, readout, hearing, repeats, memories, interrupts, ce_of_sender, ce_of_receiver)
WIDE_ONLY = (lost, most_retransmits, longest_wait)


# --- the table ---

HEAD = """// Made by generate.py beside src/: calls on boxed units and what they must answer.

// What a call must answer.
#[derive(Clone, Copy)]
pub enum Answer {
    // The number that it answers, and what stands at the front of its buffer then.
    Gives(usize, &'static [u8]),
    // The number of the refusal, and the register that it names.
    Refuses(u8, Option<u8>),
}

#[derive(Clone, Copy)]
pub enum Step {
    // Boxes a new bench unit that was loaded with this profile.
    Load(&'static [u8]),
    // Bytes and room of the buffer.
    Command(&'static [u8], usize, Answer),
    // The level of CE.
    Ce(bool, Answer),
    // Room of the buffer.
    Tick(usize, Answer),
    // As many ticks, none of which sends.
    Ticks(usize),
    // A frame's bits and bytes, room of the buffer.
    Hear(usize, &'static [u8], usize, Answer),
    // Whether the IRQ pin is low.
    Irq(bool),
}
"""


def rust(value):
    """A value of Python as Rattle writes it."""
    if isinstance(value, bytes):
        return 'b"' + ''.join('\\x%02X' % b for b in value) + '"'
    if isinstance(value, bool):
        return 'true' if value else 'false'
    if isinstance(value, tuple):
        number, register = (value + (None,))[:2]
        return 'Answer::Refuses(%d, %s)' % (number, 'None' if register is None else 'Some(0x%02X)' % register)
    if isinstance(value, list):
        return 'Answer::Gives(%d, %s)' % (value[0], rust(value[1]))
    return str(value)


def main():
    narrow = Kind(8, 3, '2B1A34', '07C9D1', 1)
    wide = Kind(16, 5, 'E7D35A1C96', 'C2B4A0977E', 32)
    print(HEAD)
    for name, kind, cases in (('NARROW', narrow, BOTH), ('WIDE', wide, BOTH + WIDE_ONLY)):
        print('// %s: checks of %d bits, addresses of %d bytes.' % (name, kind.w, kind.width))
        for case in cases:
            t = Table(kind)
            case(t)
            calls = sum(call is not None for call, _ in t.steps)
            print('pub static %s_%s: [Step; %d] = [' % (case.__name__.upper(), name, calls))
            for call, values in t.steps:
                print('    // %s' % values if call is None else '    Step::%s(%s),' % (call, ', '.join(map(rust, values))))
            print('];\n')


main()
