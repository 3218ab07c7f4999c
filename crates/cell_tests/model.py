"""A model of the console's lines: checks, frames, bench units, boxed units and the cell.

It is written from the pages in docs/ and not from the engine, in another way where there is one: checks are remainders of
a long division of polynomials over GF(2), bit strings are texts of 0 and 1. `Console().line(text)` gives the RESULT that
docs/CONSOLE.md promises for a line, without the explanation in parentheses, or None for a line without a word.
"""


class Refused(Exception):
    """A refusal: its number, and the register behind 9 and 12."""


class Cannot(Exception):
    """A line that cannot be carried out."""


# --- checks and frames (CHECKS.md, FRAMES.md) ---

# the width: polynomial with its top bit, start
KINDS = {8: (0x107, 0xFF), 16: (0x11021, 0xFFFF)}


def remainder(dividend, divisor):
    while dividend.bit_length() >= divisor.bit_length():
        dividend ^= divisor << (dividend.bit_length() - divisor.bit_length())
    return dividend


def check_of(bits, w):
    polynomial, start = KINDS[w]
    return remainder(int('0' + bits, 2) << w ^ start << len(bits), polynomial)


def bits_of(data):
    return ''.join('{:08b}'.format(byte) for byte in data)


def bytes_of(bits):
    """The bytes that the bits fill, spare bits 0."""
    bits += '0' * (-len(bits) % 8)
    return bytes(int(bits[i:i + 8], 2) for i in range(0, len(bits), 8))


def packed(w, address, pid, no_ack, payload, length=None):
    """The bits of a frame; the address comes high byte first. `length` is for frames with a wrong length field."""
    length = len(payload) if length is None else length
    covered = bits_of(address) + '{:06b}{:02b}{:b}'.format(length, pid, no_ack) + bits_of(payload)
    return ('10101010' if covered[0] == '1' else '01010101') + covered + '{:0{}b}'.format(check_of(covered, w), w)


def opened(w, width, bits):
    """(address high byte first, pid, no_ack, payload, check) of a sound frame, else None."""
    control = 8 + 8 * width
    if len(bits) < control + 9:
        return None
    length = int(bits[control:control + 6], 2)
    if length > 32 or len(bits) != control + 9 + 8 * length + w:
        return None
    if check_of(bits[8:-w], w) != int(bits[-w:], 2):
        return None
    return (bytes_of(bits[8:control]), int(bits[control + 6:control + 8], 2), int(bits[control + 8]),
            bytes_of(bits[control + 9:-w]), int(bits[-w:], 2))


def changed(bits, start, pattern):
    """The bits with those of the pattern turned, its top bit on bit `start`."""
    turned = {start + i for i in range(16) if pattern >> (15 - i) & 1}
    return ''.join('10'[int(bit)] if i in turned else bit for i, bit in enumerate(bits))


# --- registers (REGISTERS.md) ---

RESET = [bytes.fromhex(value) for value in (
    '08 3F 03 03 03 02 0E 0E 00 00 E7E7E7E7E7 C2C2C2C2C2 C3 C4 C5 C6 E7E7E7E7E7 00 00 00 00 00 00 11').split()]
CONFIG, EN_AA, EN_RXADDR, SETUP_AW, SETUP_RETR, RF_CH, RF_SETUP, STATUS, OBSERVE_TX = range(9)
RX_ADDR_P0, RX_ADDR_P1, TX_ADDR, RX_PW_P0, FIFO_STATUS = 0x0A, 0x0B, 0x10, 0x11, 0x17
READ_ONLY = (0x08, 0x09, 0x17)
RX_DR, TX_DS, MAX_RT = 0x40, 0x20, 0x10
PWR_UP = 0x02


def allowed(register, value):
    """Whether the register may be written with this first byte."""
    if register == CONFIG:
        return value < 0x80
    if register in (EN_AA, EN_RXADDR):
        return value < 0x40
    if register == SETUP_AW:
        return value in (1, 2, 3)
    if register == RF_CH:
        return value <= 0x7D
    if register == RF_SETUP:
        return not value & 0xD0 and value & 0x28 != 0x28
    if register == STATUS:
        return not value & 0x8F
    if RX_PW_P0 <= register < FIFO_STATUS:
        return value <= 0x20
    return True


class Registers:
    """What the registers hold that stay as they were written."""

    def __init__(self, held=RESET):
        self.held = list(held)

    def byte(self, register):
        return self.held[register][0]

    @property
    def receiver(self):
        return self.byte(CONFIG) & 1 == 1

    @property
    def width(self):
        return self.byte(SETUP_AW) + 2

    @property
    def pipes(self):
        """The enabled pipes."""
        return [pipe for pipe in range(6) if self.byte(EN_RXADDR) >> pipe & 1]

    def in_use(self, whole):
        """The address in use, high byte first."""
        return bytes(reversed(whole[:self.width]))

    def address(self, pipe):
        if pipe < 2:
            return self.in_use(self.held[RX_ADDR_P0 + pipe])
        return self.in_use(self.held[RX_ADDR_P0 + pipe] + self.held[RX_ADDR_P1][1:])

    @property
    def home(self):
        """A sender's address in use."""
        return self.in_use(self.held[TX_ADDR])

    def faults(self, w):
        """The registers with a fault for checks of w bits (BENCH.md)."""
        config = self.byte(CONFIG)
        pipes = self.pipes
        if not config & 8 or config & PWR_UP or (16 if config & 4 else 8) != w:
            yield CONFIG
        if not self.receiver:
            if 0 in pipes and not self.byte(EN_AA) & 1:
                yield EN_AA
            if 0 not in pipes:
                yield EN_RXADDR
            if self.home != self.address(0):
                yield TX_ADDR
            return
        if any(not self.byte(EN_AA) >> pipe & 1 for pipe in pipes):
            yield EN_AA
        if not pipes:
            yield EN_RXADDR
        for pipe in pipes:
            if self.address(pipe) in [self.address(lower) for lower in pipes if lower < pipe]:
                yield RX_ADDR_P0 + pipe
        for pipe in pipes:
            if not self.byte(RX_PW_P0 + pipe):
                yield RX_PW_P0 + pipe

    def fault(self, w):
        return min(self.faults(w), default=None)


# --- profiles (PROFILE.md) ---

WRITABLE = [register for register in range(0x17) if register != STATUS and register not in READ_ONLY]


def fields(profile):
    """Register and field of a profile, in ascending address."""
    if len(profile) < 4:
        raise Refused(11)
    named = [register for register in range(32) if int.from_bytes(profile[:4], 'big') >> register & 1]
    if any(register not in WRITABLE for register in named):
        raise Refused(11)
    found, rest = {}, profile[4:]
    for register in named:
        size = len(RESET[register])
        if len(rest) < size:
            raise Refused(11)
        found[register], rest = rest[:size], rest[size:]
    if rest:
        raise Refused(11)
    return found


# --- units (COMMANDS.md, MODES.md, HEARING.md) ---

READS, WRITES = range(0x00, 0x18), range(0x20, 0x38)
W_TX_PAYLOAD, R_RX_PAYLOAD, FLUSH_TX, FLUSH_RX, NOP = 0xA0, 0x61, 0xE1, 0xE2, 0xFF


class Bench:
    boxed = False

    def __init__(self):
        self.registers = Registers()

    def load(self, profile):
        found = fields(profile)
        for register, field in found.items():
            if not allowed(register, field[0]):
                raise Refused(9, register)
        for register, field in found.items():
            self.registers.held[register] = field

    def command(self, host, room):
        if not host:
            raise Refused(1)
        first, rest = host[0], host[1:]
        if first not in READS and first not in WRITES and first not in (W_TX_PAYLOAD, R_RX_PAYLOAD, FLUSH_TX, FLUSH_RX, NOP):
            raise Refused(2)
        if first in (W_TX_PAYLOAD, R_RX_PAYLOAD, FLUSH_TX, FLUSH_RX):
            raise Refused(3)
        if len(rest) != (len(RESET[first - 0x20]) if first in WRITES else 0):
            raise Refused(4)
        reply = b'\x0E' + (self.registers.held[first] if first in READS else b'')
        if len(reply) > room:
            raise Refused(6)
        if first in WRITES:
            register = first - 0x20
            if register in READ_ONLY:
                raise Refused(7)
            if not allowed(register, rest[0]):
                raise Refused(9, register)
            if register != STATUS:
                self.registers.held[register] = rest
        return reply


class Boxed:
    boxed = True

    def __init__(self, registers, w):
        self.w = w
        self.registers = Registers(registers.held)
        self.fault = registers.fault(w)
        self.ce = False
        self.mode, self.left = 'Shutdown', None
        self.flags = 0
        self.arc_cnt = self.plos_cnt = 0
        self.pid = 0
        self.outgoing, self.received = [], []
        self.memories = [None] * 6
        self.count()

    def count(self):
        """Begins to count for the summary"""
        self.written = self.sent = self.given_up = self.flushed = 0
        self.read_on = [0] * 6

    def fits(self):
        """Whether the unit is in a state that boxing without a fault gives (CELL.md)."""
        return (self.fault is None and not self.registers.byte(CONFIG) & PWR_UP and not self.ce and self.mode == 'Shutdown'
                and not self.flags and not self.arc_cnt and not self.plos_cnt and not self.pid
                and not self.outgoing and not self.received and self.memories == [None] * 6)

    def answers(self):
        if self.fault is not None:
            raise Refused(12, self.fault)

    @property
    def receiver(self):
        return self.registers.receiver

    def status(self):
        pipe = self.received[0][0] if self.received else 7
        return self.flags | pipe << 1 | (len(self.outgoing) == 3)

    def reads(self, register):
        if register == STATUS:
            return bytes([self.status()])
        if register == OBSERVE_TX:
            return bytes([16 * self.plos_cnt + self.arc_cnt])
        if register == FIFO_STATUS:
            return bytes([32 * (len(self.outgoing) == 3) + 16 * (not self.outgoing)
                          + 2 * (len(self.received) == 3) + (not self.received)])
        return self.registers.held[register]

    def irq(self):
        return 'low' if self.flags & ~self.registers.byte(CONFIG) & 0x70 else 'high'

    # host commands

    def command(self, host, room):
        self.answers()
        if not host:
            raise Refused(1)
        first, rest = host[0], host[1:]
        if first not in READS and first not in WRITES and first not in (W_TX_PAYLOAD, R_RX_PAYLOAD, FLUSH_TX, FLUSH_RX, NOP):
            raise Refused(2)
        if first in ((W_TX_PAYLOAD, FLUSH_TX) if self.receiver else (R_RX_PAYLOAD, FLUSH_RX)):
            raise Refused(3)
        if first == W_TX_PAYLOAD:
            if not 1 <= len(rest) <= 32:
                raise Refused(4)
        elif len(rest) != (len(RESET[first - 0x20]) if first in WRITES else 0):
            raise Refused(4)
        if first == R_RX_PAYLOAD and not self.received:
            raise Refused(5)
        reply = bytes([self.status()])
        if first in READS:
            reply += self.reads(first)
        if first == R_RX_PAYLOAD:
            reply += self.received[0][1]
        if len(reply) > room:
            raise Refused(6)
        if first in WRITES:
            self.write(first - 0x20, rest)
        elif first == W_TX_PAYLOAD:
            if len(self.outgoing) == 3:
                raise Refused(10)
            self.pid = (self.pid + 1) % 4
            self.outgoing.append((self.pid, rest))
            self.written += 1
        elif first == R_RX_PAYLOAD:
            pipe, _ = self.received.pop(0)
            self.read_on[pipe] += 1
        elif first == FLUSH_TX:
            self.flushed += len(self.outgoing)
            self.outgoing.clear()
            if self.mode in ('Tuning', 'Waiting'):
                self.settle()
        elif first == FLUSH_RX:
            self.received.clear()
        return reply

    def write(self, register, value):
        config = self.registers.byte(CONFIG)
        if register not in (CONFIG, STATUS):
            raise Refused(7)
        if register == CONFIG and (value[0] ^ config) & 0x8D:
            raise Refused(7)
        if register == CONFIG and self.mode in ('Tuning', 'Waiting', 'RX'):
            raise Refused(8)
        if not allowed(register, value[0]):
            raise Refused(9, register)
        if register == STATUS:
            self.flags &= ~value[0]
            return
        self.registers.held[CONFIG] = value
        if not value[0] & PWR_UP:
            self.mode, self.left = 'Shutdown', None
        elif self.mode == 'Shutdown':
            self.mode, self.left = 'Starting', 200

    # modes

    def settle(self):
        """The mode of a unit that is powered and has nothing under way, by CE."""
        if not self.ce:
            self.mode, self.left = 'Standby', None
        elif self.receiver:
            self.mode, self.left = 'Tuning', 13
        else:
            self.mode, self.left = 'Idle-TX', None

    def set_ce(self, high):
        self.answers()
        before, self.ce = self.ce, high
        if before == high:
            return
        if self.mode in ('Standby', 'Idle-TX') or self.receiver and self.mode in ('Tuning', 'RX'):
            self.settle()

    def transaction(self):
        self.arc_cnt = 0
        self.mode, self.left = 'Tuning', 13

    def send(self):
        """The bits of a sending of the oldest payload."""
        self.mode, self.left = 'Waiting', 25 * (self.registers.byte(SETUP_RETR) // 16 + 1)
        pid, payload = self.outgoing[0]
        return packed(self.w, self.registers.home, pid, 0, payload)

    def tick(self):
        """The bits of the frame sent, none for no frame."""
        self.answers()
        if self.mode == 'Idle-TX':
            if self.outgoing and not self.flags & MAX_RT:
                self.transaction()
            return ''
        if self.left is None:
            return ''
        self.left -= 1
        if self.left > 0:
            return ''
        if self.mode == 'Starting':
            self.settle()
        elif self.mode == 'Tuning' and self.receiver:
            self.mode, self.left = 'RX', None
        elif self.mode == 'Tuning':
            return self.send()
        elif self.arc_cnt < self.registers.byte(SETUP_RETR) % 16:
            self.arc_cnt += 1
            return self.send()
        else:
            self.flags |= MAX_RT
            self.given_up += 1
            self.plos_cnt = min(15, self.plos_cnt + 1)
            self.settle()
        return ''

    # hearing

    def hear(self, bits):
        """The bits of the answer, none for no answer."""
        self.answers()
        said = opened(self.w, self.registers.width, bits)
        if said is None:
            return ''
        if self.receiver:
            return self.receives(*said) if self.mode == 'RX' else ''
        if self.mode == 'Waiting' and said[0] == self.registers.address(0) and said[3] == b'':
            del self.outgoing[0]
            self.sent += 1
            self.flags |= TX_DS
            if self.ce and self.outgoing:
                self.transaction()
            else:
                self.settle()
        return ''

    def receives(self, address, pid, no_ack, payload, check):
        for pipe in self.registers.pipes:
            if self.registers.address(pipe) == address:
                break
        else:
            return ''
        if len(payload) != self.registers.byte(RX_PW_P0 + pipe):
            return ''
        if self.memories[pipe] != (pid, check):
            if len(self.received) == 3:
                return ''
            self.received.append((pipe, payload))
            self.flags |= RX_DR
            self.memories[pipe] = (pid, check)
        return '' if no_ack else packed(self.w, address, pid, 0, b'')


# --- the cell (CELL.md) ---

def at_fault(units):
    """The lowest unit at fault of those offered, None if there is none."""
    if not units or not units[0].fits() or not units[0].receiver:
        return 0
    if len(units) == 1:
        return 1
    receiver, used = units[0].registers, []
    for number, unit in enumerate(units[1:7], 1):
        sender = unit.registers
        if not unit.fits() or unit.receiver or sender.width != receiver.width:
            return number
        if sender.byte(RF_CH) != receiver.byte(RF_CH) or (sender.byte(RF_SETUP) ^ receiver.byte(RF_SETUP)) & 0x28:
            return number
        if (sender.byte(CONFIG) ^ receiver.byte(CONFIG)) & 4:
            return number
        pipe = [pipe for pipe in receiver.pipes if receiver.address(pipe) == sender.home]
        if not pipe or pipe in used:
            return number
        used.append(pipe)
    return 7 if len(units) > 7 else None


class CellRefused(Exception):
    """A refusal by a cell: layer, unit and the refusal's numbers."""


class Cell:
    def __init__(self, units):
        self.units = units
        # the frame's bits and the number of its sender
        self.air = None
        for unit in units:
            unit.count()

    def summary(self):
        """Of each sender how many payloads were written, sent, given up and flushed, and how many wait; the reads on each pipe."""
        counts = [[unit.written, unit.sent, unit.given_up, unit.flushed, len(unit.outgoing)] for unit in self.units[1:]]
        return counts, self.units[0].read_on

    def unit(self, number):
        if number >= len(self.units):
            raise CellRefused('cell', number, 14)
        return self.units[number]

    def by_unit(self, number, call):
        unit = self.unit(number)
        try:
            return call(unit)
        except Refused as refusal:
            raise CellRefused('unit', number, *refusal.args)

    def command(self, number, host, room):
        return self.by_unit(number, lambda unit: unit.command(host, room))

    def set_ce(self, number, high):
        return self.by_unit(number, lambda unit: unit.set_ce(high))

    def tick(self, number):
        self.unit(number)
        if self.air:
            raise CellRefused('cell', number, 15)
        bits = self.by_unit(number, lambda unit: unit.tick())
        if bits:
            self.air = bits, number
        return bits

    def heard(self, bits, sender):
        """The answer to a frame that every unit but its sender hears."""
        answers = [unit.hear(bits) for number, unit in enumerate(self.units) if number != sender]
        answered = [answer for answer in answers if answer]
        assert len(answered) <= 1 and answered == [answer for answer in answers[:1] if answer and sender]
        return answered[0] if answered else ''

    def carry(self, fate, start, pattern):
        if not self.air:
            raise CellRefused('cell', 0, 16)
        bits, sender = self.air
        places = [start + i for i in range(16) if pattern >> (15 - i) & 1]
        if fate > 3 or fate == 3 and (not places or places[-1] >= len(bits) or self.units[0].w == 8 and pattern & 0xFF):
            raise CellRefused('cell', 0, 17)
        answer = ''
        if fate == 3:
            bits = changed(bits, start, pattern)
        for _ in range((0, 1, 2, 1)[fate]):
            answer = self.heard(bits, sender)
        self.air = (answer, 0) if answer else None
        return answer


# --- the console (CONSOLE.md) ---

def number(word, most, least=0):
    if not word or any(digit not in '0123456789' for digit in word) or not least <= int(word) <= most:
        raise Cannot
    return int(word)


def digits(word, count):
    if len(word) != count or any(digit not in '0123456789abcdefABCDEF' for digit in word):
        raise Cannot
    return bytes.fromhex(word) if count % 2 == 0 else None


def all_bytes(words):
    return b''.join(digits(word, 2) for word in words)


def hexed(data):
    return ''.join(' %02X' % byte for byte in data)


def frame_words(bits):
    return ' frame %d%s' % (len(bits), hexed(bytes_of(bits))) if bits else ''


class Console:
    def __init__(self):
        self.w = 16
        self.drop()

    def drop(self):
        self.units, self.cell = [None] * 8, None

    def line(self, text):
        words = text.split('#')[0].replace('\t', ' ').replace('\r', ' ').split(' ')
        words = [word for word in words if word]
        if not words:
            return None
        try:
            if words[0] not in LINES:
                raise Cannot
            least, most, call = LINES[words[0]]
            if not least <= len(words) - 1 <= most:
                raise Cannot
            return call(self, *words[1:])
        except Cannot:
            return 'cannot'
        except Refused as refusal:
            return 'refused ' + refusal_words(refusal.args)
        except CellRefused as refusal:
            layer, unit, *rest = refusal.args
            return 'refused %s %d %s' % (layer, unit, refusal_words(rest))

    def unit(self, word, boxed=None):
        """The unit under a label; `boxed` says which kind the line needs."""
        unit = self.units[number(word, 7)]
        if self.cell or unit is None or boxed is not None and unit.boxed != boxed:
            raise Cannot
        return unit

    # one method for each line, in the order of the table

    def kind(self, name):
        if name not in ('crc8', 'crc16'):
            raise Cannot
        self.w = int(name[3:])
        self.drop()
        return 'ok'

    def pack(self, address, pid, no_ack, *payload):
        if len(address) not in (6, 8, 10):
            raise Cannot
        address, payload = digits(address, len(address)), all_bytes(payload)
        if len(payload) > 32:
            raise Cannot
        return 'ok' + frame_words(packed(self.w, address, number(pid, 3), number(no_ack, 1), payload))

    def read(self, width, count, *data):
        width, count, data = number(width, 5, 3), number(count, 65535), all_bytes(data)
        if count > 8 * len(data):
            raise Refused(18)
        said = opened(self.w, width, bits_of(data)[:count])
        if said is None:
            return 'ok nothing'
        address, pid, no_ack, payload, _ = said
        return 'ok %s %d %d%s' % (address.hex().upper(), pid, no_ack, hexed(payload))

    def bench(self, label):
        label = number(label, 7)
        if self.cell:
            raise Cannot
        self.units[label] = Bench()
        return 'ok'

    def load(self, label, *profile):
        profile = all_bytes(profile)
        self.unit(label, False).load(profile)
        return 'ok'

    def field(self, register, *profile):
        register = digits(register, 2)[0]
        found = fields(all_bytes(profile))
        return 'ok' + hexed(found[register]) if register in found else 'ok absent'

    def check(self, label):
        fault = self.unit(label, False).registers.fault(self.w)
        if fault is not None:
            raise Refused(12, fault)
        return 'ok'

    def box(self, label):
        self.units[number(label, 7)] = Boxed(self.unit(label, False).registers, self.w)
        return 'ok'

    def make(self):
        if self.cell:
            raise Cannot
        offered = []
        for unit in self.units:
            if unit is None or not unit.boxed:
                break
            offered.append(unit)
        fault = at_fault(offered)
        if fault is not None:
            raise CellRefused('cell', fault, 13)
        self.cell = Cell(offered)
        return 'ok'

    def command(self, unit, *host):
        room = 33
        if host and host[0].startswith('/'):
            room, host = number(host[0][1:], 255), host[1:]
        host, name = all_bytes(host), number(unit, 255)
        if self.cell:
            return 'ok' + hexed(self.cell.command(name, host, room))
        return 'ok' + hexed(self.unit(unit).command(host, room))

    def ce(self, unit, level):
        name, high = number(unit, 255), number(level, 1) == 1
        if self.cell:
            self.cell.set_ce(name, high)
        else:
            self.unit(unit, True).set_ce(high)
        return 'ok'

    def irq(self, unit):
        if not self.cell:
            return 'ok ' + self.unit(unit, True).irq()
        name = number(unit, 255)
        if name >= len(self.cell.units):
            raise Cannot
        return 'ok ' + self.cell.units[name].irq()

    def tick(self, unit, most='1'):
        name, most = number(unit, 255), number(most, 65535, 1)
        if self.cell:
            tick = lambda: self.cell.tick(name)
        else:
            tick = self.unit(unit, True).tick
        for taken in range(1, most + 1):
            bits = tick()
            if bits:
                break
        return 'ok %d' % taken + frame_words(bits)

    def hear(self, unit, count, *data):
        count, data = number(count, 65535), all_bytes(data)
        unit = self.unit(unit, True)
        unit.answers()
        if count > 8 * len(data):
            raise Refused(18)
        return 'ok' + frame_words(unit.hear(bits_of(data)[:count]))

    def carry(self, fate, *damage):
        if len(damage) == 1:
            raise Cannot
        fate, start, pattern = number(fate, 255), 0, 0
        if damage:
            start, pattern = number(damage[0], 65535), int.from_bytes(digits(damage[1], 4), 'big')
        if not self.cell:
            raise Cannot
        return 'ok' + frame_words(self.cell.carry(fate, start, pattern))


def refusal_words(numbers):
    return '%d' % numbers[0] + ''.join(' %02X' % register for register in numbers[1:])


ANY = 1 << 30
# name: fewest and most words behind it, and what carries it out
LINES = {'kind': (1, 1, Console.kind), 'pack': (3, ANY, Console.pack), 'read': (2, ANY, Console.read),
         'bench': (1, 1, Console.bench), 'load': (1, ANY, Console.load), 'field': (1, ANY, Console.field),
         'check': (1, 1, Console.check), 'box': (1, 1, Console.box), 'make': (0, 0, Console.make),
         'command': (1, ANY, Console.command), 'ce': (2, 2, Console.ce), 'irq': (1, 1, Console.irq),
         'tick': (1, 2, Console.tick), 'hear': (2, ANY, Console.hear), 'carry': (1, 3, Console.carry)}
