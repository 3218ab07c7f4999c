#!/usr/bin/env python3
"""Writes src/table.rt: scripts of the console, each line with the result that model.py gives for it.

The cases also say themselves what they expect at the telling points, so that a slip in the model shows here. The random
scripts come from the fixed seed below. Run by hand, in this folder:

    python3 generate.py                 writes src/table.rt and round-results.txt
"""

import os
import random
import sys

sys.dont_write_bytecode = True
from model import (CONFIG, EN_AA, EN_RXADDR, RESET, RF_CH, RF_SETUP, RX_ADDR_P0, RX_ADDR_P1, RX_PW_P0, SETUP_AW, SETUP_RETR,
                   TX_ADDR, Console, bytes_of, changed, hexed, packed)

HERE = os.path.dirname(os.path.abspath(__file__))
SEED = 27112026
KEPT = 8


class Script:
    """Lines with their results. A second argument is what the case itself expects."""

    def __init__(self, about):
        self.console, self.lines = Console(), []
        self.about(about)

    def about(self, text):
        self.lines.append(('# ' + text, None))

    def __call__(self, line, wanted=None):
        result = self.console.line(line)
        assert wanted is None or result == wanted, (line, 'gives', result, 'wanted', wanted)
        self.lines.append((line, result))
        return result

    def all(self, wanted, *lines):
        for line in lines:
            self(line, wanted)


# --- a cell of one kind of check and one address width ---

class Kit:
    def __init__(self, w, width):
        self.w, self.width = w, width
        self.name = 'crc%d, addresses of %d bytes' % (w, width)
        self.config = 0x0C if w == 16 else 0x08
        # high byte first: pipe 0, and the upper bytes of pipes 1 to 5
        self.home = bytes.fromhex('E75A1C96D3')[:width]
        self.upper = bytes.fromhex('3CB4A0977E')[:width - 1]

    def address(self, pipe):
        return self.home if pipe == 0 else self.upper + bytes([0x20 + pipe])

    def register(self, address, spare):
        """A register of five bytes with this address in use; the bytes beyond the width do not matter."""
        return bytes(reversed(address)) + bytes([spare]) * (5 - self.width)

    def receiver(self, lengths, **more):
        """Settings of a receiver whose pipes take these lengths; a pipe with None is not enabled."""
        settings = {CONFIG: self.config | 1, EN_RXADDR: sum(1 << p for p, length in enumerate(lengths) if length is not None),
                    SETUP_AW: self.width - 2, RX_ADDR_P0: self.register(self.address(0), 0x11),
                    RX_ADDR_P1: self.register(self.address(1), 0x22)}
        settings.update({RX_ADDR_P0 + pipe: self.address(pipe)[-1] for pipe in range(2, 6)})
        settings.update({RX_PW_P0 + pipe: length for pipe, length in enumerate(lengths) if length is not None})
        return {**settings, **registers(more)}

    def sender(self, pipe, retr=0x02, **more):
        settings = {CONFIG: self.config, SETUP_AW: self.width - 2, SETUP_RETR: retr,
                    RX_ADDR_P0: self.register(self.address(pipe), 0x33), TX_ADDR: self.register(self.address(pipe), 0x44)}
        return {**settings, **registers(more)}

    def frame(self, pipe, pid, payload=b'', no_ack=0):
        return packed(self.w, self.address(pipe), pid, no_ack, payload)


def registers(more):
    """`_05=0x4C` names register 05."""
    return {int(name[1:], 16): value for name, value in more.items()}


def profile(settings):
    data = {register: value if isinstance(value, bytes) else bytes([value]) for register, value in settings.items()}
    return hexed(sum(1 << register for register in data).to_bytes(4, 'big') + b''.join(data[r] for r in sorted(data)))


def framed(bits):
    return ' frame %d%s' % (len(bits), hexed(bytes_of(bits)))


class Round(Script):
    """A script with a cell, and the lines that its cases share."""

    def __init__(self, kit, about):
        super().__init__('%s: %s' % (kit.name, about))
        self.kit = kit
        self('kind crc%d' % kit.w, 'ok')

    def boxed(self, label, settings):
        self.all('ok', 'bench %d' % label, 'load %d%s' % (label, profile(settings)), 'box %d' % label)

    def cell(self, lengths, pipes, retr=0x02):
        """A cell of a receiver and a sender for each of these pipes, all powered, with CE high and the receiver in RX."""
        self.boxed(0, self.kit.receiver(lengths))
        for unit, pipe in enumerate(pipes, 1):
            self.boxed(unit, self.kit.sender(pipe, retr))
        self('make', 'ok')
        for unit in range(len(pipes) + 1):
            self.power(unit)
        self('tick 0 13', 'ok 13')

    def power(self, unit):
        self.config(unit, 2)
        self('tick %d 200' % unit, 'ok 200')
        self('ce %d 1' % unit, 'ok')

    def config(self, unit, bits, wanted='ok 0E'):
        """Writes CONFIG with these of the bits 70 and 02, the others as they stand."""
        self('command %d 20 %02X' % (unit, self.kit.config | (unit == 0) | bits), wanted)

    def busy(self, unit):
        """The unit is in Tuning, Waiting or RX."""
        self.config(unit, 2, 'refused unit %d 8' % unit)

    def free(self, unit, status='0E'):
        self.config(unit, 2, 'ok ' + status)

    def status(self, unit, status):
        self('command %d FF' % unit, 'ok ' + status)

    def reads(self, unit, register, answer):
        """The register's bytes, after whatever STATUS is"""
        result = self('command %d %02X' % (unit, register))
        assert result[5:] == ' ' + answer, (register, result, answer)

    def put(self, unit, payload, status='0E'):
        self('command %d A0%s' % (unit, hexed(payload)), 'ok ' + status)

    def sends(self, unit, pipe, pid, payload, ticks=14):
        """The tick with this number sends; the line asks for one more, which is not taken."""
        return self('tick %d %d' % (unit, ticks + 1), 'ok %d' % ticks + framed(self.kit.frame(pipe, pid, payload)))

    def answered(self, pipe, pid, fate='1'):
        self('carry ' + fate, 'ok' + framed(self.kit.frame(pipe, pid)))

    def accepted(self, unit, status='2E'):
        """The answer on the air is heard by the sender, whose STATUS is then this; TX_DS is cleared."""
        self('carry 1', 'ok')
        self.status(unit, status)
        self('command %d 27 20' % unit, 'ok ' + status)

    def delivers(self, unit, pipe, pid, payload, ticks=14):
        self.sends(unit, pipe, pid, payload, ticks)
        self.answered(pipe, pid)
        self.accepted(unit)

    def takes(self, pipe, payload, flags=0x40):
        """A read at the receiver; bits 3 to 1 of the reply's STATUS are the pipe."""
        self('command 0 61', 'ok' + hexed(bytes([flags | pipe << 1]) + payload))

    def nothing_to_read(self):
        self('command 0 61', 'refused unit 0 5')

    def receiver_fifo(self, value):
        self.reads(0, 0x17, value)


def places(kit, length):
    """A place in each field of a frame: what it is, start bit, pattern."""
    control = 8 + 8 * kit.width
    payload = control + 9
    end = payload + 8 * length + kit.w
    return [('address', 8, 0x8000), ('address', control - 9, 0xC100), ('length', control, 0x0400), ('PID', control + 5, 0x6000),
            ('NO_ACK', control + 8, 0x8000), ('payload', payload, 0xA500 if length else 0x8000),
            ('check', end - 8, 0x8100), ('check', end - 1, 0x8000), ('check and before', end - kit.w - 1, 0x8100),
            ('preamble and address', 4, 0x0F00 if kit.w == 8 else 0x0FF0)]


# --- fates ---

def fates_of_sendings(kit):
    s = Round(kit, 'the fates of a sending.')
    a, b = bytes.fromhex('0A0B0C0D'), bytes.fromhex('F1F2F3F4')
    s.cell([4], [0], retr=0x0F)
    s.about('lost, then heard')
    s.put(1, a)
    s.sends(1, 0, 1, a)
    s('carry 0', 'ok')
    s('carry 0', 'refused cell 0 16')
    s.status(1, '0E')
    s.busy(1)
    s.receiver_fifo('11')
    s.sends(1, 0, 1, a, 25)
    s('irq 0', 'ok high')
    s.answered(0, 1)
    s.status(0, '40')
    s('irq 0', 'ok low')
    s('irq 1', 'ok high')
    s.status(1, '0E')
    s.busy(1)
    s('carry 1', 'ok')
    s.status(1, '2E')
    s('irq 1', 'ok low')
    s('carry 1', 'refused cell 0 16')
    s.reads(1, 0x08, '01')
    s.reads(1, 0x17, '11')
    s('command 1 27 20', 'ok 2E')
    s.takes(0, a)
    s.nothing_to_read()
    s.about('heard twice: taken once, and answered as a repeat')
    s.put(1, b)
    s.sends(1, 0, 2, b)
    s.answered(0, 2, '2')
    s.receiver_fifo('10')
    s.accepted(1)
    s.takes(0, b)
    s.nothing_to_read()
    s.about('changed in each field: dropped')
    s.put(1, a)
    ticks = 14
    for field, start, pattern in places(kit, 4):
        s.about(field)
        s.sends(1, 0, 3, a, ticks)
        s('carry 3 %d %04X' % (start, pattern), 'ok')
        s('carry 1', 'refused cell 0 16')
        ticks = 25
    s.receiver_fifo('11')
    s.about('changed in the preamble alone: heard as sent')
    s.sends(1, 0, 3, a, 25)
    s('carry 3 0 FF00', 'ok' + framed(kit.frame(0, 3)))
    s.accepted(1)
    s.takes(0, a)
    s.about('start bit and pattern matter for fate 3 alone')
    s.put(1, b)
    s.sends(1, 0, 0, b)
    s('carry 0 65535 0000', 'ok')
    s.sends(1, 0, 0, b, 25)
    s('carry 2 65535 0000', 'ok' + framed(kit.frame(0, 0)))
    s('carry 1 65535 0000', 'ok')
    s.status(1, '2E')
    s.takes(0, b)
    return s


def fates_of_answers(kit):
    s = Round(kit, 'the fates of an answer.')
    a, b = bytes.fromhex('0A0B0C0D'), bytes.fromhex('F1F2F3F4')
    s.cell([4], [0], retr=0x0F)
    s.about('lost: the sender waits on, and the repeat is answered and not taken')
    s.put(1, a)
    s.put(1, b)
    s.sends(1, 0, 1, a)
    s.answered(0, 1)
    s('carry 0', 'ok')
    s('carry 0', 'refused cell 0 16')
    s.status(1, '0E')
    s.sends(1, 0, 1, a, 25)
    s.answered(0, 1)
    s.receiver_fifo('10')
    s.about('heard twice: one payload counts as sent, and the next transaction starts at once')
    s('carry 2', 'ok')
    s.status(1, '2E')
    s.reads(1, 0x17, '01')
    s.reads(1, 0x08, '00')
    s.busy(1)
    s.sends(1, 0, 2, b, 13)
    s.answered(0, 2)
    s.accepted(1)
    s.takes(0, a)
    s.takes(0, b)
    s.about('changed in each field: the sender waits on')
    s.put(1, a)
    ticks = 14
    for field, start, pattern in places(kit, 0):
        s.about(field)
        s.sends(1, 0, 3, a, ticks)
        s.answered(0, 3)
        s('carry 3 %d %04X' % (start, pattern), 'ok')
        s.status(1, '0E')
        ticks = 25
    s.reads(1, 0x08, '09')
    s.about('changed in the preamble alone: heard as sent')
    s.sends(1, 0, 3, a, 25)
    s.answered(0, 3)
    s('carry 3 7 8000', 'ok')
    s.status(1, '2E')
    s.reads(1, 0x17, '11')
    s.free(1, '2E')
    s.takes(0, a)
    s.nothing_to_read()
    return s


# --- making a cell ---

def making(kit):
    s = Round(kit, 'making a cell: each way to be at fault.')
    lengths = [4, 5, 6, None, 8, 9]
    rightly = [kit.receiver(lengths), kit.sender(0), kit.sender(1), kit.sender(4)]
    s('make', 'refused cell 0 13')
    s('bench 0', 'ok')
    s('make', 'refused cell 0 13')
    s.boxed(0, rightly[0])
    s.about('no sender')
    s('make', 'refused cell 1 13')
    s('bench 1', 'ok')
    s('make', 'refused cell 1 13')

    def wrong(unit, settings, about, at=None):
        s.about(about)
        s.boxed(unit, settings)
        s('make', 'refused cell %d 13' % (unit if at is None else at))
        s.boxed(unit, rightly[unit])

    for unit in (1, 2, 3):
        s.boxed(unit, rightly[unit])
    wrong(0, kit.sender(0), 'unit 0 is a sender')
    wrong(0, {**rightly[0], CONFIG: kit.config ^ 4 | 1}, 'unit 0 has a fault in CONFIG')
    wrong(0, {**rightly[0], RX_PW_P0: 0}, 'unit 0 has a fault in RX_PW_P0')
    other = 3 + (kit.width - 2) % 3
    for unit in (1, 3):
        pipe = {1: 0, 3: 4}[unit]
        home = kit.register(kit.address(pipe), 0x33)
        wrong(unit, kit.receiver([4, 4], _0A=home, _10=home), 'a sender is a receiver, with the sender\'s addresses')
        wrong(unit, kit.sender(pipe, _00=kit.config ^ 4), 'a sender has CRCO unlike, which is a fault of its own')
        wrong(unit, kit.sender(pipe, _10=bytes(5)), 'a sender has a fault in TX_ADDR')
        wrong(unit, kit.sender(pipe, _03=other - 2), 'a sender has another address width')
        wrong(unit, kit.sender(pipe, _05=0x03), 'a sender is on another channel')
        for rate in (0x06, 0x26):
            wrong(unit, kit.sender(pipe, _06=rate), 'a sender has another rate')
        wrong(unit, kit.sender(3), 'a sender is on a pipe that is not enabled')
        elsewhere = kit.register(kit.home[:-1] + bytes([kit.home[-1] ^ 1]), 0x33)
        wrong(unit, kit.sender(pipe, _0A=elsewhere, _10=elsewhere), 'a sender is on no pipe')
    wrong(2, kit.sender(0), 'two senders on one pipe: the later one')
    wrong(1, kit.sender(4), 'two senders on one pipe: the later one', at=3)
    s.about('of several at fault the lowest')
    s.boxed(3, kit.sender(0))
    wrong(2, kit.sender(0), 'units 2 and 3', at=2)
    wrong(0, kit.sender(0), 'units 0 and 3', at=0)
    s('make', 'refused cell 3 13')
    s.about('what may differ: the other bits of RF_SETUP, the masks, the bytes beyond the width, other pipes, SETUP_RETR')
    s.boxed(3, kit.sender(4, 0xFF, _00=kit.config | 0x70, _06=0x08, _02=0x3F, _11=0x20, _0B=b'\1\2\3\4\5'))
    s('make', 'ok')
    s.about('and now the cell is there')
    s.all('cannot', 'make', 'bench 5', 'load 0', 'check 0', 'box 0', 'hear 0 0')
    s('command 3 00', 'ok 0E %02X' % (kit.config | 0x70))
    s('command 4 00', 'refused cell 4 14')
    s('kind crc%d' % kit.w, 'ok')
    s('make', 'refused cell 0 13')
    return s


def making_rates(kit):
    s = Round(kit, 'the rates of RF_SETUP, each with each.')
    rates = {0x00: '1 Mbps', 0x07: '1 Mbps', 0x08: '2 Mbps', 0x0E: '2 Mbps', 0x20: '250 kbps', 0x26: '250 kbps'}
    for theirs in rates:
        s.boxed(0, kit.receiver([4], _06=theirs))
        for mine in rates:
            s.boxed(1, kit.sender(0, _06=mine))
            s('make', 'ok' if rates[mine] == rates[theirs] else 'refused cell 1 13')
            if rates[mine] == rates[theirs]:
                s('kind crc%d' % kit.w, 'ok')
                s.boxed(0, kit.receiver([4], _06=theirs))
    return s


def making_too_many(kit):
    s = Round(kit, 'one to six senders make a cell, a seventh does not.')
    lengths = [1, 2, 3, 4, 5, 6]
    s.boxed(0, kit.receiver(lengths))
    for unit in range(1, 8):
        s.boxed(unit, kit.sender(unit % 6))
    s('make', 'refused cell 7 13')
    s.boxed(5, kit.sender(2))
    s('make', 'refused cell 5 13')
    s.boxed(5, kit.sender(5))
    s('make', 'refused cell 7 13')
    s('bench 7', 'ok')
    s('make', 'ok')
    s('command 6 FF', 'ok 0E')
    s('command 7 FF', 'refused cell 7 14')
    for senders in range(1, 7):
        s('kind crc%d' % kit.w, 'ok')
        s.boxed(0, kit.receiver(lengths))
        s('make', 'refused cell 1 13')
        for unit in range(1, senders + 1):
            s.boxed(unit, kit.sender(6 - unit))
        if senders < 6:
            s.about('a unit on the bench ends the cell, whatever comes behind it')
            s('bench %d' % (senders + 1), 'ok')
            if senders < 5:
                s.boxed(senders + 2, kit.sender(0, _05=0x77))
        s('make', 'ok')
        s('ce %d 1' % senders, 'ok')
        s('ce %d 1' % (senders + 1), 'refused cell %d 14' % (senders + 1))
    return s


def making_used(kit):
    s = Round(kit, 'units that were used: states are compared.')
    on, off = (['command %d 20 %02X' % (unit, kit.config | (unit == 0) | bits) for unit in range(3)] for bits in (2, 0))
    s.boxed(0, kit.receiver([4, 4]))
    s.boxed(1, kit.sender(0))
    s.boxed(2, kit.sender(1, retr=0x00))

    def unfit(unit):
        s('make', 'refused cell %d 13' % unit)

    for unit in (0, 1, 2):
        s.about('unit %d: CE, Starting, Standby, and powered down' % unit)
        s('ce %d 1' % unit, 'ok')
        unfit(unit)
        s('ce %d 0' % unit, 'ok')
        s(on[unit], 'ok 0E')
        unfit(unit)
        s('tick %d 200' % unit, 'ok 200')
        unfit(unit)
        s('ce %d 1' % unit, 'ok')
        unfit(unit)
        s('ce %d 0' % unit, 'ok')
        unfit(unit)
        s(off[unit], 'ok 0E')
    s.about('a payload waits; the packet identity counter is not 0; after four writes it is, but three payloads wait')
    s('command 1 A0 01', 'ok 0E')
    unfit(1)
    s('command 1 E1', 'ok 0E')
    unfit(1)
    for n in range(3):
        s('command 1 A0 02', 'ok 0E')
        unfit(1)
    s('command 1 E1', 'ok 0F')
    s.about('both units 1 and 2 used; TX_DS and then the identity counter')
    s.all('ok 0E', on[2], 'command 2 A0 01 02 03 04')
    s('tick 2 200', 'ok 200')
    s('ce 2 1', 'ok')
    s('tick 2 14', 'ok 14' + framed(kit.frame(1, 1, bytes([1, 2, 3, 4]))))
    s('ce 2 0', 'ok')
    ack = kit.frame(1, 1)
    s('hear 2 %d%s' % (len(ack), hexed(bytes_of(ack))), 'ok')
    s(off[2], 'ok 2E')
    unfit(2)
    s('ce 1 1', 'ok')
    unfit(1)
    s('ce 1 0', 'ok')
    for n in range(3):
        s('command 2 A0 01', 'ok 2E')
        s('command 2 E1', 'ok 2E')
    unfit(2)
    s('command 2 27 70', 'ok 2E')
    s.about('the counters of OBSERVE_TX: ARC_CNT alone, PLOS_CNT alone, and nothing counts PLOS_CNT back')
    a, home = bytes([1, 2, 3, 4]), kit.frame(0, 1, bytes([1, 2, 3, 4]))
    acked = 'hear 1 %d%s' % (len(kit.frame(0, 1)), hexed(bytes_of(kit.frame(0, 1))))

    def clean(status):
        s('ce 1 0', 'ok')
        s.all('ok ' + status, off[1], 'command 1 E1', 'command 1 27 70')
        for n in range(3):
            s('command 1 A0 01', 'ok 0E')
            s('command 1 E1', 'ok 0E')

    s.all('ok 0E', on[1], 'command 1 A0' + hexed(a))
    s('ce 1 1', 'ok')
    s('tick 1 214', 'ok 214' + framed(home))
    s('tick 1 26', 'ok 25' + framed(home))
    s(acked, 'ok')
    clean('2E')
    s('command 1 08', 'ok 0E 01')
    unfit(1)
    s.about('a new transaction sets ARC_CNT to 0')
    s.all('ok 0E', on[1], 'command 1 A0' + hexed(a))
    s('ce 1 1', 'ok')
    s('tick 1 214', 'ok 214' + framed(home))
    s(acked, 'ok')
    clean('2E')
    s('command 1 08', 'ok 0E 00')
    s.boxed(1, kit.sender(0, retr=0x00))
    s.all('ok 0E', on[1], 'command 1 A0' + hexed(a))
    s('ce 1 1', 'ok')
    s('tick 1 214', 'ok 214' + framed(home))
    s('tick 1 25', 'ok 25')
    clean('1E')
    s('command 1 08', 'ok 0E 10')
    unfit(1)
    s.boxed(1, kit.sender(0))
    s.about('a received payload; then the memory of its pipe, which nothing empties')
    s(on[0], 'ok 0E')
    s('ce 0 1', 'ok')
    s('tick 0 213', 'ok 213')
    frame = kit.frame(0, 1, bytes([1, 2, 3, 4]))
    s('hear 0 %d%s' % (len(frame), hexed(bytes_of(frame))), 'ok' + framed(kit.frame(0, 1)))
    s('ce 0 0', 'ok')
    s.all('ok 40', off[0], 'command 0 27 70')
    unfit(0)
    s('command 0 E2', 'ok 00')
    unfit(0)
    s.boxed(0, kit.receiver([4, 4]))
    s.about('and now each is in such a state')
    s('make', 'ok')
    s('command 2 A0 05', 'ok 0E')
    return s


def making_other_masks(kit):
    s = Round(kit, 'masks written after boxing: the state is one that boxing a unit with these masks gives.')
    s.boxed(0, kit.receiver([4]))
    s.boxed(1, kit.sender(0))
    s('command 0 20 %02X' % (kit.config | 0x41), 'ok 0E')
    s('command 1 20 %02X' % (kit.config | 0x30), 'ok 0E')
    s('make', 'ok')
    s('command 0 00', 'ok 0E %02X' % (kit.config | 0x41))
    return s


# --- refusals of a cell and of its units ---

def refusals_of_cell(kit):
    s = Round(kit, 'refusals of a cell, and their order.')
    a = bytes.fromhex('C0C1')
    s.cell([2, 2], [0, 1])
    s.about('no such unit, before an empty or unknown command and before a short reply')
    s.all('refused cell 3 14', 'command 3', 'command 3 18', 'command 3 /0 FF', 'command 3 FF', 'ce 3 0', 'ce 3 1', 'tick 3', 'tick 3 9')
    s.all('refused cell 7 14', 'command 7', 'ce 7 1', 'tick 7')
    s.all('refused cell 255 14', 'command 255', 'command 255 FF', 'ce 255 1', 'tick 255', 'tick 255 65535')
    s.all('cannot', 'command 256', 'ce 256 1', 'tick 256', 'irq 3', 'irq 255', 'irq 256', 'tick 1 0', 'tick 1 65536', 'ce 1 2')
    s.about('a carry on empty air, before its fate and its pattern')
    s.all('refused cell 0 16', 'carry 0', 'carry 1', 'carry 2', 'carry 3', 'carry 4', 'carry 255', 'carry 3 0 0000', 'carry 3 65535 8000')
    s.all('cannot', 'carry', 'carry 256', 'carry 1 0', 'carry 3 65536 8000', 'carry 3 0 800', 'carry 3 0 08000', 'carry 1 2 0001 0')
    s.put(1, a)
    s.put(2, a)
    s.sends(1, 0, 1, a)
    frame = kit.frame(0, 1, a)
    s.about('a tick while the air is full, of any unit; an absent one first; the other calls go on')
    s.all('refused cell 1 15', 'tick 1', 'tick 1 100')
    s('tick 0', 'refused cell 0 15')
    s('tick 2 3', 'refused cell 2 15')
    s('tick 3', 'refused cell 3 14')
    s('command 1', 'refused unit 1 1')
    s('command 2 FF', 'ok 0E')
    s('ce 2 0', 'ok')
    s('ce 2 1', 'ok')
    s('irq 1', 'ok high')
    s.about('fates above 3, and patterns that are not allowed')
    s.all('refused cell 0 17', 'carry 4', 'carry 255', 'carry 4 0 8000', 'carry 3', 'carry 3 0 0000')
    end = len(frame)
    s.all('refused cell 0 17', *('carry 3 %d %04X' % (start, pattern) for start, pattern in (
        (end, 0x8000), (end - 1, 0x4000), (end - 1, 0xC000), (end - 8, 0x8080), (end - 15, 0x8001), (end - 2, 0x2000),
        (end + 1, 0x8000), (65535, 0x8000), (65535, 0xFFFF), (65520, 0x0001), (65521, 0x0001))))
    narrow = ['carry 3 0 0001', 'carry 3 0 0080', 'carry 3 20 8080', 'carry 3 20 FFFF', 'carry 3 %d 8001' % (end - 16)]
    if kit.w == 8:
        s.all('refused cell 0 17', *narrow)
        s('carry 3 %d 0100' % (end - 8), 'ok')
    else:
        s('carry 3 %d 0001' % (end - 16), 'ok')
        ticks = 25
        for line in narrow[:1] + narrow[2:]:
            s.put(1, a)
            s('command 1 E1')
            s.put(1, a)
            pid = s.console.cell.units[1].pid
            s.sends(1, 0, pid, a)
            s(line, 'ok')
    s.about('the last bit that a pattern may have')
    s('command 1 E1')
    s.put(1, a)
    pid = s.console.cell.units[1].pid
    s.sends(1, 0, pid, a)
    s('carry 3 %d 8000' % (end - 1), 'ok')
    s.about('the same frame again, and an answer, which is shorter')
    s.sends(1, 0, pid, a, 25)
    s.answered(0, pid)
    end = len(kit.frame(0, pid))
    s.all('refused cell 0 17', 'carry 3 %d 8000' % end, 'carry 3 %d 0100' % (end - 7), 'carry 4')
    s('tick 1', 'refused cell 1 15')
    s.accepted(1)
    s.takes(0, a)
    s.delivers(2, 1, 1, a)
    s.takes(1, a)
    return s


def refusals_through_cell(kit):
    s = Round(kit, 'refusals of the units of a cell.')
    a = bytes.fromhex('D0D1D2')
    s.cell([3, 3], [0, 1])
    c0, c2 = kit.config | 1, kit.config

    def refused(unit, numbers, *commands):
        s.all('refused unit %d %s' % (unit, numbers), *('command %d %s' % (unit, c) for c in commands))

    refused(0, '1', '', '/0')
    refused(2, '1', '', '/255')
    refused(0, '2', '18', '1F 00', '38', '3F', '60', 'A1', 'E0', 'FE', '/0 40')
    refused(2, '2', '18', '38 00', 'E3', '62')
    refused(0, '3', 'A0', 'A0 01', 'E1', '/0 E1 00')
    refused(1, '3', '61', 'E2', '61 00', '/0 E2')
    refused(0, '4', '00 00', 'FF FF', '61 00', 'E2 01', '20', '20 00 00', '2A 01 02 03 04', '28', '37 00 00')
    refused(2, '4', 'A0', 'A0' + hexed(bytes(33)), 'E1 00', '/0 A0')
    refused(0, '5', '61', '/0 61')
    refused(0, '6', '/0 FF', '/1 00', '/5 0A', '/0 E2', '/0 25 00', '/0 27 FF')
    refused(2, '6', '/0 A0 01', '/0 E1', '/0 20 00')
    s('command 0 /6 0A', 'ok 0E' + hexed(kit.register(kit.address(0), 0x11)))
    s('command 0 /1 FF', 'ok 0E')
    refused(0, '7', '28 00', '29 00', '37 11', '21 3F', '25 7E', '25 02', '20 %02X' % (c0 | 0x80), '20 %02X' % (c0 ^ 1))
    refused(1, '7', '24 00', '20 %02X' % (c2 ^ 8), '20 %02X' % (c2 | 1), '20 %02X' % (c2 | 0x82), '30' + hexed(bytes(5)))
    refused(0, '8', '20 %02X' % c0, '20 %02X' % (c0 | 0x72))
    refused(0, '9 07', '27 80', '27 0F', '27 01', '27 FF')
    refused(1, '9 07', '27 08')
    s.about('a sender with a full queue')
    for n in range(3):
        s.put(1, a)
    refused(1, '4', 'A0')
    refused(1, '6', '/0 A0 01')
    refused(1, '10', 'A0 01')
    s.status(1, '0F')
    s('tick 1', 'ok 1')
    refused(1, '8', '20 %02X' % c2)
    refused(1, '7', '20 %02X' % (c2 | 1))
    s.sends(1, 0, 1, a, 13)
    refused(1, '8', '20 %02X' % (c2 | 2))
    refused(1, '10', 'A0 01')
    s.answered(0, 1)
    refused(0, '6', '/0 61', '/3 61')
    s.accepted(1)
    s.takes(0, a)
    refused(0, '5', '61')
    s.about('a refused line changes nothing: the fourth write has the fourth identity')
    s.put(1, a)
    s.status(1, '0F')
    for pid in (2, 3, 0):
        s.sends(1, 0, pid, a, 13)
        s.answered(0, pid)
        s('carry 1', 'ok')
        s.takes(0, a)
    s.status(1, '2E')
    return s


# --- senders and queues ---

def each_on_its_pipe(kit, senders):
    s = Round(kit, '%d senders, each heard on a pipe of its own.' % senders)
    lengths = [1, 32, 3, 4, 7, 2]
    pipes = [2, 0, 5, 1, 4, 3][:senders]
    s.cell(lengths, pipes)
    payloads = [bytes((0x10 * unit + n) & 0xFF for n in range(lengths[pipe])) for unit, pipe in enumerate(pipes, 1)]
    for unit, payload in enumerate(payloads, 1):
        s.put(unit, payload)
    s.about('all wait for an answer at once, and only the sender whose frame it is takes it')
    for unit, (pipe, payload) in enumerate(zip(pipes, payloads), 1):
        s.sends(unit, pipe, 1, payload)
        s('carry 0', 'ok')
    for unit, (pipe, payload) in enumerate(zip(pipes, payloads), 1):
        s.sends(unit, pipe, 1, payload, 25)
        s.answered(pipe, 1)
        s('carry 1', 'ok')
        for other in range(1, senders + 1):
            s('irq %d' % other, 'ok ' + ('low' if other <= unit else 'high'))
        s.takes(pipe, payload)
    s.nothing_to_read()
    s.about('the reads come in the order of taking')
    for unit in range(senders, 0, -1):
        s.put(unit, payloads[unit - 1], '2E')
    for group in range(0, senders, 3):
        units = range(senders, 0, -1)[group:group + 3]
        for unit in units:
            s.sends(unit, pipes[unit - 1], 2, payloads[unit - 1])
            s.answered(pipes[unit - 1], 2)
            s('carry 2', 'ok')
        for unit in units:
            s.takes(pipes[unit - 1], payloads[unit - 1])
    s.nothing_to_read()
    for unit in range(1, senders + 1):
        s.reads(unit, 0x08, '00')
        s.reads(unit, 0x17, '11')
    return s


def wrong_length(kit):
    s = Round(kit, 'a payload of a length that the pipe does not take is never heard.')
    s.cell([3, 2], [0, 1], retr=0x00)
    s.put(1, b'\x01\x02')
    s.sends(1, 0, 1, b'\x01\x02')
    s('carry 1', 'ok')
    s('carry 1', 'refused cell 0 16')
    s('tick 1 25', 'ok 25')
    s.status(1, '1E')
    s('command 1 E1', 'ok 1E')
    s('command 1 27 70', 'ok 1E')
    s.put(1, b'\x01\x02\x03')
    s.delivers(1, 0, 2, b'\x01\x02\x03')
    s.takes(0, b'\x01\x02\x03')
    return s


def full_queue(kit):
    s = Round(kit, 'a full RX queue: dropped without answer, but a repeat is answered.')
    s.cell([2, 2], [0, 1], retr=0x01)
    a, b, c, d = (bytes([0x41 + n, n]) for n in range(4))
    for payload in (a, b, c):
        s.put(1, payload, s.console.line('command 1 FF')[3:])
    s.sends(1, 0, 1, a)
    s.answered(0, 1)
    s('carry 1', 'ok')
    s.put(2, a)
    s.delivers(2, 1, 1, a)
    s.sends(1, 0, 2, b, 13)
    s.answered(0, 2)
    s.receiver_fifo('12')
    s.about('the answer is lost: the repeat finds the queue full and is answered all the same')
    s('carry 0', 'ok')
    s.sends(1, 0, 2, b, 25)
    s.answered(0, 2)
    s('carry 1', 'ok')
    s.about('a new payload finds no place, on either pipe')
    s.sends(1, 0, 3, c, 13)
    s('carry 1', 'ok')
    s('carry 1', 'refused cell 0 16')
    s.put(2, d)
    s.sends(2, 1, 2, d)
    s('carry 2', 'ok')
    s.receiver_fifo('12')
    s.status(0, '40')
    s('command 0 27 40', 'ok 40')
    s.about('one is read, and the next sending is heard; RX_DR stands again')
    s.takes(0, a, 0x00)
    s.receiver_fifo('10')
    s.sends(1, 0, 3, c, 25)
    s.answered(0, 3)
    s('irq 0', 'ok low')
    s('carry 1', 'ok')
    s.receiver_fifo('12')
    s.sends(2, 1, 2, d, 25)
    s('carry 1', 'ok')
    s('tick 2 25', 'ok 25')
    s.status(2, '1E')
    s.takes(1, a)
    s.takes(0, b)
    s.takes(0, c)
    s.nothing_to_read()
    s.about('FLUSH_RX gives the places back too')
    s('command 2 27 10', 'ok 1E')
    s.delivers(2, 1, 2, d)
    s('command 0 E2', 'ok 42')
    s.nothing_to_read()
    return s


# --- transactions ---

def giving_up(kit, ard, arc):
    s = Round(kit, 'MAX_RT after %d lost sendings %d ticks apart, cleared and resumed.' % (arc + 1, 25 * (ard + 1)))
    a, b = bytes.fromhex('A0A1A2'), bytes.fromhex('B0B1B2')
    s.cell([3], [0], retr=ard << 4 | arc)
    wait = 25 * (ard + 1)
    s.put(1, a)
    s.put(1, b)
    for turn in (1, 2):
        ticks = 14
        for sending in range(arc + 1):
            s.sends(1, 0, 1, a, ticks)
            s('carry 0', 'ok')
            s.reads(1, 0x08, '%X%X' % (turn - 1, sending))
            ticks = wait
        s('tick 1 %d' % (wait - 1), 'ok %d' % (wait - 1))
        s.status(1, '0E')
        s('irq 1', 'ok high')
        s.busy(1)
        s('tick 1', 'ok 1')
        s.status(1, '1E')
        s('irq 1', 'ok low')
        s.free(1, '1E')
        s.reads(1, 0x08, '%X%X' % (turn, arc))
        s.reads(1, 0x17, '01')
        s.about('nothing is sent until MAX_RT is cleared')
        s('tick 1 1000', 'ok 1000')
        s('command 1 27 60', 'ok 1E')
        s('tick 1 20', 'ok 20')
        s('command 1 27 10', 'ok 1E')
    s.sends(1, 0, 1, a)
    s.answered(0, 1)
    s.accepted(1)
    s.takes(0, a)
    s.about('the next transaction follows at once, and its last sending is heard')
    ticks = 13
    for sending in range(arc):
        s.sends(1, 0, 2, b, ticks)
        s('carry 0', 'ok')
        ticks = wait
    s.sends(1, 0, 2, b, ticks)
    s.answered(0, 2)
    s.accepted(1)
    s.reads(1, 0x08, '2%X' % arc)
    s.takes(0, b)
    return s


def repeats(kit):
    s = Round(kit, 'repeats, and what is none.')
    a, b = bytes.fromhex('5A5B'), bytes.fromhex('5C5D')
    s.cell([2, 2], [0, 1], retr=0x00)
    s.about('heard, its answer lost, MAX_RT, resumed: answered and not taken')
    s.put(1, a)
    s.sends(1, 0, 1, a)
    s.answered(0, 1)
    s('carry 0', 'ok')
    s('tick 1 25', 'ok 25')
    s('command 1 27 10', 'ok 1E')
    s.takes(0, a)
    s('command 0 27 40', 'ok 4E')
    s.sends(1, 0, 1, a)
    s.answered(0, 1)
    s.status(0, '0E')
    s('irq 0', 'ok high')
    s.accepted(1)
    s.nothing_to_read()
    s.about('the other sender sends the same bytes with the same identity: another pipe, another memory')
    s.put(2, a)
    s.delivers(2, 1, 1, a)
    s.takes(1, a)
    s.about('equal bytes written twice are two payloads')
    s.put(1, a)
    s.delivers(1, 0, 2, a)
    s.put(1, a)
    s.delivers(1, 0, 3, a)
    s.takes(0, a)
    s.takes(0, a)
    s.about('a frame of the other pipe between does not make a repeat new')
    s.put(1, b)
    s.sends(1, 0, 0, b)
    s.answered(0, 0)
    s('carry 0', 'ok')
    s.put(2, b)
    s.delivers(2, 1, 2, b)
    s('tick 1 25', 'ok 25')
    s('command 1 27 10', 'ok 1E')
    s.sends(1, 0, 0, b)
    s.answered(0, 0)
    s.accepted(1)
    s.takes(0, b)
    s.takes(1, b)
    s.nothing_to_read()
    s.about('the same identity with another check, after three flushed writes: a new payload')
    for payload in (a, a, a):
        s('command 1 A0' + hexed(payload))
    s('command 1 E1')
    s.put(1, a)
    s.delivers(1, 0, 0, a)
    s.takes(0, a)
    return s


def same_check_other_identity(kit):
    s = Round(kit, 'the same check with another identity is a new payload.')
    a = bytes.fromhex('0102FF')
    b = same_check(kit, 0, 1, a, 2)
    s.cell([3], [0])
    s.put(1, a)
    s.put(1, b)
    s.sends(1, 0, 1, a)
    s.answered(0, 1)
    s('carry 1', 'ok')
    s.sends(1, 0, 2, b, 13)
    s.answered(0, 2)
    s.receiver_fifo('10')
    s('carry 1', 'ok')
    s.takes(0, a)
    s.takes(0, b)
    s.nothing_to_read()
    return s


def same_check(kit, pipe, pid, payload, other):
    """Another payload whose frame with the identity `other` has the check of this payload's with `pid`."""
    wanted = kit.frame(pipe, pid, payload)[-kit.w:]
    for n in range(1 << 20):
        found = n.to_bytes(len(payload), 'big')
        if found != payload and kit.frame(pipe, other, found)[-kit.w:] == wanted:
            return found


def mistaken(kit, between):
    s = Round(kit, 'sent and never taken: the identity comes again after three flushed writes; %s.' % between)
    a = bytes.fromhex('77889900')
    again = same_check(kit, 0, 1, a, 1) if between == 'another payload with the same check' else a
    s.cell([4], [0], retr=0x00)
    s.put(1, a)
    s.sends(1, 0, 1, a)
    s.answered(0, 1)
    s('carry 0', 'ok')
    s('command 1 E1', 'ok 0E')
    s.free(1)
    if between == 'read before':
        s.takes(0, a)
    if between == 'flushed before':
        s('command 0 E2', 'ok 40')
    if between == 'powered down between':
        s('ce 0 0', 'ok')
        s.config(0, 0, 'ok 40')
        s.config(0, 2, 'ok 40')
        s('ce 0 1', 'ok')
        s('tick 0 213', 'ok 213')
    for other in (b'\x01', b'\x02', b'\x03'):
        s.put(1, other)
    s.status(1, '0F')
    s('command 1 E1', 'ok 0F')
    s.put(1, again)
    before = s('command 0 17')
    s.sends(1, 0, 1, again)
    s.answered(0, 1)
    s('command 0 17', before)
    s('carry 1', 'ok')
    s.status(1, '2E')
    s('irq 1', 'ok low')
    s.reads(1, 0x17, '11')
    if between not in ('read before', 'flushed before'):
        s.takes(0, a)
    s.nothing_to_read()
    s.about('the next payload has another identity and is taken')
    s.put(1, again, '2E')
    s.sends(1, 0, 2, again)
    s.answered(0, 2)
    s('carry 1', 'ok')
    s.takes(0, again)
    s.nothing_to_read()
    return s


def flushed(kit):
    s = Round(kit, 'FLUSH_TX while the frame or its answer is on the air: no acknowledgement is accepted.')
    a, b = bytes.fromhex('E0E1'), bytes.fromhex('E2E3')
    s.cell([2, 2], [0, 1])
    s.put(1, a)
    s.sends(1, 0, 1, a)
    s.answered(0, 1)
    s('command 1 E1', 'ok 0E')
    s.free(1)
    s('carry 1', 'ok')
    s.status(1, '0E')
    s('irq 1', 'ok high')
    s.takes(0, a)
    s.about('flushed before the frame is heard; a payload written after it is not acknowledged by that answer')
    s.put(1, b)
    s.sends(1, 0, 2, b)
    s('command 1 E1', 'ok 0E')
    s.put(1, a)
    s.answered(0, 2)
    s('carry 2', 'ok')
    s.status(1, '0E')
    s.reads(1, 0x17, '01')
    s.takes(0, b)
    s.about('the payload written last is sent as ever')
    s.delivers(1, 0, 3, a)
    s.takes(0, a)
    s.about('flushed in Tuning')
    s.put(1, a)
    s('tick 1 13', 'ok 13')
    s.busy(1)
    s('command 1 E1', 'ok 0E')
    s.free(1)
    s('tick 1 100', 'ok 100')
    s.reads(1, 0x08, '00')
    s.about('flushed and CE low: Standby')
    s.put(1, a)
    s.sends(1, 0, 1, a)
    s('ce 1 0', 'ok')
    s('command 1 E1', 'ok 0E')
    s.answered(0, 1)
    s('carry 1', 'ok')
    s.status(1, '0E')
    s.put(1, b)
    s('tick 1 40', 'ok 40')
    s('ce 1 1', 'ok')
    s.takes(0, a)
    s.delivers(1, 0, 2, b)
    s.takes(0, b)
    return s


def lost_packets(kit):
    s = Round(kit, 'PLOS_CNT counts to 15 and stays there.')
    a = bytes.fromhex('B7')
    s.cell([1], [0], retr=0x00)
    s.put(1, a)
    for turn in range(1, 18):
        s.sends(1, 0, 1, a)
        s('carry 0', 'ok')
        s('tick 1 25', 'ok 25')
        s('command 1 27 10', 'ok 1E')
        s('command 1 08', 'ok 0E %X0' % min(turn, 15))
    s.delivers(1, 0, 1, a)
    s.reads(1, 0x08, 'F0')
    return s


def deaf(kit):
    s = Round(kit, 'a receiver that no longer listens when the frame is carried, and a sender that no longer waits.')
    a = bytes.fromhex('6061')
    s.cell([2, 2], [0, 1])
    s.put(1, a)
    s.sends(1, 0, 1, a)
    s('ce 0 0', 'ok')
    s('carry 1', 'ok')
    s.receiver_fifo('11')
    s('ce 0 1', 'ok')
    s.sends(1, 0, 1, a, 25)
    s('ce 0 0', 'ok')
    s.config(0, 0)
    s('carry 2', 'ok')
    s.sends(1, 0, 1, a, 25)
    s.config(0, 2)
    s('carry 3 0 8000', 'ok')
    s.about('it is in RX again only after Starting and Tuning')
    s('ce 0 1', 'ok')
    s('tick 1 25', 'ok 25')
    s('command 1 27 10', 'ok 1E')
    s('tick 0 212', 'ok 212')
    s.sends(1, 0, 1, a)
    s('carry 1', 'ok')
    s('tick 0', 'ok 1')
    s.sends(1, 0, 1, a, 25)
    s.answered(0, 1)
    s.about('CE of the sender goes low and high again while the answer is on the air: it waits all the same')
    s('ce 1 0', 'ok')
    s('ce 1 1', 'ok')
    s.accepted(1)
    s.takes(0, a)
    s.about('an answer on the air does not keep the receiver from being switched off')
    s.put(2, a)
    s.sends(2, 1, 1, a)
    s.answered(1, 1)
    s('ce 0 0', 'ok')
    s.config(0, 0, 'ok 42')
    s.takes(1, a)
    s('command 0 27 70', 'ok 4E')
    s('ce 2 0', 'ok')
    s.accepted(2)
    s.free(2)
    return s


# --- modes ---

def last_ticks(kit):
    s = Round(kit, 'each change of mode at its last tick, and not one before.')
    a, b = bytes.fromhex('1011'), bytes.fromhex('1213')
    s.boxed(0, kit.receiver([2, 2]))
    s.boxed(1, kit.sender(0, retr=0x21))
    s.boxed(2, kit.sender(1, retr=0x10))
    s('make', 'ok')
    s.about('a receiver: Starting, with CE high Tuning, RX')
    s.config(0, 2)
    s('ce 0 1', 'ok')
    s('tick 0 199', 'ok 199')
    s.free(0)
    s('tick 0', 'ok 1')
    s.busy(0)
    s.about('a sender: Starting, with CE high Idle-TX; the tick that starts; Tuning; Waiting')
    s.put(1, a)
    s.config(1, 2)
    s('ce 1 1', 'ok')
    s('tick 1 199', 'ok 199')
    s.config(1, 0)
    s.about('powered down in Starting, and from the beginning again')
    s('tick 1 300', 'ok 300')
    s.config(1, 2)
    s('tick 1 200', 'ok 200')
    s.free(1)
    s('tick 1', 'ok 1')
    s.busy(1)
    s('tick 1 12', 'ok 12')
    s.sends(1, 0, 1, a, 1)
    s.about('the receiver after 12 ticks of Tuning hears nothing, after 13 it does')
    s('ce 1 0', 'ok')
    s('ce 1 1', 'ok')
    s('carry 1', 'ok')
    s('tick 0 12', 'ok 12')
    s.sends(1, 0, 1, a, 75)
    s('carry 1', 'ok')
    s('tick 1 74', 'ok 74')
    s.busy(1)
    s.status(1, '0E')
    s('tick 1', 'ok 1')
    s.status(1, '1E')
    s.free(1, '1E')
    s('command 1 27 10', 'ok 1E')
    s.sends(1, 0, 1, a)
    s('carry 1', 'ok')
    s('tick 0', 'ok 1')
    s.sends(1, 0, 1, a, 75)
    s.answered(0, 1)
    s.about('an answer that comes after the last tick of Waiting is not possible: the air holds it')
    s('tick 1', 'refused cell 1 15')
    s.accepted(1)
    s.takes(0, a)
    s.about('CE low at a receiver: it hears nothing, and Tuning starts anew')
    s.put(1, b)
    s('ce 0 0', 'ok')
    s.free(0, '4E')
    s.sends(1, 0, 2, b)
    s('carry 1', 'ok')
    s('ce 0 1', 'ok')
    s('tick 0 12', 'ok 12')
    s('ce 0 0', 'ok')
    s('ce 0 1', 'ok')
    s('tick 0 12', 'ok 12')
    s.sends(1, 0, 2, b, 75)
    s('carry 1', 'ok')
    s('tick 0', 'ok 1')
    s('ce 0 1', 'ok')
    s.about('CE low at a sender in Tuning and Waiting: the transaction goes on and ends in Standby')
    s.put(2, a)
    s.config(2, 2)
    s('tick 2 199', 'ok 199')
    s('ce 2 1', 'ok')
    s.free(2)
    s('ce 2 0', 'ok')
    s('tick 2', 'ok 1')
    s('tick 2 100', 'ok 100')
    s('ce 2 1', 'ok')
    s('tick 2', 'ok 1')
    s('ce 2 0', 'ok')
    s.busy(2)
    s.sends(2, 1, 1, a, 13)
    s.answered(1, 1)
    s.put(2, b)
    s.accepted(2)
    s.free(2)
    s('tick 2 100', 'ok 100')
    s('ce 2 1', 'ok')
    s.sends(2, 1, 2, b)
    s.answered(1, 2)
    s('carry 0', 'ok')
    s('ce 2 0', 'ok')
    s('tick 2 49', 'ok 49')
    s.busy(2)
    s('tick 2', 'ok 1')
    s.free(2, '1E')
    s.about('powered down in Standby; payload, flag and counters stay')
    s.config(2, 0, 'ok 1E')
    s('ce 2 1', 'ok')
    s('tick 2 250', 'ok 250')
    s.reads(2, 0x08, '10')
    s.reads(2, 0x17, '01')
    s('command 2 27 70', 'ok 1E')
    s.config(2, 2)
    s.sends(2, 1, 2, b, 214)
    s.answered(1, 2)
    s.accepted(2)
    s.takes(1, a, 0x40)
    s.takes(1, b, 0x40)
    s.nothing_to_read()
    return s


def interrupts(kit):
    s = Round(kit, 'the IRQ pins of a cell under masks.')
    a = bytes.fromhex('2021')
    s.boxed(0, kit.receiver([2], _00=kit.config | 0x41))
    s.boxed(1, kit.sender(0, retr=0x00, _00=kit.config | 0x20))
    s('make', 'ok')
    s('command 0 20 %02X' % (kit.config | 0x43), 'ok 0E')
    s('command 1 20 %02X' % (kit.config | 0x22), 'ok 0E')
    s.all('ok', 'ce 0 1', 'ce 1 1')
    s('tick 0 213', 'ok 213')
    s('tick 1 200', 'ok 200')
    s.put(1, a)
    s.sends(1, 0, 1, a)
    s.answered(0, 1)
    s('carry 1', 'ok')
    s.status(0, '40')
    s.status(1, '2E')
    s.all('ok high', 'irq 0', 'irq 1')
    s('ce 0 0', 'ok')
    s('command 0 20 %02X' % (kit.config | 0x33), 'ok 40')
    s('command 1 20 %02X' % (kit.config | 0x52), 'ok 2E')
    s.all('ok low', 'irq 0', 'irq 1')
    s.put(1, a, '2E')
    s.sends(1, 0, 2, a)
    s('carry 1', 'ok')
    s('tick 1 25', 'ok 25')
    s.status(1, '3E')
    s('irq 1', 'ok low')
    s('command 1 27 20', 'ok 3E')
    s('irq 1', 'ok high')
    s('command 1 20 %02X' % (kit.config | 0x62), 'ok 1E')
    s('irq 1', 'ok low')
    s('command 1 27 10', 'ok 1E')
    s('irq 1', 'ok high')
    s.takes(0, a)
    s('irq 0', 'ok low')
    s('command 0 27 40', 'ok 4E')
    s('irq 0', 'ok high')
    return s


# --- units that are in no cell ---

def boxed_units(kit):
    s = Round(kit, 'boxed units by themselves.')
    a = bytes.fromhex('3031')
    s.all('cannot', 'ce 0 1', 'irq 0', 'tick 0', 'hear 0 0', 'command 0 FF', 'carry 1', 'carry 3 0 8000')
    s('bench 0', 'ok')
    s.all('cannot', 'ce 0 1', 'irq 0', 'tick 0', 'hear 0 0', 'carry 0')
    s('command 0 FF', 'ok 0E')
    s.boxed(3, kit.receiver([2]))
    s.boxed(6, kit.sender(0, 0x01))
    s.all('cannot', 'load 3', 'check 3', 'box 3', 'ce 8 1', 'tick 8', 'command 8 FF', 'irq 8', 'hear 8 0', 'ce 255 1', 'command 255 FF')
    s.all('cannot', 'ce 3', 'ce 3 2', 'ce 3 1 1', 'tick', 'tick 3 0', 'tick 3 65536', 'tick 3 1 1', 'hear 3', 'hear 3 65536',
          'hear 3 8 A', 'hear 3 -1', 'make 0', 'irq', 'irq 3 3')
    s('make', 'refused cell 0 13')
    s('command 3 20 %02X' % (kit.config | 3), 'ok 0E')
    s('command 6 20 %02X' % (kit.config | 2), 'ok 0E')
    s.all('ok', 'ce 3 1', 'ce 6 1')
    s('tick 3 212', 'ok 212')
    s('tick 6 200', 'ok 200')
    s.put(6, a)
    sent, ack = kit.frame(0, 1, a), kit.frame(0, 1)
    s('tick 6 65535', 'ok 14' + framed(sent))
    hear = lambda unit, bits, count=None, more='': 'hear %d %d%s' % (unit, len(bits) if count is None else count, hexed(bytes_of(bits)) + more)
    s.about('not in RX yet, then in RX; spare bits and bytes behind are not looked at')
    s(hear(3, sent), 'ok')
    s('tick 3 65535', 'ok 65535')
    s(hear(3, sent, 8 * len(bytes_of(sent)) + 1), 'refused 18')
    s('hear 3 1', 'refused 18')
    s('hear 3 65535 00', 'refused 18')
    s('hear 3 0', 'ok')
    s(hear(3, sent, len(sent) - 1), 'ok')
    s(hear(3, sent + '0'), 'ok')
    s('command 3 17', 'ok 0E 11')
    s(hear(3, sent, None, ' FF'), 'ok' + framed(ack))
    s('irq 3', 'ok low')
    s(hear(3, sent), 'ok' + framed(ack))
    s('command 3 61', 'ok' + hexed(b'\x40' + a))
    s('command 3 61', 'refused 5')
    silent = kit.frame(0, 2, a, 1)
    s.about('NO_ACK: taken and not answered, also as a repeat')
    s(hear(3, silent), 'ok')
    s(hear(3, silent), 'ok')
    s('command 3 61', 'ok' + hexed(b'\x40' + a))
    s('command 3 61', 'refused 5')
    s.about('the sender takes any empty frame to its address')
    s(hear(6, sent), 'ok')
    s(hear(6, kit.frame(1, 1)), 'ok')
    s('command 6 FF', 'ok 0E')
    s(hear(6, kit.frame(0, 3, b'', 1)), 'ok')
    s('command 6 FF', 'ok 2E')
    s('irq 6', 'ok low')
    s('command 6 27 20', 'ok 2E')
    s.about('ARC 1: sent twice, then MAX_RT')
    s.put(6, a)
    sent = kit.frame(0, 2, a)
    s('tick 6 14', 'ok 14' + framed(sent))
    s('tick 6 24', 'ok 24')
    s('tick 6 26', 'ok 1' + framed(sent))
    s('tick 6 65535', 'ok 65535')
    s('command 6 FF', 'ok 1E')
    s('command 6 08', 'ok 1E 11')
    s.about('refusals of a unit')
    s('command 6', 'refused 1')
    s('command 6 18', 'refused 2')
    s('command 3 A0 01', 'refused 3')
    s('command 6 61', 'refused 3')
    s('command 6 A0', 'refused 4')
    s('command 3 /0 FF', 'refused 6')
    s('command 3 25 01', 'refused 7')
    s('command 3 20 %02X' % (kit.config | 3), 'refused 8')
    s('command 3 27 01', 'refused 9 07')
    s('command 6 A0 01', 'ok 1E')
    s('command 6 A0 01', 'ok 1E')
    s('command 6 A0 01', 'refused 10')
    return s


def boxed_with_fault(kit):
    s = Round(kit, 'units boxed with a fault refuse each call, and their IRQ pin can be seen.')
    s.all('ok', 'bench 0', 'load 0%s' % profile(kit.receiver([2, 0, 4])))
    s('check 0', 'refused 12 12')
    s('box 0', 'ok')
    s.all('ok', 'bench 1', 'load 1%s' % profile(kit.sender(0, _00=kit.config | 2)))
    s('check 1', 'refused 12 00')
    s('box 1', 'ok')
    for unit, register in ((0, '12'), (1, '00')):
        s.all('refused 12 ' + register, *(line % unit for line in (
            'command %d', 'command %d FF', 'command %d 18', 'command %d /0 FF', 'command %d 27 70', 'ce %d 1', 'ce %d 0', 'tick %d',
            'tick %d 65535', 'hear %d 0', 'hear %d 9 AA', 'hear %d 8 AA')))
        s('irq %d' % unit, 'ok high')
    s('make', 'refused cell 0 13')
    s('bench 0', 'ok')
    s('command 0 FF', 'ok 0E')
    return s


# --- random scripts ---

ODD_WORDS = ('0', '1', '5', '7', '8', '9', '255', '256', '65535', '65536', '99999999999999999999', 'FF', 'ff', 'e1', 'E1', '61', '27', '8000', '80000',
             '800', 'G0', '0x1', '/0', '/33', '/255', '/256', '/', '//1', '00', '000', '012', '-1', '1.', 'ok', 'crc8', 'make', 'Make', 'carry', '\x0b',
             'E7E7E7', 'e7E7e7E7')


def bent(r, lines):
    """One of the last lines with a word left out, put in, or changed"""
    words = r.choice(lines[-40:])[0].split('#')[0].split() or ['tick']
    at = r.randrange(len(words))
    how = r.randrange(5)
    if how == 0:
        del words[at]
    elif how == 1:
        words.insert(at, r.choice(ODD_WORDS))
    elif how == 2:
        words.append(r.choice(ODD_WORDS))
    elif how == 3:
        words[at] = r.choice(ODD_WORDS)
    else:
        words[at] += r.choice('0x9 f')
    return r.choice((' ', '\t', '  ')).join(words) + r.choice(('', '', ' ', '\r'))

class Wander:
    """A script of calls chosen by chance, so that frames do get sent and heard."""

    def __init__(self, seed, lines):
        self.r = random.Random(seed)
        r = self.r
        self.kit = Kit(r.choice((8, 16)), r.choice((3, 4, 5)))
        self.s = Round(self.kit, 'random calls, seed %s.' % seed)
        self.lines = lines
        self.cell = None

    def run(self):
        self.build()
        while len(self.s.lines) < self.lines:
            self.turn()
        return self.s

    def chance(self, p):
        return self.r.random() < p

    def build(self):
        """The units of a cell, most of the time sound, and the cell"""
        r, kit, s = self.r, self.kit, self.s
        senders = r.choice((1, 2, 2, 3, 6))
        self.pipes = r.sample(range(6), senders)
        self.lengths = [r.choice((1, 2, 3, 4, 8, 32)) if pipe in self.pipes or self.chance(0.5) else None for pipe in range(6)]
        shared = {RF_CH: r.randrange(0x7E), RF_SETUP: r.choice((0x06, 0x0E, 0x26))}
        masks = r.choice((0, 0, 0x10, 0x20, 0x40, 0x70))
        made = [kit.receiver(self.lengths, _00=kit.config | 1 | masks)]
        made += [kit.sender(pipe, r.choice((0x00, 0x01, 0x01, 0x02, 0x03, 0x11, 0x2F)), _00=kit.config | masks) for pipe in self.pipes]
        for unit, settings in enumerate(made):
            if self.chance(0.04):
                settings = {**settings, r.choice((CONFIG, EN_AA, EN_RXADDR, SETUP_AW, RX_PW_P0, RF_CH)): r.choice((0, 1, 3, 0x0B))}
                if settings[SETUP_AW] == 0:
                    settings[SETUP_AW] = 1
                if settings[EN_RXADDR if EN_RXADDR in settings else SETUP_AW] == 0:
                    settings[EN_RXADDR] = 2
            s('bench %d' % unit)
            s('load %d%s' % (unit, profile({**shared, **settings})))
            if self.chance(0.3):
                s('check %d' % unit)
            s('box %d' % unit)
            if self.chance(0.1):
                self.stray(unit)
        s('make')
        self.cell = s.console.cell
        if self.cell is None:
            s.about('no cell: the units by themselves, and then the cell with new units')
            for _ in range(12):
                self.stray(r.randrange(senders + 1))
            for unit, settings in enumerate(made):
                s.boxed(unit, {**settings, **shared})
            s('make', 'ok')
            self.cell = s.console.cell
        for unit in range(len(self.cell.units)):
            if self.chance(0.9):
                s('command %d 20 %02X' % (unit, self.kit.config | (unit == 0) | 2 | masks))
                if self.chance(0.9):
                    s('tick %d 200' % unit)
                s('ce %d 1' % unit)
        s('tick 0 13')

    def stray(self, unit):
        """A call on a unit that is in no cell"""
        r, s = self.r, self.s
        held = s.console.units[unit]
        pipe = r.choice(self.pipes)
        frame = self.kit.frame(pipe, r.randrange(4), bytes(self.lengths[pipe]) if unit == 0 else b'', self.chance(0.2))
        lines = ['ce %d %d' % (unit, self.chance(0.7)), 'tick %d %d' % (unit, r.choice((1, 13, 14, 25, 200))), 'irq %d' % unit,
                 'hear %d %d%s' % (unit, len(frame), hexed(bytes_of(frame))), 'hear %d %d%s' % (unit, r.randrange(80), hexed(r.randbytes(9))),
                 'command %d 20 %02X' % (unit, held.registers.byte(CONFIG) | 2), 'command %d 61' % unit,
                 'command %d A0%s' % (unit, hexed(bytes(self.lengths[pipe]))), 'command %d E1' % unit, 'command %d 27 70' % unit]
        s(r.choice(lines))

    def turn(self):
        r, s = self.r, self.s
        units = self.cell.units
        if self.chance(0.03):
            return self.junk()
        if self.cell.air and self.chance(0.8):
            return self.carry()
        unit = r.randrange(1, len(units)) if self.chance(0.8) else 0
        held = units[unit]
        roll = r.random()
        if unit == 0:
            if roll < 0.45 and held.received:
                s('command 0%s 61' % r.choice(('', '', '', '', ' /%d' % r.randrange(34))))
            elif roll < 0.5:
                s('command 0 61')
            elif roll < 0.6:
                s('command 0 %02X' % r.choice((0x07, 0x08, 0x17, 0xFF)))
            elif roll < 0.7:
                s('command 0 27 %02X' % r.choice((0x70, 0x40, 0x00)))
            elif roll < 0.75:
                s('irq 0')
            elif roll < 0.78:
                s('command 0 E2')
            elif held.mode in ('Standby', 'Shutdown', 'Starting'):
                s(r.choice(('ce 0 1', 'command 0 20 %02X' % (held.registers.byte(CONFIG) | 2), 'tick 0 %d' % r.choice((1, 12, 13, 199, 200, 213)))))
            elif roll < 0.82:
                s('ce 0 %d' % self.chance(0.5))
            elif held.mode == 'Tuning' or roll < 0.9:
                s('tick 0 %d' % r.choice((1, 12, 13, 13)))
            else:
                self.config(0)
            return
        if roll < (0.3, 0.15, 0.1, 0.03)[len(held.outgoing)]:
            self.put(unit)
        elif roll < 0.65:
            if held.left and self.chance(0.9):
                s('tick %d %d' % (unit, held.left + r.choice((-1, 0, 0, 0, 0, 1)) or 1))
            elif held.mode == 'Idle-TX' and self.chance(0.9):
                s('tick %d %d' % (unit, r.choice((14, 14, 14, 13, 1, 40))))
            else:
                s('tick %d %d' % (unit, r.choice((1, 2, 24, 300, 1000))))
        elif roll < 0.7:
            s('command %d %02X' % (unit, r.choice((0x07, 0x08, 0x17, 0x00, 0xFF, 0x10, 0x04))))
        elif roll < 0.78:
            s('command %d 27 %02X' % (unit, r.choice((0x70, 0x70, 0x20, 0x10, 0x00))))
        elif roll < 0.83:
            s('irq %d' % unit)
        elif roll < 0.86:
            s('command %d E1' % unit)
        elif roll < 0.91 or held.mode == 'Standby':
            s('ce %d %d' % (unit, self.chance(0.7)))
        elif held.mode in ('Shutdown', 'Starting') or roll < 0.97:
            self.config(unit)
        elif held.mode == 'Idle-TX' and not held.outgoing and not self.cell.air:
            self.again(unit)

    def config(self, unit):
        now = self.cell.units[unit].registers.byte(CONFIG)
        power = 2 if self.chance(0.75) else 0
        self.s('command %d 20 %02X' % (unit, now & 0x0D | power | self.r.choice((now & 0x70, now & 0x70, 0x00, 0x20, 0x70, 0x80))))

    def put(self, unit):
        length = self.lengths[self.pipes[unit - 1]]
        if self.chance(0.04):
            length = self.r.choice((0, 1, 2, 32, 33))
        payload = bytes(length) if self.chance(0.3) else self.r.randbytes(length)
        self.s('command %d A0%s' % (unit, hexed(payload)))

    def again(self, unit):
        """Three writes that are flushed, before and after one payload: its identity and check come again"""
        payload = bytes(self.lengths[self.pipes[unit - 1]])
        lines = ['command %d A0%s' % (unit, hexed(payload)), 'tick %d 14' % unit, 'carry 1', 'carry 0', 'command %d E1' % unit]
        lines += ['command %d A0 %02X' % (unit, n) for n in range(3)] + ['command %d E1' % unit] + lines[:3] + ['carry 1', 'command %d FF' % unit]
        for line in lines:
            self.s(line)

    def carry(self):
        r, s = self.r, self.s
        bits, _ = self.cell.air
        roll = r.random()
        if roll < 0.55:
            s('carry 1')
        elif roll < 0.7:
            s('carry 0')
        elif roll < 0.82:
            s('carry 2')
        elif roll < 0.97:
            start = r.choice((r.randrange(9), r.randrange(len(bits)), len(bits) - r.randrange(1, 18), len(bits) - r.randrange(1, 18)))
            pattern = r.choice((0x8000, r.randrange(0x10000), r.randrange(0x100) << 8, 1 << r.randrange(16), 0xFF00))
            s('carry 3 %d %04X' % (max(start, 0), pattern))
        else:
            s(r.choice(('carry 4', 'carry 255', 'carry 3', 'carry 3 65535 FFFF', 'carry 2 1', 'carry 1 9 0000')))

    def junk(self):
        """A line that is refused, cannot be carried out, or is for something else"""
        r, s = self.r, self.s
        if self.chance(0.5):
            return s(bent(r, s.lines))
        unit = r.choice((0, 1, len(self.cell.units) - 1, len(self.cell.units), 7, 255, 256))
        s(r.choice(('command %d' % unit, 'command %d %02X' % (unit, r.randrange(256)), 'command %d%s' % (unit, hexed(r.randbytes(r.choice((2, 2, 6))))),
                    'command %d /0 FF' % unit, 'ce %d 1' % unit, 'ce %d' % unit, 'tick %d' % unit, 'tick %d 0' % unit, 'irq %d' % unit, 'carry 1',
                    'carry 9', 'carry', 'make', 'bench 1', 'box 0', 'check 0', 'load 1', 'hear 0 0', 'field 05 00 00 00 30 2F 4C', 'nothing',
                    'pack %s %d 0 01' % (self.kit.address(1).hex(), r.randrange(4)), 'read 3 0', 'command %d 5' % unit, '')))


class Tinker:
    """Random lines for frames, profiles, and units that are in no cell."""

    def __init__(self, seed, lines):
        self.r = random.Random(seed)
        self.kit = Kit(self.r.choice((8, 16)), self.r.choice((3, 4, 5)))
        self.s = Round(self.kit, 'random lines without a cell, seed %s.' % seed)
        self.lines = lines
        self.heard = ['']

    def chance(self, p):
        return self.r.random() < p

    def run(self):
        while len(self.s.lines) < self.lines:
            self.turn(self.r.randrange(8) if self.chance(0.1) else self.r.randrange(3))
        return self.s

    def settings(self, receiver):
        """A sound profile, or one that is nearly so"""
        r, kit = self.r, self.kit
        settings = kit.receiver([r.choice((None, 1, 2, 32)) for _ in range(6)]) if receiver else kit.sender(r.randrange(6), r.choice((0, 1, 0x12)))
        for _ in range(r.choice((0, 0, 0, 1, 2))):
            register = r.choice((CONFIG, EN_AA, EN_RXADDR, SETUP_AW, RF_CH, RF_SETUP, RX_ADDR_P0, RX_ADDR_P1, 0x0C, 0x0F, TX_ADDR, RX_PW_P0, 0x14))
            settings[register] = r.randbytes(5) if register in (RX_ADDR_P0, RX_ADDR_P1, TX_ADDR) else r.choice((r.randrange(256), 0, 1, 3, 0x0D, 0x3F, 0x20))
        return settings

    def profile(self):
        """The bytes of a profile, now and then with something wrong"""
        r = self.r
        data = bytearray.fromhex(profile(self.settings(self.chance(0.5))))
        if self.chance(0.2):
            data[r.randrange(4)] ^= 1 << r.randrange(8)
        if self.chance(0.1):
            data = data[:r.randrange(len(data))]
        if self.chance(0.1):
            data += r.randbytes(r.randrange(1, 6))
        return data

    def frame(self, unit):
        """The bits of a frame that a unit may hear, now and then with something wrong"""
        r, kit = self.r, self.kit
        held = self.s.console.units[unit]
        length = r.choice((0, 1, 2, 3, 32)) if held is None or not held.registers.receiver or self.chance(0.1) else held.registers.byte(RX_PW_P0 + r.randrange(6))
        pipe = r.choice(range(6)) if held is None or self.chance(0.2) or not held.registers.pipes else r.choice(held.registers.pipes)
        if held is not None and not held.registers.receiver:
            length, pipe = r.choice((0, 0, 0, 1)), 0
        address = kit.address(pipe) if held is None or self.chance(0.1) else held.registers.address(pipe)
        payload = bytes([r.randrange(2)] * length) if self.chance(0.5) else r.randbytes(length)
        bits = packed(kit.w, address, r.randrange(4), r.random() < 0.1, payload[:32])
        if self.chance(0.1):
            bits = changed(bits, r.randrange(len(bits)), r.choice((0x8000, r.randrange(1, 0x10000))))
        if self.chance(0.05):
            bits = r.choice((bits[:-1], bits + '0', bits[:r.randrange(len(bits))]))
        return bits

    def turn(self, unit):
        r, s, kit = self.r, self.s, self.kit
        if self.chance(0.04):
            return s(bent(r, s.lines))
        held = s.console.units[unit]
        roll = r.random()
        if roll < 0.06 or held is None and self.chance(0.7):
            receiver = self.chance(0.5)
            s('bench %d' % unit)
            s('load %d%s' % (unit, profile(self.settings(receiver))))
            s(r.choice(('check %d', 'box %d', 'box %d', 'box %d')) % unit)
            if s.console.units[unit].boxed and self.chance(0.8):
                s('command %d 20 %02X' % (unit, kit.config | receiver | 2))
                s('ce %d 1' % unit)
                s('tick %d 213' % unit)
        elif roll < 0.12:
            bits = self.frame(unit)
            s('read %d %d%s' % (kit.width if self.chance(0.9) else r.choice((2, 3, 4, 5, 6)), len(bits) + r.choice((0, 0, 0, 0, 1, 8)), hexed(bytes_of(bits))))
        elif roll < 0.17:
            payload = r.randbytes(r.choice((0, 1, 4, 32, 33)))
            s('pack %s %d %d%s' % (r.randbytes(r.choice((3, 4, 5, 5, 5, 2, 6))).hex(), r.randrange(5), r.choice((0, 0, 0, 1, 1, 2)), hexed(payload)))
        elif roll < 0.22:
            s('field %02X%s' % (r.choice((0, 4, 5, 0x0A, 0x10, 0x11, r.randrange(256))), hexed(self.profile())))
        elif roll < 0.25:
            s(r.choice(('check %d', 'box %d', 'irq %d', 'load %d', 'tick %d', 'carry %d', 'ce %d 1')) % unit)
        elif held is None or not held.boxed:
            if self.chance(0.3):
                s('load %d%s' % (unit, hexed(self.profile())))
            else:
                self.command(unit, r.choice((r.randrange(0x18), 0x20 + r.randrange(0x18), 0x20 + r.randrange(0x18), 0x20 + r.randrange(0x18), 0xFF, r.randrange(256))))
        elif roll < 0.5:
            self.command(unit, r.choice((0xA0, 0xA0, 0xA0, 0x61, 0x61, 0x61, 0x27, 0x27, 0xE1, 0xE2, 0xFF, 0x07, 0x08, 0x17, 0x20, r.randrange(256))))
        elif roll < 0.75:
            bits = self.frame(unit)
            if self.chance(0.3):
                bits = r.choice(self.heard)
            self.heard = self.heard[-5:] + [bits]
            s('hear %d %d%s' % (unit, len(bits) + r.choice((0, 0, 0, 0, 0, 0, 1, 8)), hexed(bytes_of(bits))))
        elif roll < 0.93:
            left = held.left or 14
            s('tick %d %d' % (unit, r.choice((1, left, left, left, left - 1 or 1, left + 1, 14, 300, 3000))))
        else:
            s(r.choice(('ce %d 0', 'ce %d 1', 'ce %d 1', 'irq %d')) % unit)

    def command(self, unit, first):
        r = self.r
        size = len(RESET[first - 0x20]) if 0x20 <= first < 0x38 else r.choice((1, 2, 32)) if first == 0xA0 else 0
        if self.chance(0.05):
            size = r.choice((0, 1, 5, 33))
        data = r.randbytes(size)
        if size == 1 and first != 0xA0:
            held = self.s.console.units[unit]
            data = bytes([r.choice((r.randrange(256), 0, 1, 3, 0x70, 0x20))])
            if first == 0x20 and held is not None and self.chance(0.9):
                data = bytes([held.registers.byte(CONFIG) & 0x0D | r.choice((0, 2, 2, 2, 0x72, 0x42))])
        room = ' /%d' % r.randrange(36) if self.chance(0.08) else ''
        self.s('command %d%s %02X%s' % (unit, room, first, hexed(data)))


def wander(seed, lines=250):
    """A random script: with a cell, or, where the seed ends with 3 or 7, without"""
    return (Tinker if seed[-1] in '37' else Wander)(seed, lines).run()


# --- the table ---

SMALL, LARGE = Kit(8, 3), Kit(16, 5)
KITS = [Kit(w, width) for w in (8, 16) for width in (3, 4, 5)]


def cases():
    """The name of each list of scripts, and the scripts."""
    both = lambda case, *more: [case(kit, *more) for kit in (SMALL, LARGE)]
    yield 'SENDINGS', 'The fates of a sending, for each kind of check and each address width.', [fates_of_sendings(kit) for kit in KITS]
    yield 'ANSWERS', 'The fates of an answer.', [fates_of_answers(kit) for kit in KITS]
    yield 'MAKING', 'Making a cell.', (both(making) + [making_rates(SMALL)] + both(making_too_many) + both(making_used) + both(making_other_masks))
    yield 'REFUSALS', 'Refusals of a cell, and of its units.', both(refusals_of_cell) + both(refusals_through_cell)
    yield 'SENDERS', 'One to six senders.', ([each_on_its_pipe(KITS[n - 1], n) for n in range(1, 7)] + both(wrong_length))
    yield 'QUEUES', 'Full queues, repeats, and an identity that comes again.', (
        both(full_queue) + both(repeats) + both(same_check_other_identity) + [mistaken(kit, how) for kit, how in zip(
            (SMALL, LARGE, KITS[1], KITS[4], SMALL, LARGE), ('not read', 'read before', 'flushed before', 'powered down between',
                                                             'another payload with the same check', 'another payload with the same check'))])
    yield 'TRANSACTIONS', 'Giving up, and FLUSH_TX.', (
        [giving_up(SMALL, 0, 0), giving_up(LARGE, 0, 3), giving_up(KITS[4], 2, 1), giving_up(KITS[2], 15, 15)] + both(flushed) + both(deaf) + [lost_packets(LARGE)])
    yield 'MODES', 'Times, the level of CE, power and interrupts in a cell.', both(last_ticks) + both(interrupts)
    yield 'BOXED', 'Boxed units that are in no cell.', both(boxed_units) + both(boxed_with_fault)
    yield 'WANDERING', 'Random calls.', [wander('%d-%d' % (SEED, n)) for n in range(KEPT)]


HEAD = '''// Made by generate.py beside src/: scripts of the console. Behind `#=` in a line stands the result that a model of its own gives.
'''


def text_of(script):
    return ''.join('%s%s\n' % (line, '' if result is None else '  #= ' + result) for line, result in script.lines)


def literal(text):
    return text.replace('\t', '\\t').replace('\r', '\\r').replace('\x0b', '\\x0B')


def write_table(path):
    with open(path, 'w') as out:
        print(HEAD, file=out, end='')
        for name, about, scripts in cases():
            print('\n// %s\npub static %s: [&str; %d] = [' % (about, name, len(scripts)), file=out)
            for script in scripts:
                print('    "%s",' % literal(text_of(script)), file=out)
            print('];', file=out)


def write_round(path):
    console, number = Console(), 0
    with open(path, 'w') as out, open(os.path.join(HERE, '../sinkapricot/data/round.txt')) as script:
        for number, line in enumerate(script, 1):
            result = console.line(line.rstrip('\n'))
            if result is not None:
                print('%d: %s' % (number, result), file=out)


if __name__ == '__main__':
    print('random scripts with seed', SEED)
    write_table(os.path.join(HERE, 'src/table.rt'))
    if os.path.exists(os.path.join(HERE, '../sinkapricot/data/round.txt')):
        write_round(os.path.join(HERE, 'round-results.txt'))
