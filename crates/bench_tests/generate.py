#!/usr/bin/env python3
"""Writes src/table.rt: calls on a bench unit and what each must answer, reckoned by a model that is not our engine.

The model is written from the documents of the registers, the commands, the profiles and the bench. A call's refusals are
listed in order, all that apply, and the first is the answer; a row that is to show the order also says which later refusals
it meets, and that is compared with the list. Usage: python3 generate.py > src/table.rt, and then rt fmt.
"""

WIDE = (0x0A, 0x0B, 0x10)
READ_ONLY = (0x08, 0x09, 0x17)
STATUS = 0x0E
REST = {0x07: STATUS, 0x08: 0x00, 0x09: 0x00, 0x17: 0x11}
NAMEABLE = [*range(0x00, 0x07), *range(0x0A, 0x17)]
WRITABLE = [a for a in range(24) if a not in READ_ONLY]


def size(a):
    return 5 if a in WIDE else 1


def reset():
    one = {0x00: 0x08, 0x01: 0x3F, 0x02: 0x03, 0x03: 0x03, 0x04: 0x03, 0x05: 0x02, 0x06: 0x0E,
           0x0A: 0xE7, 0x0B: 0xC2, 0x0C: 0xC3, 0x0D: 0xC4, 0x0E: 0xC5, 0x0F: 0xC6, 0x10: 0xE7, **REST}
    return {a: bytes([one.get(a, 0x00)] * size(a)) for a in range(24)}


def bit(x, n):
    return x >> n & 1


def takes(a, v):
    """whether the writable one-byte register a takes v"""
    if a == 0x00:
        return not bit(v, 7)
    if a in (0x01, 0x02):
        return not bit(v, 7) and not bit(v, 6)
    if a == 0x03:
        return v in (0x01, 0x02, 0x03)
    if a == 0x05:
        return v <= 0x7D
    if a == 0x06:
        return not bit(v, 7) and not bit(v, 6) and not bit(v, 4) and not (bit(v, 5) and bit(v, 3))
    if a == 0x07:
        return all(n in (6, 5, 4) for n in range(8) if bit(v, n))
    if 0x11 <= a <= 0x16:
        return v <= 0x20
    return True


def allowed(a, value):
    return size(a) == 5 or takes(a, value[0])


# ---- host commands

def command_refusals(data, room):
    """all refusals that apply, in order"""
    if not data:
        return [(1,)] + [(6,)] * (room < 1)
    first, rest = data[0], data[1:]
    reads, writes = first <= 0x17, 0x20 <= first <= 0x37
    known = reads or writes or first in (0xA0, 0x61, 0xE1, 0xE2, 0xFF)
    a = first & 0x1F
    found = []
    if not known:
        found.append((2,))
    if first in (0xA0, 0x61, 0xE1, 0xE2):
        found.append((3,))
    wanted = range(1, 33) if first == 0xA0 else (size(a),) if writes else (0,)
    if len(rest) not in wanted:
        found.append((4,))
    if first == 0x61:
        found.append((5,))
    if room < (1 + size(a) if reads else 1):
        found.append((6,))
    if writes and a in READ_ONLY:
        found.append((7,))
    if writes and rest and (a in READ_ONLY or not allowed(a, rest)):
        found.append((9, a))
    return found


def command(state, data, room):
    """the answer, and the registers after it"""
    found = command_refusals(data, room)
    if found:
        return found[0], state
    if data[0] <= 0x17:
        return bytes([STATUS]) + state[data[0]], state
    if data[0] == 0xFF or data[0] == 0x27:
        return bytes([STATUS]), state
    return bytes([STATUS]), {**state, data[0] - 0x20: data[1:]}


# ---- profiles

def profile(fields):
    """a profile from its fields by address, right or wrong"""
    return sum(1 << a for a in fields).to_bytes(4, 'big') + b''.join(bytes(fields[a]) for a in sorted(fields))


def fields_of(p):
    """the fields by address, or none if the map or the length is wrong"""
    if len(p) < 4:
        return None
    word = int.from_bytes(p[:4], 'big')
    named = [a for a in range(32) if bit(word, a)]
    if any(a not in NAMEABLE for a in named):
        return None
    fields, at = {}, 4
    for a in named:
        fields[a] = p[at:at + size(a)]
        at += size(a)
    return fields if at == len(p) else None


def load_refusals(p):
    """all refusals that apply, in order; of a wrong profile the fields that are there are looked at too"""
    found = [(11,)] if fields_of(p) is None else []
    word, at = int.from_bytes(p[:4], 'big') if len(p) >= 4 else 0, 4
    for a in range(32):
        if bit(word, a):
            n = size(a)
            if a in NAMEABLE and at + n <= len(p) and not allowed(a, p[at:at + n]):
                found.append((9, a))
            at += n
    return found


def load(state, p):
    found = load_refusals(p)
    return (found[0], state) if found else (None, {**state, **fields_of(p)})


# ---- the check call

def in_use(state, n):
    """the address in use of pipe n"""
    whole = state[0x0A + n] if n < 2 else state[0x0A + n] + state[0x0B][1:]
    return whole[:state[0x03][0] + 2]


def faults(state, width):
    """all registers with a fault, the lowest first"""
    config, ack, on = state[0x00][0], state[0x01][0], state[0x02][0]
    receiver = bit(config, 0)
    pipes = [n for n in range(6) if bit(on, n)]
    found = set()
    if not bit(config, 3) or bit(config, 1) or bit(config, 2) != (width == 16):
        found.add(0x00)
    if any(not bit(ack, n) for n in pipes if receiver or n == 0):
        found.add(0x01)
    if not pipes if receiver else 0 not in pipes:
        found.add(0x02)
    if receiver:
        for n in pipes:
            if any(in_use(state, n) == in_use(state, m) for m in pipes if m < n):
                found.add(0x0A + n)
            if state[0x11 + n][0] == 0:
                found.add(0x11 + n)
    elif state[0x10][:state[0x03][0] + 2] != in_use(state, 0):
        found.add(0x10)
    return sorted(found)


# ---- rows

# every register that a profile may name, at another value than at reset
WRITTEN = profile({0x00: [0x7D], 0x01: [0x2A], 0x02: [0x15], 0x03: [0x01], 0x04: [0x5F], 0x05: [0x7D], 0x06: [0x27],
                   0x0A: [1, 2, 3, 4, 5], 0x0B: [6, 7, 8, 9, 10], 0x0C: [0x21], 0x0D: [0x22], 0x0E: [0x23], 0x0F: [0x24],
                   0x10: [11, 12, 13, 14, 15], 0x11: [0x20], 0x12: [0x1F], 0x13: [0x1E], 0x14: [0x1D], 0x15: [0x1C], 0x16: [0x1B]})
assert len(fields_of(WRITTEN)) == 20 and all(v != reset()[a] for a, v in fields_of(WRITTEN).items())
PAIR = bytes.fromhex('000000302F4C')
UNTOUCHED = 0xA5


def array(data):
    return '[' + ', '.join('0x%02X' % b for b in data) + ']'


def option(a):
    return 'None' if a is None else 'Some(0x%02X)' % a


def boolean(b):
    return 'true' if b else 'false'


def started(start):
    return load(reset(), WRITTEN)[1] if start == 'Written' else reset()


# -- refusals

REFUSED = []


def refused(call, found, number, register, also, start):
    """the first that applies is this one, and these apply too"""
    assert found and found[0] == (number, *([] if register is None else [register])), (call, found)
    assert {f[0] for f in found[1:]} == set(also), (call, found)
    REFUSED.append('    // %d%s\n    Refused { start: Start::%s, call: %s, number: %d, register: %s },'
                   % (number, ''.join(', also %d' % n for n in also), start, call, number, option(register)))


def command_refused(number, data, room, also=(), register=None):
    call = 'Call::Command(&%s, %d)' % (array(data), room)
    refused(call, command_refusals(data, room), number, register, also, 'Written')


def load_refused(number, p, also=(), register=None):
    refused('Call::Load(&%s)' % array(p), load_refusals(p), number, register, also, 'Written')


def check_refused(start, width, register, also=()):
    found = [(12, a) for a in faults(started(start), width)]
    refused('Call::Check(Kind::Crc%d)' % width, found, 12, register, also, start)


def refusals_before_data():
    command_refused(1, b'', 1)
    command_refused(1, b'', 0, also=[6])
    command_refused(2, b'\x18', 1)
    command_refused(2, b'\x38\x00', 1, also=[4])
    command_refused(2, b'\xFE', 0, also=[6])
    command_refused(2, b'\x1F\x00', 0, also=[4, 6])
    command_refused(3, b'\xE1', 1)
    command_refused(3, b'\xA0\x01', 1)
    command_refused(3, b'\xA0' + bytes(range(32)), 1)
    command_refused(3, b'\xA0', 1, also=[4])
    command_refused(3, b'\xA0' + bytes(33), 1, also=[4])
    command_refused(3, b'\xE1\x00', 1, also=[4])
    command_refused(3, b'\xE2\x00', 0, also=[4, 6])
    command_refused(3, b'\x61', 8, also=[5])
    command_refused(3, b'\xE2', 0, also=[6])


def refusals_from_data():
    command_refused(4, b'\xFF\x00', 1)
    command_refused(4, b'\x00\x00', 8)
    command_refused(4, b'\x20', 1)
    command_refused(4, b'\x20\x0B\x0B', 1)
    command_refused(4, b'\x2A' + bytes(4), 1)
    command_refused(4, b'\x30' + bytes(6), 1)
    command_refused(4, b'\xFF\x00', 0, also=[6])
    command_refused(4, b'\x0A\x00', 5, also=[6])
    command_refused(4, b'\x28', 1, also=[7])
    command_refused(4, b'\x37\x11\x11', 0, also=[6, 7, 9])
    command_refused(4, b'\x25\x7E\x00', 1, also=[9])
    command_refused(6, b'\xFF', 0)
    command_refused(6, b'\x00', 1)
    command_refused(6, b'\x0A', 5)
    command_refused(6, b'\x20\x08', 0)
    command_refused(6, b'\x30' + bytes(5), 0)
    command_refused(6, b'\x28\x00', 0, also=[7, 9])
    command_refused(6, b'\x25\x7E', 0, also=[9])
    command_refused(7, b'\x28\x00', 1, also=[9])
    command_refused(7, b'\x29\x00', 1, also=[9])
    command_refused(7, b'\x37\xFF', 1, also=[9])
    command_refused(9, b'\x25\x7E', 1, register=0x05)


def refusals_of_profiles_and_checks():
    load_refused(11, b'')
    load_refused(11, bytes.fromhex('00000080'))
    load_refused(11, bytes.fromhex('000000207E00'), also=[9])
    load_refused(11, bytes.fromhex('000000607E'), also=[9])
    load_refused(11, bytes.fromhex('000000A07E00'), also=[9])
    load_refused(9, bytes.fromhex('000000207E'), register=0x05)
    load_refused(9, bytes.fromhex('000000302F7E'), register=0x05)
    load_refused(9, bytes.fromhex('00000028007E'), also=[9], register=0x03)
    load_refused(9, profile({0x00: [0x80], 0x0A: bytes(5), 0x16: [0x21]}), also=[9], register=0x00)
    load_refused(9, profile({0x10: bytes(5), 0x12: [0x21], 0x16: [0x21]}), also=[9], register=0x12)
    for call in ('Call::Count(&%s)', 'Call::Field(&%s, 0x05)'):
        for p in (b'', bytes.fromhex('00000080'), bytes.fromhex('000000207E00')):
            refused(call % array(p), load_refusals(p)[:1], 11, None, (), 'Reset')
    check_refused('Reset', 16, 0x00)
    check_refused('Written', 16, 0x01)
    check_refused('Written', 8, 0x00, also=[12])


# -- commands that are served, and every value at the edge of what a register takes

def first_byte(first):
    found = command_refusals(bytes([first]), 8)
    return '    %s, // %02X' % ('None' if not found else 'Some(%d)' % found[0][0], first)


def reading(a):
    """the reply buffer of eight bytes after a read of the register"""
    def shown(start):
        answer, _ = command(started(start), bytes([a]), 8)
        return array(answer + bytes([UNTOUCHED] * (8 - len(answer))))
    return '    Reading { length: %d, at_reset: %s, written: %s }, // %02X' % (1 + size(a), shown('Reset'), shown('Written'), a)


def edges(a):
    """values that the one-byte register takes or refuses, unlike a neighbour; the lowest, the highest, and each bit alone"""
    taken = [takes(a, v) for v in range(256)]
    rim = {v for v in range(256) if v < 255 and taken[v] != taken[v + 1] or v > 0 and taken[v] != taken[v - 1]}
    return sorted(rim | {0x00, 0xFF} | {1 << n for n in range(8)})


def values():
    rows = []
    for a in WRITABLE:
        for v in edges(a) if size(a) == 1 else ():
            answer, after = command(reset(), bytes([0x20 + a, v]), 1)
            taken = isinstance(answer, bytes)
            assert taken == takes(a, v)
            rows.append('    Value { register: 0x%02X, map: %s, value: 0x%02X, taken: %s },' % (a, array(profile({a: b''})), v, boolean(taken)))
    return rows


def wide_values():
    return ['    Wide { register: 0x%02X, bytes: %s },' % (a, array(v))
            for a in WIDE for v in (bytes(5), b'\xFF' * 5, b'\x51\x52\x53\x54\x55')]


# -- profiles

def profile_row(p):
    fields, found = fields_of(p), load_refusals(p)
    listed = ', '.join('Field { register: 0x%02X, bytes: &%s }' % (a, array(v)) for a, v in sorted(fields.items()))
    return '    Profile { bytes: &%s, count: %d, fields: &[%s], refused: %s },' % (array(p), len(fields), listed, option(found[0][1] if found else None))


def profiles():
    # all bytes of the fields differ, so that a field tells where it lies
    told = {a: [0x80 + 6 * i + k for k in range(size(a))] for i, a in enumerate(NAMEABLE)}
    some = {a: v for a, v in fields_of(WRITTEN).items() if a in (0x03, 0x0B, 0x0D, 0x10, 0x16)}
    return [profile_row(p) for p in (bytes(4), PAIR, profile(told), profile(some), profile({0x00: [0x0B]}))]


def wrong_profiles():
    """a wrong length; and the name of a register that may not be named, with a field and without"""
    wrong = [b'', bytes(3), bytes(5), PAIR[:4], PAIR[:5], PAIR + b'\x00', bytes.fromhex('00000400') + bytes(4), bytes.fromhex('00000400') + bytes(6),
             WRITTEN[:-1], WRITTEN + b'\x00']
    for a in range(32):
        if a not in NAMEABLE:
            wrong += [profile({a: b''}), profile({a: b'\x00'})]
    assert all(load_refusals(p)[0] == (11,) for p in wrong)
    return ['    &%s,' % array(p) for p in wrong]


# -- the check call

SETUPS = []


def setup(why, fault, also=(), **changed):
    """registers of a unit, with CONFIG as it is for a check of 8 bits; for one of 16 bits CRCO is the other; and the fault"""
    r = dict(config=0x08, en_aa=0x3F, en_rxaddr=0x03, setup_aw=0x03, p0=[0xE7] * 5, p1=[0xC2] * 5, low=[0xC3, 0xC4, 0xC5, 0xC6],
             tx=[0xE7] * 5, lengths=[0] * 6)
    r.update(changed)
    state = reset()
    state.update({0x01: bytes([r['en_aa']]), 0x02: bytes([r['en_rxaddr']]), 0x03: bytes([r['setup_aw']]),
                  0x0A: bytes(r['p0']), 0x0B: bytes(r['p1']), 0x10: bytes(r['tx'])})
    state.update({0x0C + i: bytes([v]) for i, v in enumerate(r['low'])})
    state.update({0x11 + i: bytes([v]) for i, v in enumerate(r['lengths'])})
    for width, config in ((8, r['config']), (16, r['config'] ^ 0x04)):
        state[0x00] = bytes([config])
        assert faults(state, width) == ([] if fault is None else [fault, *also]), (why, width, faults(state, width))
    SETUPS.append('    // %s\n    Setup { config_crc8: 0x%02X, config_crc16: 0x%02X, en_aa: 0x%02X, en_rxaddr: 0x%02X, setup_aw: 0x%02X, rx_addr_p0: %s, '
                  'rx_addr_p1: %s, low_bytes: %s, tx_addr: %s, lengths: %s, fault: %s },'
                  % (why, r['config'], r['config'] ^ 0x04, r['en_aa'], r['en_rxaddr'], r['setup_aw'], array(r['p0']),
                     array(r['p1']), array(r['low']), array(r['tx']), array(r['lengths']), option(fault)))


def receiver(why, pipes, fault, also=(), **changed):
    """a receiver with these pipes enabled, each with payloads of one byte"""
    given = dict(config=0x09, en_rxaddr=sum(1 << n for n in pipes), lengths=[int(n in pipes) for n in range(6)])
    setup('receiver, ' + why, fault, also, **{**given, **changed})


def config_setups():
    setup('sound sender', None)
    receiver('sound', [0, 1], None)
    receiver('sound, all pipes', range(6), None)
    for why, config in (('EN_CRC is clear', 0x00), ('PWR_UP is set', 0x0A), ('CRCO is unlike', 0x0C)):
        setup('sender, ' + why, 0x00, config=config)
        receiver(why, [0, 1], 0x00, config=config | 0x01)
    setup('sender, all interrupts masked', None, config=0x78)


def pipe_setups():
    for n in range(6):
        receiver('enabled pipe %d lacks EN_AA' % n, [n], 0x01, en_aa=0x3F ^ 1 << n)
        receiver('enabled pipe %d has payload length 0' % n, [n], 0x11 + n, lengths=[0] * 6)
        receiver('pipe %d lacks EN_AA and a length, and is not enabled' % n, [m for m in range(6) if m != n], None, en_aa=0x3F ^ 1 << n)
    receiver('no pipe enabled', [], 0x02)
    setup('sender, enabled pipe 0 lacks EN_AA', 0x01, en_aa=0x3E)
    setup('sender, enabled pipe 1 lacks EN_AA', None, en_aa=0x01)
    setup('sender, pipe 0 lacks EN_AA and is not enabled', 0x02, en_aa=0x3E, en_rxaddr=0x3E)
    setup('sender, only pipe 0 enabled', None, en_rxaddr=0x01)


def like(m, n):
    """registers that give pipes m and n, m below n, one address, and no other two pipes"""
    if m == 0:
        return dict(p0=[0xC2 + n - 1, 0xC2, 0xC2, 0xC2, 0xC2])
    return dict(low=[0xC2 + m - 1 if 2 + i == n else 0xC3 + i for i in range(4)])


def address_setups():
    for n in range(1, 6):
        for m in range(n):
            receiver('pipe %d has the address of pipe %d' % (n, m), [m, n], 0x0A + n, **like(m, n))
        receiver('pipe %d has the address of pipe %d, which is not enabled' % (n, n - 1), [n], None, **like(n - 1, n))
        receiver('pipe %d, not enabled, has the address of pipe %d' % (n, n - 1), [n - 1], None, **like(n - 1, n))
    setup('sender, pipe 1 has the address of pipe 0', None, p1=[0xE7] * 5)
    for width in (3, 4, 5):
        for k in range(2, 5):
            other, unlike = [0xE7 ^ (k == i) for i in range(5)], k < width
            why = 'address width %d, unlike in byte %d' % (width, k)
            setup('sender, TX_ADDR, ' + why, 0x10 if unlike else None, setup_aw=width - 2, tx=other)
            receiver('pipes 0 and 1, ' + why, [0, 1], None if unlike else 0x0B, setup_aw=width - 2, p1=other)
    receiver('TX_ADDR is unlike', [0], None, tx=[0] * 5)


def lowest_setups():
    """two faults and more: the lowest register is named"""
    setup('sender, CONFIG and EN_AA', 0x00, [0x01], config=0x00, en_aa=0x3E)
    setup('sender, EN_AA and TX_ADDR', 0x01, [0x10], en_aa=0x00, tx=[0] * 5)
    setup('sender, EN_RXADDR and TX_ADDR', 0x02, [0x10], en_rxaddr=0x00, tx=[0] * 5)
    receiver('CONFIG and EN_RXADDR', [], 0x00, [0x02], config=0x01)
    receiver('EN_AA and RX_ADDR_P1', [0, 1], 0x01, [0x0B], en_aa=0x00, **like(0, 1))
    receiver('EN_AA and RX_PW_P0', [0], 0x01, [0x11], en_aa=0x00, lengths=[0] * 6)
    receiver('RX_ADDR_P1 and RX_ADDR_P2', [0, 1, 2], 0x0B, [0x0C], p0=[0xC2] * 5, low=[0xC2, 0xC4, 0xC5, 0xC6])
    receiver('RX_ADDR_P4 and RX_ADDR_P5', [3, 4, 5], 0x0E, [0x0F], low=[0xC3, 0xC4, 0xC4, 0xC4])
    receiver('RX_ADDR_P5 and RX_PW_P0', [0, 4, 5], 0x0F, [0x11], lengths=[0, 0, 0, 0, 1, 1], **like(4, 5))
    receiver('all payload lengths 0', range(6), 0x11, [0x12, 0x13, 0x14, 0x15, 0x16], lengths=[0] * 6)


def static(why, name, kind, rows):
    print('\n// %s\npub static %s: [%s; %d] = [\n%s\n];' % (why, name, kind, len(rows), '\n'.join(rows)))


def main():
    refusals_before_data()
    refusals_from_data()
    refusals_of_profiles_and_checks()
    config_setups()
    pipe_setups()
    address_setups()
    lowest_setups()
    print('// Made by generate.py beside src/: what each call must answer, by a model of its own.')
    for name in ('Call', 'Field', 'Kind', 'Profile', 'Reading', 'Refused', 'Setup', 'Start', 'Value', 'Wide'):
        print('use crate::case::%s;' % name)
    static('A profile that gives each register that it may name another value than at reset.', 'WRITTEN', 'u8', ['    0x%02X,' % b for b in WRITTEN])
    static('Every refusal, alone and together with later ones.', 'REFUSED', 'Refused', REFUSED)
    static('By the first byte, sent alone with much room: the number of the refusal, if it is refused.', 'FIRST_BYTES', 'Option<u8>', [first_byte(b) for b in range(256)])
    static('How each register reads, by its address.', 'READINGS', 'Reading', [reading(a) for a in range(24)])
    static('Values of registers of one byte.', 'VALUES', 'Value', values())
    static('Values of registers of five bytes.', 'WIDE_VALUES', 'Wide', wide_values())
    static('Profiles of which the map and the length are right.', 'PROFILES', 'Profile', profiles())
    static('Profiles of which the map or the length is wrong.', 'WRONG_PROFILES', '&[u8]', wrong_profiles())
    static('Units for the check call, and the lowest register with a fault.', 'SETUPS', 'Setup', SETUPS)


main()
