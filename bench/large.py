#!/usr/bin/env python3
"""Large schedules, each within 1,000,000 events and 200,000 packets.

    large.py KIND > FILE      one of the kinds below
    large.py --list
    large.py --all DIR        DIR/KIND.sched for all kinds

Nothing is drawn at random but by a seeded generator, so the bytes are fixed.
"""

import os
import random
import sys

EVENTS = 1_000_000
PACKETS = 200_000


class Schedule:
    """Lines, with the number of packets sent so far kept beside them."""

    def __init__(self, rack):
        self.lines = [rack]
        self.sent = 0

    def add(self, line, sends=0):
        """The number of the first packet that the line sends."""
        first = self.sent
        self.lines.append(line)
        self.sent += sends
        return first

    def deliver(self, number, sends=0, pick=None):
        return self.add('deliver %d' % number if pick is None else 'deliver %d %d' % (number, pick), sends)

    def room(self, packets):
        return self.sent + packets <= PACKETS

    def whole(self, line, pick=None):
        """An operation and its full round: four packets, five lines."""
        number = self.add(line, 1)
        number = self.deliver(number, 1, pick)
        number = self.deliver(number, 1)
        number = self.deliver(number, 1)
        self.deliver(number)
        return number

    def command(self, line, sends=1):
        """A command, its delivery and that of its acknowledgement."""
        number = self.add(line, 1)
        ack = self.deliver(number, sends) + sends - 1
        self.deliver(ack)

    def text(self):
        assert len(self.lines) - 1 <= EVENTS and self.sent <= PACKETS
        return '\n'.join(self.lines) + '\nend\n'


RACK = 'rack servers=%d clients=%d switches=%d listed=%d hot=%d first=1'


def million():
    """1,000,000 event lines within 200,000 packets: full rounds on listed and
    other keys, and repeated deliveries, refusals and busy clients between."""
    rng = random.Random(1)
    s = Schedule(RACK % (8, 64, 2, 16, 12) + ''.join(' +k%d' % i for i in range(8)))
    replies = []
    while s.room(5) and len(s.lines) < EVENTS - 40:
        c = rng.randrange(64)
        key = 'k%d' % (rng.randrange(8) if rng.random() < 0.5 else rng.randrange(1000))
        line = 'read %d %s' % (c, key) if rng.random() < 0.7 else 'write %d %s =v%d' % (c, key, s.sent)
        number = s.add(line, 1)
        s.add('read %d k0' % c)
        number = s.deliver(number, 1, rng.randrange(16))
        number = s.deliver(number, 1)
        number = s.deliver(number, 1)
        s.deliver(number)
        replies.append(number)
        for _ in range(14):
            draw = rng.random()
            if draw < 0.8:
                s.deliver(replies[-1 - rng.randrange(min(len(replies), 1000))], pick=rng.randrange(16) if draw < 0.4 else None)
            elif draw < 0.9:
                s.add('giveup %d' % rng.randrange(64))
            elif draw < 0.95:
                s.add('deliver %d' % (s.sent + rng.randrange(1000)))
            else:
                s.add('junk switch 0 x%016x' % rng.getrandbits(64))
    while len(s.lines) <= EVENTS:
        s.deliver(replies[len(s.lines) % len(replies)])
    return s.text()


def ops_many_keys():
    """200,000 operations on 100,000 distinct keys, each given up."""
    s = Schedule(RACK % (16, 16, 1, 4, 4))
    for i in range(PACKETS):
        c = i % 16
        key = 'key%d' % (i * 7919 % 100_000)
        s.add('write %d %s =v%d' % (c, key, i) if i % 2 else 'read %d %s' % (c, key), 1)
        s.add('giveup %d' % c)
    return s.text()


def rounds_many_keys():
    """50,000 operations with a full round on 50,000 distinct keys."""
    s = Schedule(RACK % (16, 16, 1, 4, 12))
    for i in range(PACKETS // 4):
        s.whole('write %d key%d =v%d' % (i % 16, i, i))
    return s.text()


def rounds_listed():
    """50,000 operations with a full round on 64 listed keys at 16 servers, with
    a copy to a further holder now and then."""
    rng = random.Random(2)
    s = Schedule(RACK % (16, 256, 2, 64, 12) + ''.join(' +listed%d' % i for i in range(64)))
    holders = {}
    i = 0
    while s.room(5):
        key = 'listed%d' % rng.randrange(64)
        c = rng.randrange(256)
        pick = rng.randrange(1000)
        i += 1
        target = rng.randrange(16)
        if i % 8 == 0 and target not in holders.get(key, range(16)):
            # The order and the acknowledgement, the data, the Held.
            number = s.add('copy %s %d' % (key, target), 1)
            order = s.deliver(number, 2)
            s.deliver(order + 1)
            s.deliver(s.deliver(s.deliver(order, 1), 1))
            holders[key].add(target)
        elif i % 5 == 0:
            s.whole('write %d %s =v%d' % (c, key, i), pick)
            holders[key] = {pick % 16}
        else:
            s.whole('read %d %s' % (c, key), pick)
    return s.text()


def large_handovers():
    """Handovers of the largest state: 256 clients and 64 entries."""
    keys = ''.join(' +%02dkkkkkkkkkkkkkkkkkkkkkkkkk' % i for i in range(64))
    s = Schedule(RACK % (16, 256, 2, 64, 12) + keys)
    assert len(s.lines[0]) <= 2048
    size = 18 + 16 * 256 + 1 + 64 * (1 + 27 + 34)
    parts = -(-size // 512)
    to = 1
    while s.room(1 + parts + 1 + 256):
        number = s.add('handover %d' % to, 1)
        first = s.deliver(number, parts)
        for i in reversed(range(1, parts)):
            s.deliver(first + i)
        ack = s.deliver(first, 1)
        announce = s.deliver(ack, 256)
        for c in range(256):
            s.deliver(announce + c)
        to = 1 - to
    return s.text()


def large_values():
    """50,000 operations with values of 512 bytes, each byte escaped."""
    s = Schedule(RACK % (3, 16, 1, 4, 4))
    value = '=' + '%00%FF' * 256
    for i in range(PACKETS // 4):
        s.whole('write %d k%d %s' % (i % 16, i % 100, value) if i % 2 else 'read %d k%d' % (i % 16, i % 100))
    return s.text()


KINDS = [million, ops_many_keys, rounds_listed, rounds_many_keys, large_handovers, large_values]


def main():
    by_name = {kind.__name__.replace('_', '-'): kind for kind in KINDS}
    if len(sys.argv) == 2 and sys.argv[1] == '--list':
        for name, kind in by_name.items():
            print('%-18s %s' % (name, ' '.join(kind.__doc__.split())))
    elif len(sys.argv) == 3 and sys.argv[1] == '--all':
        os.makedirs(sys.argv[2], exist_ok=True)
        for name, kind in by_name.items():
            with open(os.path.join(sys.argv[2], name + '.sched'), 'w') as f:
                f.write(kind())
    elif len(sys.argv) == 2 and sys.argv[1] in by_name:
        sys.stdout.write(by_name[sys.argv[1]]())
    else:
        sys.stderr.write(__doc__)
        return 2
    return 0


if __name__ == '__main__':
    sys.exit(main())
