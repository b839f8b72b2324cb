#!/usr/bin/env python3
"""Makes a schedule:  schedule.py EVENTS KEYS > schedule

EVENTS event lines stand between the rack line and `end`. The same thirty lines come again and
again, so that the time of a line can be compared between lengths:

- an operation in a whole round: it is issued, and its request, the forwarded request, the reply
  and the answer are delivered (5 lines, 4 packets); a write and a read take turns;
- two writes that are given up at once (4 lines, 2 packets);
- 21 lines that send nothing: an old answer delivered once more, and a resend of a client that has
  nothing open, in turns.

So 1,000,000 events send 199,998 packets, within the limit of 200,000, and begin 99,999 operations.
Operation i is on key i modulo KEYS, and no key is listed so far. All is determined by the two
numbers.
"""
import sys

CLIENTS, SILENT = 8, 21
LINES = 9 + SILENT


def block(number, keys):
    """The lines of a block. Each block before it sent six packets and began three operations."""
    client, packet, operation = number % CLIENTS, 6 * number, 3 * number
    key = f'k{operation % keys}'
    yield f'read {client} {key}' if number % 2 else f'write {client} {key} =v{operation}'
    yield f'deliver {packet} {number % 7}'
    for step in (1, 2, 3):
        yield f'deliver {packet + step}'
    for given_up in (operation + 1, operation + 2):
        yield f'write {client} k{given_up % keys} =v{given_up}'
        yield f'giveup {client}'
    for turn in range(SILENT):
        earlier = (number * 7919 + turn * 104729) % (number + 1)
        yield f'resend {client}' if turn % 2 else f'deliver {6 * earlier + 3}'


def schedule(events, keys):
    yield f'rack servers=4 clients={CLIENTS} switches=1 listed=64 hot=12 first=1'
    for number in range(events // LINES):
        yield from block(number, keys)
    for _ in range(events % LINES):
        yield 'resend 0'
    yield 'end'


def main():
    events, keys = int(sys.argv[1]), int(sys.argv[2])
    sys.stdout.writelines(line + '\n' for line in schedule(events, keys))


main()
