#!/usr/bin/env python3
"""Makes what `peg check` judges, or a schedule whose history is as long:

    history.py history OPERATIONS KEYS > tail       a history in which every operation was answered, in
                                                    the order of the lines, with its orders
    history.py schedule OPERATIONS KEYS > schedule  as many operations on as many keys, each given up

Operation i is on key i modulo KEYS. Writes and reads of a key take turns.
"""
import sys


def history(operations, keys):
    yield f'history {operations}'
    for i in range(operations):
        key, turn = i % keys, i // keys
        write = f'=v{i if turn % 2 == 0 else i - keys}'
        if turn % 2 == 0:
            yield f'op {i} client {i % 8} write k{key} {write} issued {2 * i + 2} answered {2 * i + 3}'
        else:
            yield f'op {i} client {i % 8} read k{key} issued {2 * i + 2} answered {2 * i + 3} {write}'
    for key in range(min(keys, operations)):
        places = range(key, operations, keys)
        yield f'order k{key} {len(places)}'
        for place in places:
            yield f'at {place}'
    yield 'done'


def schedule(operations, keys):
    yield 'rack servers=4 clients=8 switches=1 listed=4 hot=4 first=1'
    for i in range(operations):
        client, key = i % 8, i % keys
        yield f'write {client} k{key} =v{i}' if i // keys % 2 == 0 else f'read {client} k{key}'
        yield f'giveup {client}'
    yield 'end'


KINDS = {'history': history, 'schedule': schedule}

sys.stdout.writelines(line + '\n' for line in KINDS[sys.argv[1]](int(sys.argv[2]), int(sys.argv[3])))
