#!/usr/bin/env python3
"""Makes the input of a rack over sockets, and throws datagrams at one.

    rack.py make OPERATIONS [TRIES]     lines for `peg rack`
    rack.py throw BASE A_SECOND         throws datagrams at every port of the rack, until it is killed

The rack has 16 servers and 64 clients. 64 of 1,000 keys are listed from the start, and reads and writes
go to popular keys more often. All clients ask at once, then the switch, the servers and the clients
receive as often as that needs. Where something is lost or late, each client asks again, TRIES times.
What is thrown is bytes that are no packet, packets that nobody sent, and packets that were sent before.
"""
import random
import socket
import struct
import sys
import time

SERVERS, CLIENTS, KEYS, LISTED = 16, 64, 1000, 64
WEIGHTS = [1 / (rank + 1) for rank in range(KEYS)]


def make(operations, tries):
    draw = random.Random(1)
    print(f'rack servers={SERVERS} clients={CLIENTS} switches=1 listed={LISTED} hot=1 first=1'
          + ''.join(f' +k{key}' for key in range(LISTED)))
    keys = draw.choices(range(KEYS), WEIGHTS, k=operations)
    for begin in range(0, operations, CLIENTS):
        batch = keys[begin:begin + CLIENTS]
        for client, key in enumerate(batch):
            write = draw.random() < 0.1
            print(f'write {client} k{key} =v{begin + client}' if write else f'read {client} k{key}')
        receive(draw, len(batch))
        for _ in range(tries):
            for client in range(len(batch)):
                print(f'resend {client}')
            receive(draw, len(batch))
            receive(draw, len(batch))
    print('end')


def receive(draw, count):
    for _ in range(count):
        print(f'take switch 0 {draw.randrange(720720)}')
    for _ in range(count // SERVERS + 14):
        for server in range(SERVERS):
            print(f'take server {server}')
    for _ in range(count):
        print('take switch 0')
    for client in range(count):
        print(f'take client {client}')


def request(client, seq, key):
    """A read, as the client spells it."""
    return (b'PG\x01\x01' + struct.pack('>HQQBB', client, seq, 0, 0, 0)
            + bytes([len(key)]) + key)


def thrown(draw):
    kind = draw.randrange(4)
    if kind == 0:
        return draw.randbytes(draw.randrange(1400))
    if kind == 1:
        return b'PG\x01' + draw.randbytes(draw.randrange(60))
    # The clients send such packets: one with a number that is used, or one that never is.
    seq = draw.randrange(1, 40) if kind == 2 else 10 ** 12
    return request(draw.randrange(CLIENTS), seq, b'k%d' % draw.randrange(4))


def throw(base, a_second):
    draw = random.Random(2)
    ports = [base, base + 1] + [base + 8 + s for s in range(SERVERS)] \
        + [base + 128 + c for c in range(CLIENTS)]
    sender = socket.socket(socket.AF_INET, socket.SOCK_DGRAM)
    begun, sent = time.monotonic(), 0
    while True:
        while sent < (time.monotonic() - begun) * a_second:
            sent += 1
            try:
                sender.sendto(thrown(draw), ('127.0.0.1', draw.choice(ports)))
            except OSError:
                pass
        time.sleep(0.001)


if sys.argv[1] == 'make':
    make(int(sys.argv[2]), int(sys.argv[3]) if len(sys.argv) > 3 else 0)
else:
    throw(int(sys.argv[2]), int(sys.argv[3]))
