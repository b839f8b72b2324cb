#!/usr/bin/env python3
"""Runs a rack of processes over 127.0.0.1 and judges what its clients saw:  roles.py PROGRAM [OPERATIONS [BASE]]

Two switches, three servers, a controller and two clients, each a process of its own. The clients write and
read 20 keys, both at once, until all is done. Meanwhile four keys are promoted and copied to
all servers, two of them are fenced, and in the middle the rack is handed over to the other switch. Every
operation has to be answered. Each version has to be of one write, each read has to give the content of its
version, and an operation that begins after another was answered has to have the later version where one of
them is a write, and not an earlier one where both are reads: so clients saw one register per key. Prints
the operations a second. The last line says what went wrong, or how many operations were judged.
"""
import os
import random
import subprocess
import sys
import threading
import time

RACK = '3:2:2:4:8:1'
KEYS = [f'k{number}' for number in range(20)]
HOT = KEYS[:4]


def started(program, words, **pipes):
    return subprocess.Popen([program] + [str(word) for word in words], **pipes)


class Console:
    """A process that is given lines and answers them."""

    def __init__(self, program, words):
        pipe = subprocess.PIPE
        self.process = started(program, words, stdin=pipe, stdout=pipe, bufsize=0)
        self.answers = self.process.stdout

    def say(self, line):
        self.process.stdin.write(line.encode() + b'\n')

    def hear(self):
        return self.answers.readline().decode().rstrip('\n')

    def end(self):
        self.process.stdin.close()
        rest = self.answers.read().decode()
        self.process.wait(20)
        return rest


def use(client, count, seed, operations, is_settled):
    """Issues operations one after the other, so many at least and until the commands are settled. Keeps
    each with its times and what was answered."""
    draw = random.Random(seed)
    number = 0
    while number < count or not is_settled.is_set():
        number += 1
        key = draw.choice(KEYS)
        value = f'c{seed}n{number}' if draw.random() < 0.5 else None
        begun = time.monotonic()
        client.say(f'read {key}' if value is None else f'write {key} ={value}')
        answer = client.hear().split(' ')
        ended = time.monotonic()
        if answer[0] != 'answered':
            operations.append((key, value, None, begun, ended, ' '.join(answer)))
            return
        content = value if value is not None else answer[4]
        operations.append((key, value, (int(answer[3]), content), begun, ended, ''))


def command(controller, lines):
    """Gives command lines, and waits until the first text of each is written."""
    for line in lines:
        controller.say(line)
        time.sleep(0.05)


def fault_of(operations):
    """What a register for each key would not have done, or nothing."""
    for key, value, answer, _, _, said in operations:
        if answer is None:
            return f'{key}: {said}'
    by_key = {}
    for operation in operations:
        by_key.setdefault(operation[0], []).append(operation)
    for key, those in by_key.items():
        written = {}
        for _, value, (version, _), _, _, _ in those:
            if value is not None and written.setdefault(version, value) != value:
                return f'{key}: version {version} is of two writes'
        for _, value, (version, content), _, _, _ in those:
            if value is None:
                of = max((v for v in written if v <= version), default=None)
                here = '-' if of is None else '=' + written[of]
                if content != here:
                    return f'{key}: version {version} was read as {content}, and {here} was written'
        for first in those:
            for then in those:
                if first[4] < then[3]:
                    a, b = first[2][0], then[2][0]
                    if a > b or (a == b and then[1] is not None):
                        return f'{key}: version {b} after {a} was answered'
    return None


def main():
    program = os.path.abspath(sys.argv[1])
    count = int(sys.argv[2]) if len(sys.argv) > 2 else 1000
    base = int(sys.argv[3]) if len(sys.argv) > 3 else 20000 + os.getpid() % 200 * 200
    turns = 10 ** 9
    nodes = [started(program, ['switch', base, RACK, w, turns]) for w in range(2)]
    nodes += [started(program, ['server', base, RACK, s, turns]) for s in range(3)]
    controller = Console(program, ['control', base, RACK, 20, 5])
    clients = [Console(program, ['ask', base, RACK, c, 1, 50, 5]) for c in range(2)]
    time.sleep(0.3)
    operations = [[], []]
    is_settled = threading.Event()
    users = [threading.Thread(target=use, args=(clients[c], count // 2, c, operations[c], is_settled))
             for c in range(2)]
    begun = time.monotonic()
    for user in users:
        user.start()
    command(controller, [f'promote {key}' for key in HOT])
    command(controller, [f'copy {key} {server}' for key in HOT for server in range(3)])
    command(controller, ['handover 1'])
    command(controller, [f'fence {key}' for key in HOT[:2]])
    command(controller, [f'demote {HOT[3]}', f'copy {HOT[0]} 1', 'survey', 'plan 4 1'])
    is_settled.set()
    for user in users:
        user.join()
    took = time.monotonic() - begun
    for client in clients:
        client.end()
    told = controller.end()
    for node in nodes:
        node.kill()
    if os.environ.get('SHOW'):
        print(told, end='')
    judged = operations[0] + operations[1]
    fault = fault_of(judged)
    if 'activated 2' not in told:
        fault = fault or 'the rack was not handed over'
    print(f'{len(judged) / took:.0f} operations a second')
    print(fault or f'{len(judged)} operations, each as a register would answer it')
    sys.exit(1 if fault else 0)


if __name__ == '__main__':
    main()
