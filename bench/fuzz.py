#!/usr/bin/env python3
"""Plays random schedules and judges what comes of them:  fuzz.py PROGRAM [EVENTS [SEED]]

Schedules of 5,000 events, in both formats, with all kinds of lines, each a function of its number,
which counts from SEED. Half of them are bent: a byte is changed, dropped or put in, a line is doubled,
dropped or moved, or the input is cut off. The program has to take each:

- `replay` of a schedule that is not bent is done;
- where it is done, `check` says yes of its output, and of its output with a line bent it says yes or no,
  or refuses a line;
- where it refuses a line, the text of exactly the lines before that was written: it begins the text of
  these lines with `end` behind them, which is done.

Uses all processors. Prints what the runs came to, and the events a second. A schedule at fault is kept
in the file that the last line names, and the exit status is 1.
"""
import multiprocessing
import random
import re
import subprocess
import sys
import time

COUNT = 5000
DONE, REFUSED, PAST = 0, 6, 7


def key_word(draw):
    length = draw.choice((1, 1, 2, 3, 32))
    return ''.join(draw.choice(('a', 'b', 'Z', '~', '=', '%25', '%00', '%FF', '%20')) for _ in range(length))


def value_word(draw, most):
    length = draw.choice((0, 1, 1, 2, 8, 40, most))
    return '=' + ''.join(draw.choice(('x', 'y', '%0A', '%C3')) for _ in range(min(length, most)))


class Maker:
    """Makes the lines of a schedule. It is told how many packets were sent so far."""

    def __init__(self, draw):
        self.draw = draw
        self.format = draw.choice((1, 2))
        self.servers = draw.choice((1, 2, 3, 5, 16 if self.format == 1 else 64))
        self.clients = draw.choice((1, 2, 4, 9))
        self.switches = draw.randrange(1, 5)
        self.listed = draw.choice((1, 2, 4, 64))
        self.keys = sorted({key_word(draw) for _ in range(draw.choice((1, 2, 5, 20)))})
        self.sent = 0
        self.kinds, self.weights = zip(*self.lines())

    def rack(self):
        draw = self.draw
        words = [f'rack servers={self.servers} clients={self.clients} switches={self.switches}'
                 f' listed={self.listed} hot={draw.randrange(1, 13)} first={draw.choice((1, 1, 7, 2 ** 40))}']
        if self.format == 2:
            words.append('format=2')
        listed = draw.randrange(min(self.listed, len(self.keys)) + 1)
        words.extend('+' + key for key in draw.sample(self.keys, listed))
        return ' '.join(words)

    def lines(self):
        """Each kind of line: how it is made, and how often among the others."""
        draw, key, client = self.draw, lambda: self.draw.choice(self.keys), lambda: self.draw.randrange(self.clients)
        most = 512 if self.format == 1 else 1024
        kinds = [
            (lambda: f'read {client()} {key()}', 40),
            (lambda: f'write {client()} {key()} {value_word(draw, most)}', 30),
            (lambda: f'resend {client()}', 8),
            (lambda: f'giveup {client()}', 6),
            (lambda: self.deliver(), 200),
            (lambda: self.junk(), 4),
            (lambda: f'promote {key()}', 4),
            (lambda: f'demote {key()}', 2),
            (lambda: f'copy {key()} {draw.randrange(self.servers + 1)}', 4),
            (lambda: f'fence {key()}', 2),
            (lambda: f'handover {draw.randrange(self.switches + 1)}', 1),
            (lambda: 'clear', 1),
            (lambda: 'retry', 3),
            (lambda: 'survey', 1),
            (lambda: f'plan {draw.randrange(9)} {draw.randrange(9)}', 1),
        ]
        if self.format == 2:
            kinds.append((lambda: f'delete {client()} {key()}', 8))
        return kinds

    def some(self, count):
        return [make() for make in self.draw.choices(self.kinds, self.weights, k=count)]

    def deliver(self):
        draw = self.draw
        back = 0 if draw.random() < 0.6 else int(draw.expovariate(1 / draw.choice((3, 30, 300))))
        number = max(0, self.sent - 1 - back)
        return f'deliver {number}' if draw.random() < 0.5 else f'deliver {number} {draw.randrange(200)}'

    def junk(self):
        draw = self.draw
        node = draw.choice(('client 0', 'server 0', 'switch 0', 'controller'))
        kind, rest = draw.randrange(20), bytes(draw.randrange(256) for _ in range(draw.choice((0, 1, 20, 60))))
        return f'junk {node} x{(b"PG" + bytes((draw.randrange(4), kind)) + rest).hex()}'


def played(program, draw):
    """Plays a schedule while it is made: after every few lines their trace is read, which says how many
    packets were sent. Gives the schedule, and what the program answered."""
    maker = Maker(draw)
    pipe = subprocess.PIPE
    with subprocess.Popen([program, 'replay'], stdin=pipe, stdout=pipe, stderr=pipe) as process:
        text, output, left = [], [], COUNT
        lines, sent = [maker.rack()], 0
        while lines:
            given = ''.join(line + '\n' for line in lines).encode()
            process.stdin.write(given)
            process.stdin.flush()
            text.append(given)
            for _ in lines:
                answer = process.stdout.readline()
                output.append(answer)
                if b' sends ' in answer:
                    sent = int(re.split(b'[ .]', answer.rstrip())[-1]) + 1
            maker.sent = sent
            count = min(left, draw.choice((1, 1, 1, 2, 10)))
            left -= count
            lines = maker.some(count)
        text.append(b'end\n')
        rest, said = process.communicate(b'end\n')
        return b''.join(text), (process.returncode, b''.join(output) + rest, said.decode().strip())


def bent(draw, text):
    """The text with one thing changed. Not all of these make it one that is refused."""
    way, at = draw.randrange(7), draw.randrange(len(text))
    byte = bytes((draw.choice((0, 10, 13, 32, 37, 48, 57, 120, 255)),))
    if way == 0:
        return text[:at] + byte + text[at + 1:]
    if way == 1:
        return text[:at] + text[at + 1:]
    if way == 2:
        return text[:at] + byte + text[at:]
    if way == 3:
        return text[:at]
    lines = text.splitlines(keepends=True)
    number = draw.randrange(len(lines))
    line = lines.pop(number)
    if way == 4:
        lines[number:number] = [line, line]
    elif way == 5:
        lines.insert(draw.randrange(len(lines) + 1), line)
    return b''.join(lines)


def carried_out(program, word, given):
    done = subprocess.run([program, word], input=given, capture_output=True, timeout=60)
    return done.returncode, done.stdout, done.stderr.decode(errors='replace').strip()


def refused_line(status, said):
    words = {REFUSED: 'is not accepted', PAST: 'is past the limit'}[status]
    found = re.fullmatch(r'peg: line (\d+) ' + words, said)
    return int(found.group(1)) if found else None


def fault_of_check(program, draw, output):
    status, verdict, said = carried_out(program, 'check', output)
    if status != DONE or not verdict.startswith(b'yes '):
        return f'check of its output: status {status}, {said or verdict.decode()}'
    start = output.rindex(b'\nhistory ') + 1
    status, verdict, said = carried_out(program, 'check', bent(draw, output[start:]))
    if status == DONE and verdict.split(b' ')[0] in (b'yes', b'no') or status == REFUSED and refused_line(status, said):
        return None
    return f'check of its output, bent: status {status}, {said or verdict.decode()}'


def fault_of_refusal(program, text, output, line):
    before = b'\n'.join(text.split(b'\n')[:line - 1])
    if output.count(b'\n') != line - 1:
        return f'line {line} is refused, and {output.count(10)} lines are written'
    if line == 1:
        return None
    status, whole, said = carried_out(program, 'replay', before + b'\nend\n')
    if status != DONE or not whole.startswith(output):
        return f'the lines before line {line}: status {status}, {said}'
    return None


def judged(given):
    """What a schedule comes to, and what is wrong with it."""
    program, number = given
    draw = random.Random(number)
    text, (status, output, said) = played(program, draw)
    answered, missed = output.count(b' answered '), output.count(b'no such packet')
    fault = None if status == DONE else f'status {status}, {said}'
    if not fault and number % 2 == 1:
        text = bent(draw, text)
        status, output, said = carried_out(program, 'replay', text)
    if not fault and status == DONE:
        fault = fault_of_check(program, draw, output)
    elif not fault and status in (REFUSED, PAST) and refused_line(status, said):
        fault = fault_of_refusal(program, text, output, refused_line(status, said))
    elif not fault:
        fault = f'status {status}, {said}'
    if fault:
        name = f'fuzz-{number}.schedule'
        with open(name, 'wb') as kept:
            kept.write(text)
        fault = f'{name}: {fault}'
    return status, fault, answered, missed


def main():
    program = sys.argv[1]
    events = int(sys.argv[2]) if len(sys.argv) > 2 else 1_000_000
    seed = int(sys.argv[3]) if len(sys.argv) > 3 else 0
    count = -(-events // COUNT)
    counts, answered, missed, faults, begun = {}, 0, 0, [], time.monotonic()
    with multiprocessing.Pool() as pool:
        for status, fault, some, few in pool.imap_unordered(judged, ((program, seed + i) for i in range(count))):
            counts[status] = counts.get(status, 0) + 1
            answered, missed = answered + some, missed + few
            if fault:
                faults.append(fault)
    took = time.monotonic() - begun
    print(f'{count} schedules, {count * COUNT} events, {count * COUNT / took:.0f} events a second')
    print(f'{counts.get(DONE, 0)} done, {counts.get(REFUSED, 0)} with a line refused, {counts.get(PAST, 0)} past a limit')
    print(f'{answered} lines that say answered, {missed} deliveries of a packet that was not sent')
    for fault in faults:
        print(fault)
    sys.exit(1 if faults else 0)


if __name__ == '__main__':
    main()
