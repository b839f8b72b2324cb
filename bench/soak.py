#!/usr/bin/env python3
"""Makes the schedule of a made workload:  soak.py PROGRAM EVENTS START > schedule

The schedule has the events that `PROGRAM soak EVENTS START` makes, so that the two can be compared.
Which packet an event delivers depends on how many were sent before it, so `PROGRAM replay` is given
the events one by one and its trace is read along.
"""
import re
import subprocess
import sys

MULTIPLIER = 0x2360ED051FC65DA44385DF649FCCF645
MASK = (1 << 128) - 1
WEIGHTS = [128, 64, 32, 16] + [8] * 12


class Pcg64:
    def __init__(self, state, stream):
        self.increment = stream << 1 | 1
        self.state = state + self.increment & MASK
        self.step()

    def step(self):
        self.state = self.state * MULTIPLIER + self.increment & MASK

    def below(self, n):
        self.step()
        turn, word = self.state >> 122, (self.state >> 64 ^ self.state) & (1 << 64) - 1
        return ((word >> turn | word << (64 - turn)) & (1 << 64) - 1) % n


def key(draw):
    left = draw(336)
    for number, weight in enumerate(WEIGHTS):
        if left < weight:
            return f'k{number}'
        left -= weight


def event(draw, number, sent):
    d = draw(32)
    if d < 4:
        return f'read {draw(8)} {key(draw)}'
    if d < 7:
        return f'write {draw(8)} {key(draw)} =v{number}'
    if d < 9:
        return f'{"resend" if d == 7 else "giveup"} {draw(8)}'
    if d == 9:
        return f'junk switch {draw(2)} x{draw((1 << 64) - 1):016x}'
    if d < 12:
        return f'{"promote" if d == 10 else "demote"} {key(draw)}'
    if d == 12:
        return f'copy {key(draw)} {draw(4)}'
    if d == 13:
        return f'handover {draw(2)}'
    if d < 18:
        return {14: 'survey', 15: 'plan 8 2', 16: 'clear', 17: 'retry'}[d]
    if sent == 0:
        return 'retry'
    back = draw(min(sent, 24))
    return f'deliver {sent - 1 - back} {draw(12)}'


def main():
    program, events, start = sys.argv[1], int(sys.argv[2]), int(sys.argv[3])
    replay = subprocess.Popen([program, 'replay'], stdin=subprocess.PIPE, stdout=subprocess.PIPE, text=True)

    def goes_on(line):
        print(line)
        replay.stdin.write(line + '\n')
        replay.stdin.flush()
        return replay.stdout.readline()

    goes_on('rack servers=4 clients=8 switches=2 listed=4 hot=8 first=1')
    draw, sent = Pcg64(start, 1).below, 0
    for number in range(1, events + 1):
        found = re.search(r' sends (\d+)(?:\.\.(\d+))?$', goes_on(event(draw, number, sent)).rstrip('\n'))
        if found:
            sent = int(found.group(2) or found.group(1)) + 1
    print('end')
    replay.kill()


main()
