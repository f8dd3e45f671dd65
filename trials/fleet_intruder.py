#!/usr/bin/env python3
"""An intruded master's station, for trials/fleet: it does what a correct one does, and tampers with what that says. Words go to
some of those that they are for, or to nobody; beside others it says a contradicting word of its own, which stands, since it has the
key; and it says words in other masters' names and altered ones, which don't. To each client it vouches for orders that nobody
gave, before the others vouch for one of that number: up to about three such words for each other word. These others are some RATE
words a second, and beyond that it is silent. (What it says stands in a merge by its bytes, and `replay` reads 16 MiB.)

    trials/fleet_intruder.py station SCENARIO ACTOR KEEP [RING KEY]
    DEALER: the scenario with its seed, where SCENARIO has none (of it this uses its own key alone). CORRECT: the program whose station it runs (trials/reference/stations.py)"""

import os
import random
import shlex
import subprocess
import sys
import time

sys.dont_write_bytecode = True
TOP = os.path.dirname(os.path.dirname(os.path.realpath(__file__)))
sys.path.insert(0, os.path.join(TOP, 'trials', 'reference'))
import reference as second  # noqa: E402

RATE = float(os.environ.get('RATE', '3'))


class Intruder:
    def __init__(self, scenario, actor):
        self.scenario, self.actor = scenario, actor
        self.key, self.draw = scenario.key(actor), random.Random(actor)
        # (from the last leaf down, in whatever life: what an intruder signs twice is its own affair)
        self.leaf = self.key.total - 1 - int(time.time()) % 1000 * 8
        self.words, self.vouched, self.since = 0, 0, time.monotonic()

    def line(self, to, frame):
        self.words += len(to)
        return f'say {",".join(to)} {frame.bytes.hex()}\n'.encode()

    def signed(self, body, signer=None):
        self.leaf = (self.leaf - 1) % self.key.total
        leaf = self.leaf
        return second.Frame(self.actor if signer is None else signer, body, sig=self.key.sign_at(leaf, body.text))

    def other(self, body):
        """A word that contradicts this one, or None."""
        wrong, kind, a = second.H(body.text), body.kind, body.a
        if kind in (second.POACK, second.PREPARE, second.COMMIT):
            return second.Body(kind, a[0], a[1], wrong)
        if kind == second.POSUMMARY:
            return second.Body(kind, tuple(0 for _ in a[0]))
        if kind == second.PREPREPARE:
            return second.Body(kind, a[0], a[1], a[2][:-1])
        if kind == second.VOUCHER and a[2][0] == 'write':
            return second.Body(kind, a[0], a[1], ('write', a[2][1], a[2][2] ^ 1))
        if kind == second.VOUCHER:
            return second.Body(kind, a[0], a[1], ('notice', 2, a[2][2], 0))
        return None

    def says(self, line):
        """What is said in a line's place."""
        _, names, text = line.decode().split()
        names, frame, ahead = names.split(','), second.read_frame(bytes.fromhex(text)), b''
        due = RATE * (time.monotonic() - self.since) + 10
        if frame.body.kind == second.VOUCHER and self.vouched <= 3 * due:
            # before anybody's vouchers of the next number, one for an order that nobody gave
            client, number, _ = frame.body.a
            order = self.other(frame.body).a[2]
            self.vouched += 1
            ahead = self.line(names, self.signed(second.Body(second.VOUCHER, client, number + 1, order)))
        if self.words > due:
            return ahead
        return ahead + self.tampered(line, names, frame)

    def tampered(self, line, names, frame):
        how, some = self.draw.randrange(10), self.draw.sample(names, (len(names) + 1) // 2)
        if how < 4:
            self.words += len(names)
            return line
        if how < 5:
            return b''
        if how < 7:
            return self.line(some, frame)
        if how < 9 and (body := self.other(frame.body)) is not None:
            rest = [name for name in names if name not in some]
            return self.line(some, self.signed(body)) + (self.line(rest, frame) if rest else b'')
        altered = second.Frame(frame.signer, self.other(frame.body) or second.Body(second.SUSPECT, 7), sig=frame.sig)
        return self.line(some, self.signed(frame.body, signer=1)) + self.line(some, altered)


def main():
    second.set_stage(20)
    correct = shlex.split(os.environ.get('CORRECT') or f'{sys.executable} {TOP}/trials/reference/stations.py')
    _, scenario, actor, _ = sys.argv[1:5]
    with open(os.environ.get('DEALER') or scenario, 'rb') as it:
        scenario = second.Scenario.read(it.read())
    intruder = Intruder(scenario, scenario.actor_of(*second.parse_actor(actor.encode())))
    station = subprocess.Popen([*correct, *sys.argv[1:]], stdout=subprocess.PIPE)
    for line in station.stdout:
        sys.stdout.buffer.write(intruder.says(line) if line.startswith(b'say ') else line)
        sys.stdout.buffer.flush()
    return station.wait()


if __name__ == '__main__':
    sys.exit(main())
