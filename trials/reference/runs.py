#!/usr/bin/env python3
"""The second program's `run`, to try the trials of runs themselves. Actors don't act in threads but in turn, as a number drawn at
random says; for each hand there is a thread, which waits. Every other command is reference.py's.

    trials/reference/runs.py run SCENARIO SCRIPT WORDS --hands H --turns T

WRONG makes a run of which every clause of the program's call holds too:
    proxies_idle     proxies make no turns
    clients_deaf     proxies and screens take no frame
    intruders_last   intruded masters act after all others ended
    cries_lost       what is cried comes to nobody
    in_order         past a hundred turns a hand one actor makes all its turns after another
    one_hand         hands above one are passed over"""

import os
import random
import sys
import threading

sys.dont_write_bytecode = True
sys.path.insert(0, os.path.dirname(os.path.realpath(__file__)))
import reference as second  # noqa: E402

WRONG = os.environ.get('WRONG', '')


class Run:
    """The actors of a run, what comes to each from outside and from others, and all entries so far."""

    def __init__(self, scenario, script, words, hands, turns):
        self.scenario, self.turns = scenario, turns
        self.hands = [hands if scenario.is_master(actor) else 1 for actor in range(scenario.actors)]
        self.benches = [second.Bench(scenario, actor) for actor in range(scenario.actors)]
        self.inboxes = [[] for _ in self.benches]
        self.inputs = [inputs_of(script, words, actor) for actor in range(scenario.actors)]
        self.made = [0] * scenario.actors
        self.entries = []

    def may(self, actor):
        if self.benches[actor].halted or self.made[actor] >= self.turns:
            return False
        if WRONG == 'proxies_idle' and self.scenario.is_proxy(actor):
            return False
        if WRONG == 'intruders_last' and actor in self.scenario.intruded:
            return not any(self.may(other) for other in range(self.scenario.actors) if other not in self.scenario.intruded)
        return True

    def next_actor(self, draw):
        """Whose turn it is, or None at the end."""
        ready = [actor for actor in range(self.scenario.actors) if self.may(actor)]
        if ready and WRONG == 'in_order':
            early = [actor for actor in ready if self.made[actor] < 100 * self.hands[actor]]
            return draw.choice(early) if early else ready[0]
        return draw.choice(ready) if ready else None

    def given(self, actor):
        """The event of the next input, and to whom a cry goes; None where it is a word that can't be said yet."""
        kind, *fields = self.inputs[actor][0]
        if kind != 'cry':
            self.inputs[actor].pop(0)
            return (kind, *fields), None
        to, word = fields
        said = self.benches[actor].speak(word)
        if said is None:
            return None, None
        self.inputs[actor].pop(0)
        return ('cry', *said), to

    def taken(self, actor):
        """The event of the first frame that has come and stands, or None."""
        if WRONG == 'clients_deaf' and not self.scenario.is_master(actor):
            return None
        while self.inboxes[actor]:
            stamp, place, frame = self.inboxes[actor].pop(0)
            if second.check(self.scenario.ring(), frame) is None:
                return 'took', stamp, place, frame
        return None

    def turn(self, actor):
        bench, number, event, to = self.benches[actor], self.made[actor] + 1, None, None
        if number % 4 == 1 and self.inputs[actor]:
            event, to = self.given(actor)
        elif number % 4:
            event = self.taken(actor)
        entry = bench.act(len(self.entries), event or ('tick',))
        self.entries.append(entry)
        self.made[actor] += 1
        if bench.halted:
            return
        if entry.event[0] == 'restart':
            before, frames = bench.last_frames()
            for place, frame in enumerate(frames):
                self.post(before.stamp, place, frame, second.addressees(self.scenario, actor, frame.body))
        for place, frame in enumerate(entry.said):
            self.post(entry.stamp, place, frame, second.addressees(self.scenario, actor, frame.body))
        if to and entry.cried is not None and WRONG != 'cries_lost':
            self.post(entry.stamp, 0, entry.cried, to)

    def post(self, stamp, place, frame, to):
        for actor in to:
            self.inboxes[actor].append((stamp, place, frame))

    def text(self):
        draw = random.Random(self.turns)
        ended = threading.Event()
        for _ in range(len(self.hands) if WRONG == 'one_hand' else sum(self.hands)):
            threading.Thread(target=ended.wait, daemon=True).start()
        while (actor := self.next_actor(draw)) is not None:
            self.turn(actor)
        ended.set()
        return second.write_run(self.scenario, self.benches, self.entries)


def inputs_of(script, words, actor):
    """An actor's lines that tell what comes from outside, its words in the place of its cries while there are any."""
    left, found = [word for word in words if word[0] == actor], []
    for _, kind, *fields in script:
        if kind in ('command', 'field', 'poll', 'restart') and fields[0] == actor:
            found.append((kind, *fields[1:]))
        elif kind == 'cry' and fields[0] == actor:
            found += [('cry', to, word) for _, to, word in left[:fields[1]]]
            left = left[fields[1]:]
    return found


def run(args):
    """The text of a run; its files are read as for a play."""
    scenario_name, script_name, words_name, _, hands, _, turns = args
    files = second.RealFiles()
    scenario = second.load_scenario(files, scenario_name)
    read = {'script': second.read_script, 'words': second.read_words}
    for what, name in (('script', script_name), ('words', words_name)):
        try:
            read[what] = read[what](files.load(name), scenario)
        except second.LineRefusal as refusal:
            raise second.End(5, f'spire: {what} {refusal}') from refusal
    return Run(scenario, read['script'], read['words'], int(hands), int(turns)).text()


def main(argv):
    if argv[:1] != ['run'] or len(argv) != 8:
        return second.main(argv)
    second.set_stage(20)
    try:
        sys.stdout.write(run(argv[1:]))
    except second.End as end:
        sys.stderr.write(end.line + '\n')
        return end.status
    return 0


sys.exit(main(sys.argv[1:]))
