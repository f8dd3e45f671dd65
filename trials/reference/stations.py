#!/usr/bin/env python3
"""The second program's `station`, `merge` and `key`: a stand-in for the proved ones, written from the definitions of
crates/station_rules/specs, crates/station_lives/specs, crates/kept_lines/specs, crates/joint_lists/specs,
crates/station_files/specs and crates/command_files/specs. Every other command is reference.py's.

    trials/reference/stations.py station SCENARIO ACTOR KEEP [RING KEY]
    trials/reference/stations.py merge SCENARIO KEEP ..
    trials/reference/stations.py key SCENARIO ACTOR

WRONG makes a station, or a merge, that the trials have to find out:
    says_first       words are put out before they are kept
    forgets          what was kept is thrown away at a start
    hides            a merge leaves out entries that take frames which nobody's file says"""

import errno
import fcntl
import functools
import os
import re
import sys
import time

sys.dont_write_bytecode = True
sys.path.insert(0, os.path.dirname(os.path.realpath(__file__)))
import reference as second  # noqa: E402

WRONG = os.environ.get('WRONG', '')
MOST_LINE = 4 * 1024 * 1024
DIGEST_PART = 72
# Signed keys of upper levels are the same for many words, and so are frames inside others.
second.tree_verify = functools.lru_cache(maxsize=65536)(second.tree_verify)


class Unclear(Exception):
    """A line that is none."""


class Refused(Exception):
    """An event that can't come."""


# What an event is, and what it makes ---------------------------------------------------------------

def event_asked(line):
    """The event of a line that may come from outside, with its frame's bytes in the place of the frame."""
    try:
        line.decode('utf-8')
        if b'says' in line.split(b' '):
            raise Unclear()
        event = second.entry_line(b'0 m0 ' + line)[2]
    except (UnicodeDecodeError, second._BadLine) as fault:
        raise Unclear() from fault
    if event[0] not in ('took hex', 'tick', 'command', 'field', 'poll'):
        raise Unclear()
    return event


def asked(line):
    """('again', STAMP), or the event that the line gives."""
    words = line.split(b' ')
    if words[0] != b'again':
        return event_asked(line)
    try:
        if len(words) != 2:
            raise Unclear()
        return 'again', second.number(words[1], second.U64MAX)
    except second._BadLine as fault:
        raise Unclear() from fault


class Station:
    """What one actor did, and what it makes of events."""

    def __init__(self, scenario, actor):
        self.scenario, self.actor, self.name = scenario, actor, scenario.name(actor)
        self.bench = second.Bench(scenario, actor)
        self.taken = set()           # digests of the frames that were taken

    @property
    def entries(self):
        return self.bench.list

    def standing(self, event):
        """The event with its frame, where that is there and stands."""
        if event[0] not in ('took', 'took hex'):
            return event
        if event[0] == 'took':
            _, stamp, place = event
            frame = self.entries[stamp].frame(place) if stamp < len(self.entries) else None
        else:
            # a frame that is told by its bytes counts as said at the entry before: there is one once the station was started
            stamp, place = len(self.entries) - 1, second.U32MAX
            frame = second.try_read_frame(event[1]) if self.entries else None
        if frame is None or second.check(self.scenario.ring(), frame) is not None:
            raise Refused()
        return 'took', stamp, place, frame

    def add(self, event):
        """The entry that an event makes."""
        event = self.standing(event)
        if self.bench.halted or not self.bench.fits(event):
            raise Refused()
        entry = self.bench.act(len(self.entries), event)
        if event[0] == 'took':
            self.taken.add(second.H(event[3].bytes))
        return entry

    def kept_line(self, entry):
        """The line that is kept of an entry, without its line feed."""
        line = f'{entry.stamp} {self.name} {second.event_text(entry.event)}'
        if entry.said:
            line += ' says ' + ' '.join(second.KINDS[f.body.kind] for f in entry.said)
        return f'{line} digest {second.H(b"".join(f.bytes for f in entry.said)).hex()}'.encode()

    def word_lines(self, entry):
        out = []
        for frame in entry.said + ([entry.cried] if entry.cried else []):
            to = second.addressees(self.scenario, self.actor, frame.body)
            names = ','.join(self.scenario.name(a) for a in to) or '-'
            out.append(f'say {names} {second.hex_text(frame.bytes)}\n')
        return ''.join(out).encode()

    def words_since(self, stamp):
        return b''.join(self.word_lines(e) for e in self.entries if stamp <= e.stamp)

    # What was kept ---------------------------------------------------------------------------------

    def add_kept(self, line):
        """Adds the entry that a line was kept of, or answers why it can't."""
        count = len(self.entries)
        try:
            line.decode('utf-8')
            stamp, name, event, _ = second.entry_line(line[:max(0, len(line) - DIGEST_PART)])
        except (UnicodeDecodeError, second._BadLine):
            return f'BadLine {count + 1}'
        if stamp != count or self.scenario.actor_of(*name) != self.actor:
            return f'NotLegal {count}'
        try:
            entry = self.add(event)
        except Refused:
            return f'NotLegal {count}'
        return None if line == self.kept_line(entry) else f'OtherWords {count}'

    def reopen(self, text):
        """The entries of whole lines; answers the first fault."""
        for line in text.split(b'\n')[:-1]:
            fault = self.add_kept(line)
            if fault is not None:
                return fault
        return None


# What is told of what an actor came to ---------------------------------------------------------------

class Come:
    """How far an actor had come: what is noted is what came since."""

    def __init__(self, station):
        self.station = station
        self.view, self.executed, self.done = self.now()

    def now(self):
        bench = self.station.bench
        return bench.view(), len(bench.executions()), len(bench.writes()) + len(bench.board())

    def notes(self):
        bench, scenario = self.station.bench, self.station.scenario
        view, executed, done = self.now()
        out = []
        if view != self.view:
            out.append(f'view {view}')
        for number, u in enumerate(bench.executions()[self.executed:], self.executed + 1):
            out.append(f'executed {number} {scenario.name(scenario.sizes.n + u.a[0])} {u.a[1]} {second.op_text(u.a[2])}')
        if done != self.done:
            out += [f'write {line}' for line in write_lines(bench)[self.done:]]
            out += [f'notice {line}' for line in notice_lines(bench)[self.done:]]
        self.view, self.executed, self.done = view, executed, done
        return ''.join(f'note {line}\n' for line in out).encode()


def write_lines(bench):
    return [f'{number} {point} {raw} ' + ('ok' if exception is None else f'exception {exception}')
            for number, point, raw, exception in bench.writes()]


def notice_lines(bench):
    out = []
    for number, what, t, about in bench.board():
        line = f'{number} {second.NOTICES[what]}'
        if what <= 6 or what == 9:
            line += f' {t}'
        if 2 <= what <= 8:
            line += f' {about}'
        out.append(line)
    return out


# The file, and what waits ----------------------------------------------------------------------------

def open_kept(name):
    """The file, which no other process has."""
    try:
        file = os.open(name, os.O_RDWR | os.O_APPEND | os.O_CREAT, 0o600)
    except OSError as fault:
        raise second.End(3, f'spire: file {name} fault') from fault
    try:
        fcntl.flock(file, fcntl.LOCK_EX | fcntl.LOCK_NB)
        folder = os.open(os.path.dirname(name) or '.', os.O_RDONLY)
        os.fsync(folder)
        os.close(folder)
    except OSError as fault:
        if fault.errno in (errno.EWOULDBLOCK, errno.EACCES):
            raise second.End(3, 'spire: keep InUse') from fault
        raise second.End(3, f'spire: file {name} fault') from fault
    return file


def recover(file, name):
    """The whole lines of the file; a torn one behind them is cut off."""
    try:
        with os.fdopen(os.dup(file), 'rb') as it:
            it.seek(0)
            text = it.read()
        whole = text.rfind(b'\n') + 1
        if WRONG == 'forgets':
            whole = 0
        if whole < len(text):
            os.ftruncate(file, whole)
        os.fsync(file)
    except OSError as fault:
        raise second.End(3, f'spire: file {name} fault') from fault
    return text[:whole]


def put_all(file, data):
    data = memoryview(data)
    while data:
        data = data[os.write(file, data):]


class Batch:
    """What is to be kept, and what is to be put out once it is."""

    def __init__(self, file):
        self.file, self.lines, self.out, self.has_words = file, [], [], False

    def keep(self, line):
        self.lines.append(line + b'\n')

    def say(self, words):
        if words:
            self.out.append(words)
            self.has_words = True

    def note(self, text):
        self.out.append(text)

    def release(self):
        lines, out = b''.join(self.lines), b''.join(self.out)
        if WRONG == 'says_first':
            self.put(out)
            time.sleep(0.3)
            out = b''
        try:
            put_all(self.file, lines)
            if self.has_words:
                os.fdatasync(self.file)
        except OSError as fault:
            raise second.End(10, 'spire: keep fault') from fault
        self.put(out)
        self.lines, self.out, self.has_words = [], [], False

    @staticmethod
    def put(out):
        try:
            put_all(1, out)
        except OSError as fault:
            raise second.End(6, 'spire: output fault') from fault


def lines_of(file):
    """The lines that come in, each with whether another one waits whole; None is one that has no room, or that no line feed
    ends."""
    rest, is_long = b'', False
    while True:
        piece = os.read(file, 1 << 16)
        if not piece:
            if rest or is_long:
                yield None, False
            return
        lines = (rest + piece).split(b'\n')
        rest = lines.pop()
        for at, line in enumerate(lines):
            yield (None if is_long or len(line) > MOST_LINE else line), at + 1 < len(lines)
            is_long = False
        if len(rest) > MOST_LINE:
            rest, is_long = b'', True


# The commands ------------------------------------------------------------------------------------------

def enter(station, batch, come, event):
    """Adds the entry of an event: its line is kept, and its words and notes are told."""
    entry = station.add(event)
    batch.keep(station.kept_line(entry))
    batch.say(station.word_lines(entry))
    batch.note(come.notes())


def start(station, batch, come):
    """What a station does before any line comes: it tells how far it is, and where it did nothing yet its start is an entry."""
    batch.note(f'note begun {len(station.entries)} left {station.bench.leaves()}\n'.encode())
    if not station.entries:
        enter(station, batch, come, ('restart',))


def answer(station, batch, come, line):
    """What a line comes to."""
    try:
        event = asked(line) if line is not None else None
        if event is None:
            raise Unclear()
    except Unclear:
        batch.note(b'note badline\n')
        return
    if event[0] == 'again':
        batch.say(station.words_since(event[1]))
        return
    if event[0] == 'took hex' and second.H(event[1]) in station.taken:
        batch.note(b'note repeated\n')
        return
    try:
        enter(station, batch, come, event)
    except Refused:
        batch.note(b'note refused\n')


# Keys that only their owner has --------------------------------------------------------------------

def load_seedless(name):
    """A scenario without a seed, as it is behind a line of zeros."""
    data = second.RealFiles().load(name)
    try:
        second.Scenario.read(data)
    except second.ScenarioRefusal as fault:
        if str(fault) != 'MissingKey seed':
            raise second.End(4, f'spire: scenario {fault}') from fault
    else:
        raise second.End(4, 'spire: scenario UnknownKey seed')
    try:
        return second.Scenario.read(b'seed = "' + b'0' * 64 + b'"\n' + data)
    except second.ScenarioRefusal as fault:
        raise second.End(4, f'spire: scenario {fault}') from fault


def read_ring(scenario, data):
    """The public keys of all actors; BadLine at the first line that isn't its actor's."""
    *lines, rest = data.split(b'\n')
    publics = []
    for actor in range(scenario.actors):
        line = lines[actor] if actor < len(lines) else b''
        found = re.fullmatch(scenario.name(actor).encode() + b' ([0-9a-f]{120})', line)
        if not found:
            raise second.End(5, f'spire: ring BadLine {actor + 1}')
        publics.append(bytes.fromhex(found[1].decode()))
    if lines[scenario.actors:] or rest:
        raise second.End(5, f'spire: ring BadLine {scenario.actors + 1}')
    return publics


def read_own_key(actor, data):
    """The seed and the identifier of this actor's line."""
    found = re.fullmatch(actor.encode() + b' ([0-9a-f]{64}) ([0-9a-f]{32})\n', data)
    if not found:
        raise second.End(5, 'spire: key BadLine 1')
    return tuple(bytes.fromhex(digits.decode()) for digits in found.groups())


def hold(scenario, publics, seed, identifier):
    """The scenario as one knows it who has this ring and this key alone."""
    scenario._ring = second.Ring(scenario.sizes, scenario.clients, publics)
    scenario.key = lambda actor: second.KeyState(seed, identifier, scenario.heights, second.W4)


def actor_named(scenario, word):
    name = second.parse_actor(word.encode('utf-8', 'surrogateescape'))
    number = scenario.actor_of(*name) if name else None
    if number is None:
        raise second.usage()
    return number


def key_command(scenario_name, actor):
    if any(word.startswith('-') for word in (scenario_name, actor)):
        raise second.usage()
    scenario = second.load_scenario(second.RealFiles(), scenario_name)
    key = scenario.key(actor_named(scenario, actor))
    return f'{actor} {key.seed.hex()} {key.ident.hex()}\n'


def station_command(scenario_name, actor, keep, *keys):
    scenario = load_seedless(scenario_name) if keys else second.load_scenario(second.RealFiles(), scenario_name)
    number = actor_named(scenario, actor)
    if not scenario.correct(number):
        # a station is a correct actor
        raise second.usage()
    if keys:
        publics = read_ring(scenario, second.RealFiles().load(keys[0]))
        hold(scenario, publics, *read_own_key(actor, second.RealFiles().load(keys[1])))
    file = open_kept(keep)
    if keys and scenario.key(number).public() != publics[number]:
        raise second.End(5, 'spire: key OtherKey')
    station = Station(scenario, number)
    fault = station.reopen(recover(file, keep))
    if fault is not None:
        raise second.End(5, f'spire: keep {fault}')
    batch, come = Batch(file), Come(station)
    start(station, batch, come)
    batch.release()
    for line, is_ahead in lines_of(0):
        answer(station, batch, come, line)
        if not is_ahead:
            batch.release()
    return ''


def joined(scenario, stations):
    """The entries of all stations in one order. An actor's next entry waits where its frame, or one inside it, has a body of a correct
    actor that this actor's file says, and at none of the entries that were added so far. The actors add one each, in the order of
    their numbers and round again, passing over those whose next entry waits or whose frame, of an actor that gave a file, wasn't
    said. Where that leaves nobody the first comes whose entry doesn't wait, and where all wait the first that has one left."""
    entries, places = [], {}
    next_of = {actor: 0 for actor in stations}
    # of each actor the entry that says a body first
    first_said = {actor: {} for actor in stations}
    for actor, station in stations.items():
        for number, entry in enumerate(station.entries):
            for frame in entry.said:
                first_said[actor].setdefault(frame.body.text, number)

    def next_entry(actor):
        own = stations[actor].entries
        return own[next_of[actor]] if next_of[actor] < len(own) else None

    def waits_for(part):
        signer = part.signer
        return scenario.correct(signer) and signer in stations and first_said[signer].get(part.body.text, -1) >= next_of[signer]

    def is_ready(entry):
        return entry is not None and not (entry.event[0] == 'took' and any(map(waits_for, entry.event[3].parts)))

    def is_heard(entry):
        if entry is None or entry.event[0] != 'took':
            return True
        frame = entry.event[3]
        return second.H(frame.bytes) in places or frame.signer not in stations

    def next_actor(behind):
        actors = sorted(stations)
        for actor in [it for it in actors if it > behind] + actors:
            if is_heard(next_entry(actor)) and is_ready(next_entry(actor)):
                return actor
        left = [it for it in actors if next_entry(it) is not None]
        return next((it for it in left if is_ready(next_entry(it))), next(iter(left), None))

    def add(actor):
        old = next_entry(actor)
        next_of[actor] += 1
        event = old.event
        if event[0] == 'took':
            frame = event[3]
            place = places.get(second.H(frame.bytes))
            if place is None and WRONG == 'hides':
                return
            event = ('took', *(place or (len(entries) - 1, second.U32MAX)), frame)
        entry = second.Entry(len(entries), actor, event)
        entry.said, entry.cried = old.said, old.cried
        for place, frame in enumerate(entry.said):
            places.setdefault(second.H(frame.bytes), (entry.stamp, place))
        entries.append(entry)

    actor = next_actor(-1)
    while actor is not None:
        add(actor)
        actor = next_actor(actor)
    return entries


def load_kept(name):
    try:
        with open(name, 'rb') as it:
            return it.read()
    except (OSError, ValueError) as fault:
        raise second.End(3, f'spire: file {name} fault') from fault


def owner_of(scenario, text):
    """The actor that a file's first line names, None where it has no whole line; or why it isn't a station's."""
    if b'\n' not in text:
        return None, None
    line = text.split(b'\n', 1)[0]
    try:
        line.decode('utf-8')
        name = second.entry_line(line[:max(0, len(line) - DIGEST_PART)])[1]
    except (UnicodeDecodeError, second._BadLine):
        return None, 'BadLine 1'
    actor = scenario.actor_of(*name)
    return actor, None if actor is not None else 'NotLegal 0'


def merge_command(scenario_name, *keeps):
    scenario = second.load_scenario(second.RealFiles(), scenario_name)
    texts, stations = [load_kept(keep) for keep in keeps], {}
    for keep, text in zip(keeps, texts):
        actor, fault = owner_of(scenario, text)
        if fault is None and actor in stations:
            fault = 'Twice'
        if fault is None and actor is not None:
            stations[actor] = Station(scenario, actor)
            fault = stations[actor].reopen(text)
        if fault is not None:
            raise second.End(5, f'spire: keep {keep} {fault}')
    entries = joined(scenario, stations)
    benches = [stations[a].bench if a in stations else second.Bench(scenario, a) for a in range(scenario.actors)]
    return second.write_run(scenario, benches, entries)


def main(argv):
    calls = {'station': (station_command, (3, 5)), 'merge': (merge_command, range(2, 28)), 'key': (key_command, (2,))}
    if argv[:1] == [] or argv[0] not in calls:
        return second.main(argv)
    second.set_stage(20)
    try:
        call, counts = calls[argv[0]]
        if len(argv) - 1 not in counts:
            raise second.usage()
        sys.stdout.write(call(*argv[1:]))
        sys.stdout.flush()
    except second.End as end:
        sys.stderr.write(end.line + '\n')
        return end.status
    return 0


if __name__ == '__main__':
    sys.exit(main(sys.argv[1:]))
