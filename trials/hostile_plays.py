"""Plays with intruders, lost masters, restarts and failing keepers, made from a seed. What an intruder may say depends on what
it has taken, so a play is made in stages: each is played before the next one is chosen."""

import hashlib
import random
import struct
from collections import Counter

KINDS = ('', 'update', 'porequest', 'poack', 'posummary', 'preprepare', 'prepare', 'commit', 'ping', 'pong', 'rtt', 'tatreport',
         'tatbound', 'suspect', 'report', 'newview', 'askupdate', 'give', 'askorder', 'giveordered', 'voucher', 'mark')
PLANT = '''[[proxy]]
coils = 2
discrete = 0
holding = 1
input = 1
[[proxy]]
coils = 2
discrete = 0
holding = 0
input = 0
[[point]]
name = "feeder_amps"
proxy = 0
area = "input"
place = 0
scale = 10
low = 0
high = 20000
[[point]]
name = "breaker"
proxy = 0
area = "coil"
place = 0
low = 0
high = 1
[[point]]
name = "pump"
proxy = 1
area = "coil"
place = 9
low = 0
high = 1
[[alarm]]
name = "overload"
point = "feeder_amps"
kind = "high"
limit = 9000
band = 500
[[interlock]]
name = "no_close"
point = "breaker"
value = 1
deny = "alarm overload"
'''


def digest(data):
    return hashlib.sha256(data).digest()


class ForgedKey:
    """An actor's key of one level of height 5 with w = 4 (RFC 8554), made from the scenario's seed by one who isn't the actor."""

    def __init__(self, seed, actor):
        self.seed = digest(seed + struct.pack('>IB', actor, 0))
        self.id = digest(seed + struct.pack('>IB', actor, 1))[:16]
        self.nodes = [self.leaf(leaf) for leaf in range(32)]
        self.levels = [self.nodes]
        first = 32
        while len(self.levels[-1]) > 1:
            below = self.levels[-1]
            first //= 2
            self.levels.append([digest(self.id + struct.pack('>IH', first + x, 0x8383) + below[2 * x] + below[2 * x + 1])
                                for x in range(len(below) // 2)])

    def chain(self, leaf, place, first, last):
        head = self.id + struct.pack('>IH', leaf, place)
        value = digest(head + b'\xff' + self.seed) if first == 0 else None
        for step in range(first, last):
            value = digest(head + bytes([step]) + value)
        return value

    def leaf(self, leaf):
        chains = b''.join(self.chain(leaf, place, 0, 15) for place in range(67))
        public = digest(self.id + struct.pack('>IH', leaf, 0x8080) + chains)
        return digest(self.id + struct.pack('>IH', 32 + leaf, 0x8282) + public)

    def sign(self, leaf, text):
        randomizer = digest(self.id + struct.pack('>IHB', leaf, 0xfffd, 0xff) + self.seed)
        hashed = digest(self.id + struct.pack('>IH', leaf, 0x8181) + randomizer + text)
        digits = [nibble for byte in hashed for nibble in (byte >> 4, byte & 15)]
        check = sum(15 - digit for digit in digits) << 4
        digits += [check >> 12 & 15, check >> 8 & 15, check >> 4 & 15]
        chains = b''.join(self.chain(leaf, place, 0, digit) for place, digit in enumerate(digits))
        path = b''.join(level[leaf >> x ^ 1] for x, level in enumerate(self.levels[:-1]))
        return struct.pack('>III', 0, leaf, 3) + randomizer + chains + struct.pack('>I', 5) + path


def frame(signer, body, signature):
    return struct.pack('>II', signer, len(body)) + body + struct.pack('>I', len(signature)) + signature


def frames_inside(data):
    """The frame's own bytes and those of the frames that a porequest, a preprepare or a newview holds."""
    found = [data]
    if len(data) < 10:
        return found
    size, kind = struct.unpack('>IH', data[4:10])
    body = data[8:8 + size]
    at = {2: 10, 5: 20, 15: 12}.get(kind)
    while at and at + 8 <= len(body):
        inner = struct.unpack('>I', body[at + 4:at + 8])[0]
        if at + 12 + inner > len(body):
            break
        signature = struct.unpack('>I', body[at + 8 + inner:at + 12 + inner])[0]
        end = at + 12 + inner + signature
        if end > len(body):
            break
        found.append(body[at:end])
        at = end
    return found


class Seen:
    """What a printed run tells of its frames: how many each actor knows of each signer and kind, and the bytes of cries."""

    def __init__(self, text):
        self.known = {}
        self.raw = []
        said = []
        lines = text.split('\n')
        start = next(x for x, line in enumerate(lines) if line.startswith('history '))
        for line in lines[start + 1:-1]:
            event, _, kinds = line.partition(' says ')
            words = event.split(' ')
            actor = words[1]
            frames = [(actor, kind) for kind in kinds.split(' ')] if kinds else []
            if words[2] == 'cry' and len(words[3]) >= 20:
                frames = [self.cried(bytes.fromhex(words[3]))]
            said.append(frames)
            known = self.known.setdefault(actor, Counter())
            known.update(frames)
            if words[2] == 'took' and words[3] != 'frame':
                stamp, place = words[3].split('.')
                known[said[int(stamp)][int(place)]] += 1

    def cried(self, data):
        self.raw.append(data)
        signer, _, kind = struct.unpack('>IIH', data[:10])
        return f'm{signer}', KINDS[kind] if kind < len(KINDS) else ''

    def count(self, master, signer, kind):
        return self.known.get(master, Counter())[signer, kind]


class Play:
    """A play that grows by stages. `run(scenario, script, words)` gives a status, a text and a line on the error output."""

    def __init__(self, seed, run, rules=1):
        self.random = random.Random(seed)
        self.run = run
        self.rules = rules
        draw = self.random
        self.f = draw.choice([1] * 14 + [2] * 4 + [3] * 2)
        self.k = draw.choice([0, 0, 0, 1, 1, 2])
        self.n = 3 * self.f + 2 * self.k + 1
        self.q = 2 * self.f + self.k + 1
        count = draw.choice([0] + [self.f] * 8 + [self.f + 1])
        leading = draw.random() < .4
        self.intruded = sorted(draw.sample(range(self.n), count))
        if leading and self.intruded and 0 not in self.intruded:
            self.intruded = sorted([0, *self.intruded[1:]])
        self.correct = [x for x in range(self.n) if x not in self.intruded]
        self.screens = draw.randint(1, 2)
        self.has_plant = draw.random() < .35
        self.is_forging = bool(self.intruded) and draw.random() < .12
        self.frames = draw.choice([1, 2])
        self.levels = [5] if self.is_forging or draw.random() < .5 else [5, 5]
        self.seed = bytes(draw.randrange(256) for _ in range(32))
        self.script = []
        self.words = []
        self.lead = 0
        self.forged = {}

    def scenario(self):
        text = f'f = {self.f}\nk = {self.k}\nseed = "{self.seed.hex()}"\nlevels = {self.levels}\nframes = {self.frames}\n'
        text += f'intruded = {self.intruded}\nscreens = {self.screens}\n' + ('rules = 2\n' if self.rules == 2 else '')
        text += PLANT if self.has_plant else ''
        return text + ''.join(f'[[keeper]]\nactor = "{actor}"\nfailing = {calls}\n' for actor, calls in self.keepers)

    def choose_keepers(self):
        draw = self.random
        actors = [f'm{x}' for x in self.correct] + ['s0'] + ['p0'] * self.has_plant
        failing = draw.sample(actors, draw.choice([0, 0, 0, 1, 1, 2]))
        self.keepers = [(actor, sorted(draw.sample(range(1, 80), draw.randint(1, 3)))) for actor in failing]

    def make(self):
        """The status, text and line of the whole play."""
        draw = self.random
        self.choose_keepers()
        self.add_rounds(draw.randint(1, 3), 0)
        end = self.played()
        for _ in range(draw.randint(1, 2) if self.intruded else 0):
            if end[0] != 0:
                break
            self.seen = Seen(end[1])
            self.cries = []
            for _ in range(draw.randint(1, 4)):
                draw.choice(self.attacks())()
            self.add_rounds(draw.randint(1, 4), .3)
            end = self.without_faults()
        return end

    def files(self):
        return self.scenario(), ''.join(x + '\n' for x in self.script), ''.join(x + '\n' for x in self.words)

    def played(self):
        return self.run(*self.files())

    def without_faults(self):
        """Plays; a word that can't be said is taken out with its line, the first eight of them, and then all behind it. Seldom
        such a word stays, and the play ends there."""
        for tries in range(9):
            end = self.played()
            fault = end[2].split(' ')
            if end[0] != 5 or fault[2] != 'NoFrame' or (tries == 0 and self.random.random() < .05):
                break
            at = int(fault[3]) - 1
            self.take_out(at)
            if tries == 7:
                for line in range(len(self.script) - 1, at - 1, -1):
                    if self.script[line].startswith(('cry', 'take')):
                        self.take_out(line)
        return end

    def take_out(self, at):
        line = self.script.pop(at).split(' ')
        if line[0] == 'cry':
            cries = [x.split(' ') for x in self.script[:at]]
            before = sum(int(x[2]) if len(x) > 2 else 1 for x in cries if x[:2] == ['cry', line[1]])
            own = [x for x, word in enumerate(self.words) if word.startswith(line[1] + ' ')]
            for x in reversed(own[before:before + (int(line[2]) if len(line) > 2 else 1)]):
                self.words.pop(x)

    # Steps of the schedule.

    def add_rounds(self, count, hostile):
        for _ in range(count):
            self.add_round(hostile)

    def add_round(self, hostile):
        draw = self.random
        steps = []
        if draw.random() < .2:
            steps.append(f'{draw.choice(["lose", "heal", "heal"])} m{draw.randrange(self.n)}')
        if self.has_plant and draw.random() < .5:
            steps += [f'field p0 input 0 {draw.randrange(2001)}', 'poll p0']
        if draw.random() < .85:
            steps.append(f'command s{draw.randrange(self.screens)} ' + draw.choice(['ack 0', 'ack 9', 'set 1 1', 'set 1 0', 'set 2 1']))
        steps += [f'flow {draw.randint(1, 5)}', 'tick masters', f'flow {draw.randint(1, 2)}', f'tick m{self.lead}',
                  f'flow {draw.randint(1, 5)}']
        if draw.random() < .12:
            steps += ['tick masters 16', 'flow 3', 'tick masters']
        if draw.random() < .2:
            steps += [f'lose m{self.lead}', 'tick masters 24', 'flow 2', 'tick masters 8', 'flow 3']
            self.lead = (self.lead + 1) % self.n
            steps += [f'tick m{self.lead}', 'flow 3']
        if draw.random() < .12:
            steps.append('restart ' + draw.choice([f'm{x}' for x in self.correct] + ['s0']))
        if draw.random() < .05:
            steps.append('drop')
        if draw.random() < .05:
            steps.append(f'take m{draw.randrange(self.n)} m{draw.choice(self.correct)}.poack.1')
        for step in steps:
            self.script.append(step)
            while hostile and self.intruded and draw.random() < hostile:
                self.say(draw.choice(self.intruded), self.some(), self.random_word)

    # Words. `say` adds one with its cry; a word is a text or a call that makes one for its speaker.

    def say(self, master, to, word):
        if callable(word):
            word = word(master)
        if word and to:
            self.words.append(f'm{master} {",".join(f"m{x}" if isinstance(x, int) else x for x in to)} {word}')
            self.script.append(f'cry m{master}')

    def some(self):
        return sorted(self.random.sample(range(self.n), self.random.randint(1, self.n)))

    def halves(self):
        order = self.random.sample(self.correct, len(self.correct))
        cut = self.random.randint(1, max(1, len(order) - 1))
        return sorted(order[:cut] + self.intruded), sorted(order[cut:] + self.intruded)

    def ref(self, master, kind, signers=None):
        """A frame of this kind that the master is thought to know, or none."""
        there = [(signer, self.seen.count(f'm{master}', f'm{signer}', kind)) for signer in signers or range(self.n)]
        there = [x for x in there if x[1]]
        if not there:
            return None
        signer, count = self.random.choice(there)
        return f'm{signer}.{kind}.{self.random.randint(1, count)}'

    def refs(self, master, kind, least, most):
        """Frames of this kind by rising signers, as many as asked for if so many are known."""
        there = [x for x in range(self.n) if self.seen.count(f'm{master}', f'm{x}', kind)]
        if len(there) < least:
            return None
        chosen = sorted(self.random.sample(there, min(len(there), self.random.randint(least, most))))
        return ' '.join(f'm{x}.{kind}.{self.random.randint(1, self.seen.count(f"m{master}", f"m{x}", kind))}' for x in chosen)

    def view(self):
        return self.random.choice([0, 0, 0, 1, 1, 2, 3])

    def number(self):
        return self.random.choice([1, 1, 1, 2, 2, 3, 4])

    def random_word(self, master):
        draw = self.random
        v, s = self.view(), self.number()
        other = draw.randrange(self.n)
        rows = self.refs(master, 'posummary', 1, self.n)
        offer = self.ref(master, 'preprepare')
        request = self.ref(master, 'porequest')
        reports = self.refs(master, 'report', self.q, self.q)
        return draw.choice([
            f'suspect {v}', f'tatreport {v} {draw.choice([0, 8, 16, 24, 4000])}', f'tatbound {v} {draw.choice([0, 2, 4, 40])}',
            f'askupdate {other} {s}', f'askorder {s}', f'ping {s}', f'pong {other} {s}', f'rtt {other} {s} {draw.randrange(40)}',
            'posummary ' + ' '.join(str(draw.randrange(3)) for _ in range(self.n)), f'mark {draw.choice([8, 16])}',
            rows and f'preprepare {v} {s} {rows}', offer and f'prepare {v} {s} @{offer}', offer and f'commit {v} {s} @{offer}',
            request and f'poack {other} {s} @{request}', request and f'porequest {s} s0.update.{draw.randint(1, 2)}',
            f'report {v}', f'report {v} {s}:{max(0, v - 1)}', reports and f'newview {v} {reports}', f'give {other} 1',
            f'giveordered {s}', 'voucher 0 1 notice 1 1 0', self.bad_place(master), self.replayed(master),
            self.forged_word() if self.is_forging else None])

    def attacks(self):
        return [self.two_offers, self.two_requests, self.two_votes, self.unseat, self.hide, self.old_views, self.bad_places,
                self.replays, self.lie_to_clients, self.flood] + [self.forgeries] * 4 * self.is_forging

    def two_offers(self):
        """A leader's two orders for one number, each to some of the others, with votes for both."""
        one, two = self.halves()
        leader = self.random.choice(self.intruded)
        v = self.random.choice([leader, leader, self.view()]) if leader < 4 else self.view()
        s = self.number()
        offers = self.seen.count(f'm{leader}', f'm{leader}', 'preprepare')
        for x, to in enumerate((one, two), offers + 1):
            rows = self.refs(leader, 'posummary', self.q if self.random.random() < .7 else 1, self.n)
            if not rows:
                return
            self.say(leader, to, f'preprepare {v} {s} {rows}')
        self.script.append('flow 1')
        for master in self.intruded:
            for x, to in enumerate((one, two), offers + 1):
                self.say(master, to, f'prepare {v} {s} @m{leader}.preprepare.{x}')
                self.say(master, to, f'commit {v} {s} @m{leader}.preprepare.{x}')

    def two_requests(self):
        """Two porequests for one number, each to some of the others."""
        master = self.random.choice(self.intruded)
        one, two = self.halves()
        updates = [f's{x}.update.{y}' for x in range(self.screens) for y in (1, 2)]
        a, b = self.random.choice(updates), self.random.choice(updates)
        k = self.number()
        self.say(master, one, f'porequest {k} {a}')
        self.say(master, two, f'porequest {k} {b}')

    def two_votes(self):
        master = self.random.choice(self.intruded)
        v, s = self.view(), self.number()
        for kind in ('prepare', 'commit'):
            for to in self.halves():
                offer = self.ref(master, 'preprepare')
                self.say(master, to, offer and f'{kind} {v} {s} @{offer}')

    def unseat(self):
        """Suspicions and bounds that nobody can keep, of this and later views."""
        for master in self.intruded:
            for v in range(self.random.randint(1, 4)):
                self.say(master, range(self.n), f'tatbound {v} {self.random.choice([0, 1, 2])}')
                self.say(master, range(self.n), f'tatreport {v} {self.random.choice([16, 4000])}')
                self.say(master, range(self.n), f'suspect {v}')

    def hide(self):
        """Reports that tell nothing of what was prepared, and newviews over chosen reports."""
        v = self.random.randint(1, 3)
        for master in self.intruded:
            self.say(master, self.some(), f'report {v}')
        self.script += ['tick masters 24', 'flow 3', 'tick masters 8', 'flow 2']
        for master in self.intruded:
            for to in self.halves():
                reports = self.refs(master, 'report', self.q, self.q)
                self.say(master, to, reports and f'newview {v} {reports}')

    def old_views(self):
        master = self.random.choice(self.intruded)
        for v in (0, 0, 1):
            offer = self.ref(master, 'preprepare')
            rows = self.refs(master, 'posummary', 1, self.n)
            self.say(master, self.some(), offer and f'{self.random.choice(["prepare", "commit"])} {v} {self.number()} @{offer}')
            self.say(master, self.some(), rows and f'preprepare {v} {self.number()} {rows}')
            self.say(master, self.some(), f'suspect {v}')

    def bad_place(self, _master):
        far = self.random.choice([self.n, 14, 4294967295])
        late = self.random.choice([0, 4097, 2 ** 64 - 1])
        return self.random.choice([f'askupdate {far} 1', f'askorder {late}', f'suspect {self.random.choice([255, 256, 2 ** 64 - 1])}',
                                   f'mark {self.random.choice([0, 7, 9, late])}', f'pong {far} 1', f'ping {late}', f'rtt {far} 1 1',
                                   'posummary ' + ' '.join('1' for _ in range(self.random.choice([0, self.n - 1, 14]))),
                                   f'posummary {" ".join(str(late) for _ in range(self.n))}', f'tatreport 0 {2 ** 64 - 1}',
                                   'voucher 99 1 notice 1 1 0'])

    def bad_places(self):
        for _ in range(self.random.randint(1, 6)):
            self.say(self.random.choice(self.intruded), self.some(), self.bad_place)

    def replayed(self, _master):
        """Bytes that were cried, or those of a frame inside them, as they were or with a change."""
        if not self.seen.raw:
            return 'raw ' + self.random.choice(['-', '00', 'ff' * 30])
        data = bytearray(self.random.choice(frames_inside(self.random.choice(self.seen.raw))))
        how = self.random.randrange(6)
        if how == 0:
            data[self.random.randrange(len(data))] ^= 1 << self.random.randrange(8)
        elif how == 1:
            data = data[:self.random.randrange(len(data))]
        elif how == 2:
            data[3:4] = [self.random.randrange(self.n + 2)]
        return 'raw ' + (data.hex() or '-')

    def replays(self):
        for _ in range(self.random.randint(1, 5)):
            self.say(self.random.choice(self.intruded), self.some(), self.replayed)

    def lie_to_clients(self):
        clients = [f's{x}' for x in range(self.screens)] + ['p0', 'p1'] * self.has_plant
        master = self.random.choice(self.intruded)
        for y in (1, 2):
            client = self.random.randrange(len(clients))
            order = self.random.choice(['write 1 1', 'write 2 0', 'notice 1 1 0', 'notice 7 1 0', 'notice 2 1 1'])
            self.say(master, clients, f'voucher {client} {y} {order}')

    def flood(self):
        """Many words of one kind at once."""
        draw = self.random
        master = draw.choice(self.intruded)
        count = draw.choice([20, 40, 120])
        word = draw.choice([lambda x: f'ping {x}', lambda x: f'pong {x % self.n} {x}', lambda x: f'askorder {x}',
                            lambda x: f'askupdate {x % self.n} {x}', lambda x: f'suspect {x % 255}',
                            lambda x: f'rtt {x % self.n} {x} {x}', lambda x: f'mark {8 * x}', lambda x: f'report {x}',
                            lambda x: 'posummary ' + ' '.join(str(x) for _ in range(self.n))])
        to = ','.join(f'm{x}' for x in self.some())
        self.words += [f'm{master} {to} {word(x)}' for x in range(1, count + 1)]
        self.script.append(f'cry m{master} {count}')

    # Words under others' keys. No promise holds then but that what is printed is replayed and is what the rules say.

    def forged_word(self):
        draw = self.random
        n, client = self.n, draw.randrange(self.screens) + 2 * self.has_plant
        v, s = draw.randrange(2), draw.randint(1, 2)
        update = struct.pack('>HIQBI', 1, client, draw.randint(1, 2), 3, draw.randrange(2))
        row = struct.pack('>H', n) + b''.join(struct.pack('>Q', draw.randrange(2)) for _ in range(n))
        rows = b''.join([struct.pack('>HH', 0xf0, n)] + [row if x < self.q else bytes(2) for x in range(n)])
        bodies = [struct.pack('>HQ', 2, s) + self.signed(n + client, update),
                  struct.pack('>HIQ', 3, draw.randrange(n), s) + digest(update),
                  struct.pack('>H', 4) + row, struct.pack('>HQQ', 6, v, s) + digest(rows), struct.pack('>HQQ', 7, v, s) + digest(rows),
                  struct.pack('>HQ', 8, s), struct.pack('>HIQ', 9, draw.randrange(n), s), struct.pack('>HQQ', 12, v, draw.randrange(30)),
                  struct.pack('>HQ', 13, v), struct.pack('>HIQ', 16, draw.randrange(n), 1), struct.pack('>HQ', 21, 8)]
        if draw.random() < .1:
            return 'raw ' + self.signed(n + client, update).hex()
        return 'raw ' + self.signed(draw.randrange(n), draw.choice(bodies)).hex()

    def signed(self, actor, body):
        if actor not in self.forged:
            self.forged[actor] = ForgedKey(self.seed, actor)
        return frame(actor, body, self.forged[actor].sign(self.random.randrange(16, 32), body))

    def forgeries(self):
        for _ in range(self.random.randint(2, 12)):
            self.say(self.random.choice(self.intruded), self.some(), self.forged_word())
