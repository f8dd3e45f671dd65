#!/usr/bin/env python3
"""A second program for `spire`, made to compare with. README.md beside it says where it comes from.

Usage: reference.py COMMAND ...   (play, replay, keys, ... as `spire` has them)
"""
import itertools
import os
import struct
import sys

try:
    from _sha256 import sha256 as _sha
except ImportError:  # pragma: no cover
    from hashlib import sha256 as _sha

STAGE = 20
RULES_STAGE = 20  # the scenario key `rules` is known from this stage on


def set_stage(n):
    global STAGE
    STAGE = n


def H(data):
    return _sha(data).digest()


def u8(x):
    return struct.pack('>B', x)


def u16(x):
    return struct.pack('>H', x)


def u32(x):
    return struct.pack('>I', x)


def u64(x):
    return struct.pack('>Q', x)


def i64(x):
    return struct.pack('>q', x)


U32MAX = 2 ** 32 - 1
U64MAX = 2 ** 64 - 1
I64MIN, I64MAX = -2 ** 63, 2 ** 63 - 1

# ---------------------------------------------------------------------------
# Signatures (RFC 8554)
# ---------------------------------------------------------------------------

W1, W2, W4, W8 = 1, 2, 3, 4  # the type codes
OTS = {1: (1, 265, 7, 8516), 2: (2, 133, 6, 4292), 3: (4, 67, 4, 2180), 4: (8, 34, 0, 1124)}
LMS = {5: 5, 6: 10, 7: 15, 8: 20, 9: 25}
LMS_OF = {h: t for t, h in LMS.items()}
_STEP = [bytes([j]) for j in range(256)]
_PBLC, _MESG, _LEAF, _INTR = u16(0x8080), u16(0x8181), u16(0x8282), u16(0x8383)


def coef(s, i, w):
    return (2 ** w - 1) & (s[(i * w) // 8] >> (8 - (w * (i % (8 // w)) + w)))


def _coefs(q32, ots):
    w, p, ls, _ = OTS[ots]
    total = 0
    for i in range(256 // w):
        total += 2 ** w - 1 - coef(q32, i, w)
    s = q32 + u16((total << ls) & 0xFFFF)
    return [coef(s, i, w) for i in range(p)]


def _ots_x(pre, i, seed):
    return _sha(pre + u16(i) + b'\xff' + seed).digest()


def ots_public(ots, ident, q, seed):
    w, p, _, _ = OTS[ots]
    pre = ident + u32(q)
    out = [pre + _PBLC]
    steps = _STEP[:2 ** w - 1]
    sha = _sha
    for i in range(p):
        e = pre + struct.pack('>H', i)
        tmp = sha(e + b'\xff' + seed).digest()
        for j in steps:
            tmp = sha(e + j + tmp).digest()
        out.append(tmp)
    return sha(b''.join(out)).digest()


def ots_randomizer(ident, q, seed):
    return H(ident + u32(q) + u16(0xFFFD) + b'\xff' + seed)


def ots_sign(ots, ident, q, seed, message):
    pre = ident + u32(q)
    c = ots_randomizer(ident, q, seed)
    qq = H(pre + _MESG + c + message)
    out = [u32(ots), c]
    for i, a in enumerate(_coefs(qq, ots)):
        e = pre + u16(i)
        tmp = _sha(e + b'\xff' + seed).digest()
        for j in range(a):
            tmp = _sha(e + _STEP[j] + tmp).digest()
        out.append(tmp)
    return b''.join(out)


def ots_candidate(ots, ident, q, message, sig):
    w, p, _, size = OTS[ots]
    if len(sig) < 4 or struct.unpack('>I', sig[:4])[0] != ots or len(sig) != size:
        return None
    pre = ident + u32(q)
    c = sig[4:36]
    qq = H(pre + _MESG + c + message)
    out = [pre + _PBLC]
    for i, a in enumerate(_coefs(qq, ots)):
        e = pre + u16(i)
        tmp = sig[36 + 32 * i:68 + 32 * i]
        for j in range(a, 2 ** w - 1):
            tmp = _sha(e + _STEP[j] + tmp).digest()
        out.append(tmp)
    return H(b''.join(out))


class HeightNotMade(Exception):
    pass


class BadLevels(Exception):
    pass


class Spent(Exception):
    pass


class Tree:
    _memo = {}

    @staticmethod
    def make(ots, height, ident, seed):
        if height not in (5, 10):
            raise HeightNotMade()
        key = (ots, height, ident, seed)
        t = Tree._memo.get(key)
        if t is None:
            t = Tree(ots, height, ident, seed)
            Tree._memo[key] = t
        return t

    def __init__(self, ots, height, ident, seed):
        self.ots, self.height, self.ident, self.seed = ots, height, ident, seed
        n = 2 ** height
        t = [None] * (2 * n)
        for q in range(n):
            t[n + q] = H(ident + u32(n + q) + _LEAF + ots_public(ots, ident, q, seed))
        for r in range(n - 1, 0, -1):
            t[r] = H(ident + u32(r) + _INTR + t[2 * r] + t[2 * r + 1])
        self.t = t

    def public(self):
        return u32(LMS_OF[self.height]) + u32(self.ots) + self.ident + self.t[1]

    def sign(self, q, message):
        out = [u32(q), ots_sign(self.ots, self.ident, q, self.seed, message), u32(LMS_OF[self.height])]
        r = 2 ** self.height + q
        while r > 1:
            out.append(self.t[r ^ 1])
            r >>= 1
        return b''.join(out)


def lms_sig_size(ots, lms):
    return 4 + OTS[ots][3] + 4 + 32 * LMS[lms]


def tree_verify(public, message, sig):
    if len(public) != 56:
        return False
    lt, ot = struct.unpack('>II', public[:8])
    if lt not in LMS or ot not in OTS:
        return False
    ident, root = public[8:24], public[24:56]
    if len(sig) != lms_sig_size(ot, lt):
        return False
    q = struct.unpack('>I', sig[:4])[0]
    osz = OTS[ot][3]
    osig = sig[4:4 + osz]
    if struct.unpack('>I', osig[:4])[0] != ot:
        return False
    if struct.unpack('>I', sig[4 + osz:8 + osz])[0] != lt:
        return False
    h = LMS[lt]
    if q >= 2 ** h:
        return False
    path = sig[8 + osz:]
    k = ots_candidate(ot, ident, q, message, osig)
    if k is None:
        return False
    r = 2 ** h + q
    tmp = H(ident + u32(r) + _LEAF + k)
    i = 0
    while r > 1:
        p = path[32 * i:32 * i + 32]
        if r & 1:
            tmp = H(ident + u32(r >> 1) + _INTR + p + tmp)
        else:
            tmp = H(ident + u32(r >> 1) + _INTR + tmp + p)
        r >>= 1
        i += 1
    return tmp == root


def child_of(ident, seed, q):
    a = H(ident + u32(q) + u16(0xFFFE) + b'\xff' + seed)[:16]
    b = H(ident + u32(q) + u16(0xFFFF) + b'\xff' + seed)
    return a, b


class KeyState:
    def __init__(self, seed, ident, heights, ots, used=0):
        if not 1 <= len(heights) <= 6:
            raise BadLevels()
        if any(h not in (5, 10) for h in heights):
            raise HeightNotMade()
        self.seed, self.ident, self.heights, self.ots = seed, ident, tuple(heights), ots
        self.used = used
        self.total = 2 ** sum(heights)
        self._signed = {}

    @staticmethod
    def resume(seed, ident, heights, ots, used):
        return KeyState(seed, ident, heights, ots, used)

    def left(self):
        return self.total - self.used

    def public(self):
        return u32(len(self.heights)) + Tree.make(self.ots, self.heights[0], self.ident, self.seed).public()

    def sign_at(self, m, message):
        qs = []
        for h in reversed(self.heights):
            qs.append(m % 2 ** h)
            m //= 2 ** h
        qs.reverse()
        ident, seed = self.ident, self.seed
        out = [u32(len(self.heights) - 1)]
        for lvl, h in enumerate(self.heights):
            tree = Tree.make(self.ots, h, ident, seed)
            if lvl == len(self.heights) - 1:
                out.append(tree.sign(qs[lvl], message))
            else:
                ident, seed = child_of(ident, seed, qs[lvl])
                key = tuple(qs[:lvl + 1])
                signed = self._signed.get(key)
                if signed is None:
                    child = Tree.make(self.ots, self.heights[lvl + 1], ident, seed).public()
                    signed = tree.sign(qs[lvl], child) + child
                    self._signed[key] = signed
                out.append(signed)
        return b''.join(out)

    def sign(self, message):
        if self.left() == 0:
            raise Spent()
        s = self.sign_at(self.used, message)
        self.used += 1
        return s


def verify(public, message, sig):
    """Verification on bytes: HSS."""
    if len(public) != 60:
        return False
    levels = struct.unpack('>I', public[:4])[0]
    if not 1 <= levels <= 8:
        return False
    if len(sig) < 4 or struct.unpack('>I', sig[:4])[0] != levels - 1:
        return False
    key = public[4:]
    at = 4
    for _ in range(levels - 1):
        lt, ot = struct.unpack('>II', key[:8])
        if lt not in LMS or ot not in OTS:
            return False
        size = lms_sig_size(ot, lt)
        s = sig[at:at + size]
        nxt = sig[at + size:at + size + 56]
        if len(s) != size or len(nxt) != 56:
            return False
        if not tree_verify(key, nxt, s):
            return False
        key = nxt
        at += size + 56
    return tree_verify(key, message, sig[at:])


def actor_key(seed, actor, heights):
    s = H(seed + u32(actor) + b'\x00')
    ident = H(seed + u32(actor) + b'\x01')[:16]
    return KeyState(s, ident, heights, W4)


# Groups of bodies under one signature ---------------------------------------------------------------

def batch_text(count, root):
    return u16(0x00f1) + u16(count) + root


def group_levels(texts):
    level = [H(b'\x00' + t) for t in texts]
    out = [level]
    while len(level) > 1:
        nxt = []
        for x in range(0, len(level), 2):
            if x + 1 < len(level):
                nxt.append(H(b'\x01' + level[x] + level[x + 1]))
            else:
                nxt.append(level[x])
        level = nxt
        out.append(level)
    return out


def group_path(levels, place):
    path = []
    for level in levels[:-1]:
        sib = place ^ 1
        if sib < len(level):
            path.append(level[sib])
        place >>= 1
    return path


def group_root(text, place, count, path):
    """The root that text, place and path give, None where the path hasn't the right number of hashes."""
    node = H(b'\x00' + text)
    path = list(path)
    while count > 1:
        sib = place ^ 1
        if sib < count:
            if not path:
                return None
            p = path.pop(0)
            node = H(b'\x01' + p + node) if place & 1 else H(b'\x01' + node + p)
        place >>= 1
        count = (count + 1) // 2
    return None if path else node


def path_len(place, count):
    x = 0
    while count > 1:
        if place ^ 1 < count:
            x += 1
        place >>= 1
        count = (count + 1) // 2
    return x


def signs(public, text, sig):
    """The signature is of the text, or of a group of bodies that the text is one of."""
    if verify(public, text, sig):
        return True
    if len(sig) < 8 or sig[:4] != u32(256):
        return False
    place, count = struct.unpack('>HH', sig[4:8])
    if not 2 <= count <= 32 or place >= count:
        return False
    # the path is a list: u16 length || hashes
    k = path_len(place, count)
    if len(sig) < 10 + 32 * k or sig[8:10] != u16(k):
        return False
    path = [sig[10 + 32 * x:42 + 32 * x] for x in range(k)]
    root = group_root(text, place, count, path)
    return verify(public, batch_text(count, root), sig[10 + 32 * k:])


def sign_group(key, texts):
    """Signs 1 to 32 texts with one leaf; the signature fields, in order."""
    if len(texts) == 1:
        return [key.sign(texts[0])]
    levels = group_levels(texts)
    s = key.sign(batch_text(len(texts), levels[-1][0]))
    return [group_field(levels, place, len(texts), s) for place in range(len(texts))]


def group_field(levels, place, count, hss):
    path = group_path(levels, place)
    return u32(256) + u16(place) + u16(count) + u16(len(path)) + b''.join(path) + hss


# ---------------------------------------------------------------------------
# quorum_sets
# ---------------------------------------------------------------------------

class BadSizes(Exception):
    pass


class Sizes:
    def __init__(self, f, k):
        if not 1 <= f <= 3 or k > (2 if STAGE >= 16 else 0) or k < 0:
            raise BadSizes()
        self.f, self.k = f, k
        self.n = 3 * f + 2 * k + 1
        self.q = 2 * f + k + 1

    def doors(self, c):
        if STAGE == 1:
            return [0]
        return [(c + x) % self.n for x in range(self.f + self.k + 1)]


# ---------------------------------------------------------------------------
# Bodies and frames
# ---------------------------------------------------------------------------

KINDS = {1: 'update', 2: 'porequest', 3: 'poack', 4: 'posummary', 5: 'preprepare', 6: 'prepare', 7: 'commit',
         8: 'ping', 9: 'pong', 10: 'rtt', 11: 'tatreport', 12: 'tatbound', 13: 'suspect', 14: 'report',
         15: 'newview', 16: 'askupdate', 17: 'give', 18: 'askorder', 19: 'giveordered', 20: 'voucher', 21: 'mark'}
KIND_OF = {v: k for k, v in KINDS.items()}
(UPDATE, POREQUEST, POACK, POSUMMARY, PREPREPARE, PREPARE, COMMIT, PING, PONG, RTT, TATREPORT, TATBOUND, SUSPECT,
 REPORT, NEWVIEW, ASKUPDATE, GIVE, ASKORDER, GIVEORDERED, VOUCHER, MARK) = range(1, 22)
# from which request a kind is known
KIND_STAGE = {**{k: 1 for k in (1, 2, 3)}, **{k: 2 for k in (4, 5, 6, 7)}, **{k: 7 for k in range(8, 13)},
              13: 6, 14: 6, 15: 6, 16: 8, 17: 8, 18: 8, 19: 8, 20: 10, 21: 13}
NOTICES = {1: 'done', 2: 'denied', 3: 'nopoint', 4: 'outofrange', 5: 'notwritable', 6: 'noalarm', 7: 'raised',
           8: 'cleared', 9: 'wrongpart'}
GIB = 1 << 30


def kind_known(kind):
    return kind in KIND_STAGE and KIND_STAGE[kind] <= STAGE


def cert_limit():
    return 16 if STAGE >= 13 else 64


def op_bytes(op):
    if op[0] == 'reading':
        return b'\x01' + u32(op[1]) + i64(op[2])
    if op[0] == 'set':
        return b'\x02' + u32(op[1]) + i64(op[2])
    return b'\x03' + u32(op[1])


def op_text(op):
    return ' '.join(str(x) for x in op)


def order_bytes(o):
    if o[0] == 'write':
        return b'\x01' + u32(o[1]) + u16(o[2])
    return b'\x02' + u8(o[1]) + u64(o[2]) + u32(o[3])


_rows_text = {}


def rows_text(rows):
    t = _rows_text.get(rows)
    if t is None:
        out = [b'\x00\xf0', u16(len(rows))]
        for r in rows:
            out.append(u16(len(r)))
            out.extend(u64(x) for x in r)
        t = b''.join(out)
        _rows_text[rows] = t
    return t


_rows_digest = {}


def rows_digest(rows):
    d = _rows_digest.get(rows)
    if d is None:
        d = H(rows_text(rows))
        _rows_digest[rows] = d
    return d


class Certificate:
    """s, v, rows, prepares (frames)."""
    __slots__ = ('s', 'v', 'rows', 'prepares')

    def __init__(self, s, v, rows, prepares):
        self.s, self.v, self.rows, self.prepares = s, v, rows, tuple(prepares)


class Body:
    """A body: its kind and a tuple of fields.

    1 (client, t, op); 2 (k, update frame); 3 (j, k, digest); 4 (numbers); 5 (v, s, frames); 6, 7 (v, s, digest);
    8 (number); 9 (to, number); 10 (to, number, ticks); 11, 12 (v, ticks); 13 (v); 14 (v, base, marks, certificates);
    15 (v, reports); 16 (j, k); 17 (request, acks); 18 (s); 19 (s, v, rows, commits); 20 (client, number, order);
    21 (s)
    """
    __slots__ = ('kind', 'a', '_text', '_frames', '_memo')

    def __init__(self, kind, *a):
        self.kind = kind
        self.a = a
        self._text = None
        self._frames = None
        self._memo = None

    @property
    def text(self):
        if self._text is None:
            self._text = u16(self.kind) + self._fields()
        return self._text

    key = text

    def _fields(self):
        k, a = self.kind, self.a
        if k == UPDATE:
            return u32(a[0]) + u64(a[1]) + op_bytes(a[2])
        if k == POREQUEST:
            return u64(a[0]) + a[1].bytes
        if k == POACK:
            return u32(a[0]) + u64(a[1]) + a[2]
        if k == POSUMMARY:
            return u16(len(a[0])) + b''.join(u64(x) for x in a[0])
        if k == PREPREPARE:
            return u64(a[0]) + u64(a[1]) + frames_bytes(a[2])
        if k in (PREPARE, COMMIT):
            return u64(a[0]) + u64(a[1]) + a[2]
        if k in (PING, SUSPECT, ASKORDER, MARK):
            return u64(a[0])
        if k == PONG:
            return u32(a[0]) + u64(a[1])
        if k == RTT:
            return u32(a[0]) + u64(a[1]) + u64(a[2])
        if k in (TATREPORT, TATBOUND):
            return u64(a[0]) + u64(a[1])
        if k == REPORT:
            out = [u64(a[0])]
            if STAGE >= 13:
                out.append(u64(a[1]))
                out.append(frames_bytes(a[2]))
            out.append(u16(len(a[3])))
            for c in a[3]:
                out.append(u64(c.s) + u64(c.v) + rows_text(c.rows) + frames_bytes(c.prepares))
            return b''.join(out)
        if k == NEWVIEW:
            return u64(a[0]) + frames_bytes(a[1])
        if k == ASKUPDATE:
            return u32(a[0]) + u64(a[1])
        if k == GIVE:
            return a[0].bytes + frames_bytes(a[1])
        if k == GIVEORDERED:
            return u64(a[0]) + u64(a[1]) + rows_text(a[2]) + frames_bytes(a[3])
        if k == VOUCHER:
            return u32(a[0]) + u64(a[1]) + order_bytes(a[2])
        raise AssertionError(k)

    @property
    def frames(self):
        """The frames inside, in the order of the text."""
        if self._frames is None:
            k, a = self.kind, self.a
            if k == POREQUEST:
                f = (a[1],)
            elif k == PREPREPARE:
                f = a[2]
            elif k == REPORT:
                f = tuple(a[2]) + tuple(x for c in a[3] for x in c.prepares)
            elif k == NEWVIEW:
                f = a[1]
            elif k == GIVE:
                f = (a[0],) + tuple(a[1])
            elif k == GIVEORDERED:
                f = a[3]
            else:
                f = ()
            self._frames = tuple(f)
        return self._frames

    def digest(self):
        """Of an update: H of its text."""
        if self._memo is None:
            self._memo = H(self.text)
        return self._memo

    def rows_of_preprepare(self, n):
        rows = [()] * n
        for fr in self.a[2]:
            if fr.signer < n:
                rows[fr.signer] = fr.body.a[0]
        return tuple(rows)

    def plan(self, n):
        """Of a newview: (base, rows list)."""
        if self._memo is None:
            self._memo = plan_of(n, [fr.body for fr in self.a[1]])
        return self._memo

    def held_rows(self, n):
        """The rows that the body holds, in the order of its text."""
        k = self.kind
        if k == PREPREPARE:
            return [self.rows_of_preprepare(n)]
        if k == REPORT:
            return [c.rows for c in self.a[3]]
        if k == GIVEORDERED:
            return [self.a[2]]
        if k == NEWVIEW:
            return self.plan(n)[1]
        return ()


def frames_bytes(frames):
    return u16(len(frames)) + b''.join(f.bytes for f in frames)


class Frame:
    """signer, body and a signature that is made when it is first asked for."""
    __slots__ = ('signer', 'body', '_sig', '_maker', '_bytes', '_parts', '_stands', 'genuine')

    def __init__(self, signer, body, sig=None, maker=None):
        self.signer, self.body = signer, body
        self._sig, self._maker = sig, maker
        self.genuine = maker is not None
        self._bytes = self._parts = self._stands = None

    @property
    def sig(self):
        if self._sig is None:
            self._sig = self._maker()
            self._maker = None
        return self._sig

    @property
    def bytes(self):
        if self._bytes is None:
            t, s = self.body.text, self.sig
            self._bytes = u32(self.signer) + u32(len(t)) + t + u32(len(s)) + s
        return self._bytes

    @property
    def parts(self):
        if self._parts is None:
            out = [self]
            for f in self.body.frames:
                out.extend(f.parts)
            self._parts = tuple(out)
        return self._parts


def write_frame(frame):
    return frame.bytes


def plan_of(n, reports):
    """The plan, (base, list of rows), of a list of report bodies."""
    base = max([r.a[1] for r in reports], default=0)
    best = {}
    for r in reports:
        for c in r.a[3]:
            if c.s <= base:
                continue
            rank = (-c.v, rows_digest(c.rows))
            if c.s not in best or rank < best[c.s][0]:
                best[c.s] = (rank, c.rows)
    end = max(best, default=base)
    empty = ((),) * n
    return base, [best[s][1] if s in best else empty for s in range(base + 1, end + 1)]


class FormRefusal(Exception):
    def __init__(self, name, place):
        super().__init__(name, place)
        self.name, self.place = name, place

    def __str__(self):
        return f'{self.name} {self.place}'


class _Reader:
    def __init__(self, data):
        self.d = data
        self.at = 0
        self.end = len(data)

    def take(self, count):
        if self.end - self.at < count:
            raise FormRefusal('Short', self.at)
        p = self.d[self.at:self.at + count]
        self.at += count
        return p

    def u8(self):
        return self.take(1)[0]

    def u16(self):
        return struct.unpack('>H', self.take(2))[0]

    def u32(self):
        return struct.unpack('>I', self.take(4))[0]

    def u64(self):
        return struct.unpack('>Q', self.take(8))[0]

    def i64(self):
        return struct.unpack('>q', self.take(8))[0]

    def list_len(self, most):
        place = self.at
        x = self.u16()
        if x > most:
            raise FormRefusal('TooMany', place)
        return x

    def done(self):
        """01's `Reader::end`."""
        if self.at < self.end:
            raise FormRefusal('Trailing', self.at)

    # frames
    def frame(self, kind=None, above=None):
        """above: the signer of the item before, where the frame stands in a list."""
        place = self.at
        signer = self.u32()
        if above is not None and signer <= above:
            raise FormRefusal('BadOrder', place)
        place = self.at
        size = self.u32()
        if size > GIB:
            raise FormRefusal('TooLong', place)
        if self.end - self.at < size:
            raise FormRefusal('Short', self.at)
        outer = self.end
        self.end = self.at + size
        start = self.at
        body = self.body(kind)
        if self.at < self.end:
            raise FormRefusal('Trailing', self.at)
        body._text = self.d[start:self.at]
        self.end = outer
        place = self.at
        size = self.u32()
        if size > 65536:
            raise FormRefusal('TooLong', place)
        sig = self.take(size)
        return Frame(signer, body, sig)

    def frames(self, kind, most=14):
        x = self.list_len(most)
        out = []
        above = None
        for _ in range(x):
            fr = self.frame(kind, above)
            above = fr.signer
            out.append(fr)
        return tuple(out)

    def rows(self):
        place = self.at
        if self.u16() != 0x00f0:
            raise FormRefusal('UnknownKind', place)
        x = self.list_len(14)
        out = []
        for _ in range(x):
            m = self.list_len(14)
            out.append(tuple(self.u64() for _ in range(m)))
        return tuple(out)

    def op(self):
        place = self.at
        k = self.u8()
        if k == 1:
            return ('reading', self.u32(), self.i64())
        if k == 2:
            return ('set', self.u32(), self.i64())
        if k == 3:
            return ('ack', self.u32())
        raise FormRefusal('UnknownKind', place)

    def order(self):
        place = self.at
        k = self.u8()
        if k == 1:
            return ('write', self.u32(), self.u16())
        if k == 2:
            place = self.at
            what = self.u8()
            if not 1 <= what <= 9:
                raise FormRefusal('UnknownKind', place)
            return ('notice', what, self.u64(), self.u32())
        raise FormRefusal('UnknownKind', place)

    def certificates(self):
        x = self.list_len(cert_limit())
        out = []
        above = None
        for _ in range(x):
            place = self.at
            s = self.u64()
            if above is not None and s <= above:
                raise FormRefusal('BadOrder', place)
            above = s
            v = self.u64()
            rows = self.rows()
            out.append(Certificate(s, v, rows, self.frames(PREPARE)))
        return tuple(out)

    def body(self, want=None):
        place = self.at
        k = self.u16()
        if not kind_known(k) or (want is not None and k != want):
            raise FormRefusal('UnknownKind', place)
        r = self
        if k == UPDATE:
            return Body(k, r.u32(), r.u64(), r.op())
        if k == POREQUEST:
            return Body(k, r.u64(), r.frame(UPDATE))
        if k == POACK:
            return Body(k, r.u32(), r.u64(), r.take(32))
        if k == POSUMMARY:
            x = r.list_len(14)
            return Body(k, tuple(r.u64() for _ in range(x)))
        if k == PREPREPARE:
            return Body(k, r.u64(), r.u64(), r.frames(POSUMMARY))
        if k in (PREPARE, COMMIT):
            return Body(k, r.u64(), r.u64(), r.take(32))
        if k in (PING, SUSPECT, ASKORDER, MARK):
            return Body(k, r.u64())
        if k == PONG:
            return Body(k, r.u32(), r.u64())
        if k == RTT:
            return Body(k, r.u32(), r.u64(), r.u64())
        if k in (TATREPORT, TATBOUND):
            return Body(k, r.u64(), r.u64())
        if k == REPORT:
            v = r.u64()
            base, marks = 0, ()
            if STAGE >= 13:
                base = r.u64()
                marks = r.frames(MARK)
            return Body(k, v, base, marks, r.certificates())
        if k == NEWVIEW:
            return Body(k, r.u64(), r.frames(REPORT))
        if k == ASKUPDATE:
            return Body(k, r.u32(), r.u64())
        if k == GIVE:
            return Body(k, r.frame(POREQUEST), r.frames(POACK))
        if k == GIVEORDERED:
            return Body(k, r.u64(), r.u64(), r.rows(), r.frames(COMMIT))
        if k == VOUCHER:
            return Body(k, r.u32(), r.u64(), r.order())
        raise AssertionError(k)


def read_frame(data):
    if len(data) > GIB:
        raise FormRefusal('TooLong', 0)
    r = _Reader(bytes(data))
    fr = r.frame()
    if r.at < r.end:
        raise FormRefusal('Trailing', r.at)
    return fr


def try_read_frame(data):
    try:
        return read_frame(data)
    except FormRefusal:
        return None


# ---------------------------------------------------------------------------
# A part in its place; the check of a frame
# ---------------------------------------------------------------------------

RTT_MOST = 4294967296
BOUND_MOST = 8589934596


def in_place(sizes, clients, fr):
    n, q = sizes.n, sizes.q
    b = fr.body
    k, a = b.kind, b.a
    if k == UPDATE:
        return a[0] < clients and fr.signer == n + a[0]
    if fr.signer >= n:
        return False
    smost = 4096 if STAGE >= 13 else 64

    def okk(x):
        return 1 <= x <= 4096

    def oks(x):
        return 1 <= x <= smost

    def okv(x):
        return x <= 255

    def okrows(rows):
        return len(rows) == n and all(r == () or (len(r) == n and max(r) <= 4096) for r in rows)

    if k == POREQUEST:
        return okk(a[0])
    if k in (POACK, ASKUPDATE):
        return a[0] < n and okk(a[1])
    if k == POSUMMARY:
        return len(a[0]) == n and max(a[0]) <= 4096
    if k == PREPREPARE:
        return okv(a[0]) and oks(a[1]) and fr.signer == a[0] % n
    if k in (PREPARE, COMMIT):
        return okv(a[0]) and oks(a[1])
    if k == PING:
        return True
    if k == PONG:
        return a[0] < n
    if k == RTT:
        return a[0] < n and a[2] <= RTT_MOST
    if k == TATREPORT:
        return okv(a[0]) and a[1] <= RTT_MOST
    if k == TATBOUND:
        return okv(a[0]) and a[1] <= BOUND_MOST
    if k == SUSPECT:
        return a[0] <= 254
    if k == REPORT:
        v, base, marks, certs = a
        if not (1 <= v <= 255):
            return False
        if STAGE >= 13:
            if base % 8 or base > 4096:
                return False
            if base == 0:
                if marks:
                    return False
            elif len(marks) != q or any(m.body.a[0] != base for m in marks):
                return False
        for c in certs:
            if not oks(c.s) or not okv(c.v) or c.v >= v:
                return False
            if STAGE >= 13 and not base + 1 <= c.s <= base + 16:
                return False
            if not okrows(c.rows) or len(c.prepares) != q:
                return False
            want = (c.v, c.s, rows_digest(c.rows))
            if any(p.body.a != want for p in c.prepares):
                return False
        return True
    if k == NEWVIEW:
        v = a[0]
        return 1 <= v <= 255 and fr.signer == v % n and len(a[1]) == q and all(r.body.a[0] == v for r in a[1])
    if k == GIVE:
        req, acks = a
        want = (req.signer, req.body.a[0], req.body.a[1].body.digest())
        return len(acks) == q and all(x.body.a == want for x in acks)
    if k == ASKORDER:
        return oks(a[0])
    if k == GIVEORDERED:
        s, v, rows, commits = a
        if not oks(s) or not okv(v) or not okrows(rows) or len(commits) != q:
            return False
        want = (v, s, rows_digest(rows))
        return all(c.body.a == want for c in commits)
    if k == VOUCHER:
        return a[0] < clients and a[1] >= 1
    if k == MARK:
        return oks(a[0]) and a[0] % 8 == 0
    raise AssertionError(k)


class Ring:
    def __init__(self, sizes, clients, keys):
        self.sizes, self.clients = sizes, clients
        self.keys = keys  # KeyStates by actor, or public keys
        self._memo = {}

    def __len__(self):
        return self.sizes.n + self.clients

    def public(self, actor):
        k = self.keys[actor]
        return k if isinstance(k, bytes) else k.public()

    def signs(self, fr):
        if fr.genuine:
            return True
        key = (fr.signer, H(fr.body.text), H(fr.sig))
        r = self._memo.get(key)
        if r is None:
            f = signs if STAGE >= 17 else verify
            r = f(self.public(fr.signer), fr.body.text, fr.sig)
            self._memo[key] = r
        return r


def check(ring, frame):
    """None where the frame stands, else (refusal, number)."""
    if STAGE < 4:
        return None
    if frame._stands is None:
        frame._stands = (_check(ring, frame),)
    return frame._stands[0]


def _check(ring, frame):
    for x, part in enumerate(frame.parts):
        if part._stands == (None,) and part is not frame:
            continue
        if part.signer >= len(ring):
            return ('SignerUnknown', part.signer)
        if not ring.signs(part):
            return ('Unsigned', x)
        if not in_place(ring.sizes, ring.clients, part):
            return ('Misplaced', x)
    return None


# ---------------------------------------------------------------------------
# The plant
# ---------------------------------------------------------------------------

AREAS = ['coil', 'discrete', 'holding', 'input']
COIL, DISCRETE, HOLDING, INPUT = range(4)


class Point:
    def __init__(self, name, proxy, area, place, scale, offset, low, high, start):
        self.name, self.proxy, self.area, self.place = name, proxy, area, place
        self.scale, self.offset, self.low, self.high, self.start = scale, offset, low, high, start


class AlarmRule:
    def __init__(self, name, point, kind, limit, band):
        self.name, self.point, self.kind, self.limit, self.band = name, point, kind, limit, band


class Interlock:
    def __init__(self, name, point, value, deny):
        self.name, self.point, self.value, self.deny = name, point, value, deny


class Plant:
    def __init__(self, devices=(), points=(), alarms=(), interlocks=()):
        self.devices, self.points = list(devices), list(points)
        self.alarms, self.interlocks = list(alarms), list(interlocks)


class Refusal(Exception):
    def __init__(self, name, *a):
        super().__init__(name, *a)
        self.name, self.a = name, a

    def __str__(self):
        return ' '.join([self.name] + [str(x) for x in self.a])


class Points:
    def __init__(self, points):
        self.points = points
        self.values = [p.start for p in points]

    def value(self, p):
        return self.values[p] if p < len(self.points) else None

    def set(self, p, value):
        if p >= len(self.points):
            raise Refusal('NoPoint')
        if not self.points[p].low <= value <= self.points[p].high:
            raise Refusal('OutOfRange')
        self.values[p] = value

    def raw_of(self, p, value):
        if p >= len(self.points):
            raise Refusal('NoPoint')
        d = self.points[p]
        if not d.low <= value <= d.high or (value - d.offset) % d.scale:
            raise Refusal('OutOfRange')
        raw = (value - d.offset) // d.scale
        if not 0 <= raw <= (1 if d.area in (COIL, DISCRETE) else 65535):
            raise Refusal('OutOfRange')
        return raw

    def find(self, name):
        return next((i for i, p in enumerate(self.points) if p.name == name), None)


class Alarms:
    def __init__(self, rules):
        self.rules = rules
        self.up = [False] * len(rules)
        self.acked = [False] * len(rules)

    def see(self, point, value):
        out = []
        for i, r in enumerate(self.rules):
            if r.point != point:
                continue
            if r.kind == 'high':
                on, off = value >= r.limit, value < r.limit - r.band
            else:
                on, off = value <= r.limit, value > r.limit + r.band
            if not self.up[i] and on:
                self.up[i] = True
                out.append(('raised', i))
            elif self.up[i] and off:
                self.up[i] = False
                self.acked[i] = False
                out.append(('cleared', i))
        return out

    def acknowledge(self, alarm):
        if alarm >= len(self.rules) or not self.up[alarm]:
            raise Refusal('NoAlarm')
        self.acked[alarm] = True

    def raised(self, alarm):
        return self.up[alarm]

    def find(self, name):
        return next((i for i, p in enumerate(self.rules) if p.name == name), None)


WORDCHARS = set(b'abcdefghijklmnopqrstuvwxyzABCDEFGHIJKLMNOPQRSTUVWXYZ0123456789_')
DIGITS = set(b'0123456789')
KEYWORDS = (b'or', b'and', b'not', b'alarm')


def is_name(b):
    return (0 < len(b) <= 32 and all(c in WORDCHARS for c in b) and b[0] not in DIGITS and b not in KEYWORDS)


def decimal(b, least, most):
    """A decimal number without leading zeros (and with `-` where least is below 0), else None."""
    s = b
    neg = False
    if least < 0 and s[:1] == b'-':
        neg = True
        s = s[1:]
    if not s or any(c not in DIGITS for c in s) or (len(s) > 1 and s[:1] == b'0') or len(s) > 40:
        return None
    x = -int(s) if neg else int(s)
    return x if least <= x <= most else None


class _RuleParser:
    """any := all { "or" all }, all := one { "and" one },
    one := "not" one | "(" any ")" | "alarm" NAME | NAME CMP NUMBER"""

    def __init__(self, text):
        self.text = text
        self.at = 0
        self.nodes = 0
        self.next()

    def bad(self, place):
        raise Refusal('BadRule', place)

    def next(self):
        """Reads the next token into self.tok, its place into self.place."""
        t = self.text
        while self.at < len(t) and t[self.at] == 0x20:
            self.at += 1
        self.place = self.at
        if self.at >= len(t):
            self.place = len(t)
            self.tok = None
            return
        c = t[self.at]
        e = self.at + 1
        if c in WORDCHARS:
            while e < len(t) and t[e] in WORDCHARS:
                e += 1
        elif c == 0x2d:
            while e < len(t) and t[e] in WORDCHARS:
                e += 1
        elif c in b'<>!':
            if e < len(t) and t[e] == 0x3d:
                e += 1
        self.tok = t[self.at:e]
        self.at = e

    def fits(self):
        """The text's own limit: the token at hand stands within 256 bytes."""
        if self.tok is not None and self.at > 256:
            self.bad(self.place)

    def leaf(self, depth):
        self.nodes += 1
        if self.nodes > 64 or depth > 16:
            self.bad(self.place)

    # each parser answers (tree, height)
    def any(self, depth):
        return self.chain(depth, b'or', self.all, 'or')

    def all(self, depth):
        return self.chain(depth, b'and', self.one, 'and')

    def chain(self, depth, word, part, name):
        first, height = part(depth)
        self.fits()
        if self.tok != word:
            return first, height
        # one more node, above the first part
        self.nodes += 1
        if self.nodes > 64 or depth + height > 16:
            self.bad(self.place)
        parts = [first]
        most = height
        while True:
            self.fits()
            if self.tok != word:
                break
            self.next()
            p, h = part(depth + 1)
            parts.append(p)
            most = max(most, h)
        return (name, parts), most + 1

    def one(self, depth):
        self.fits()
        t, place = self.tok, self.place
        if t is None:
            self.bad(len(self.text))
        if t == b'not':
            self.leaf(depth)
            self.next()
            p, h = self.one(depth + 1)
            return ('not', p), h + 1
        if t == b'(':
            self.leaf(depth)
            self.next()
            p, h = self.any(depth + 1)
            self.fits()
            if self.tok != b')':
                self.bad(self.place)
            self.next()
            return p, h + 1
        if t == b'alarm':
            self.leaf(depth)
            self.next()
            self.fits()
            if self.tok is None or not is_name(self.tok):
                self.bad(self.place)
            out = ('alarm', self.tok, self.place)
            self.next()
            return out, 1
        if is_name(t):
            self.leaf(depth)
            self.next()
            self.fits()
            if self.tok not in (b'=', b'!=', b'<', b'<=', b'>', b'>='):
                self.bad(self.place)
            cmp = self.tok
            self.next()
            self.fits()
            x = None if self.tok is None else decimal(self.tok, I64MIN, I64MAX)
            if x is None:
                self.bad(self.place)
            self.next()
            return ('cmp', t, place, cmp, x), 1
        self.bad(place)

    def whole(self):
        tree, _ = self.any(1)
        self.fits()
        if self.tok is not None:
            self.bad(self.place)
        if len(self.text) > 256:
            self.bad(len(self.text))
        return tree


class Rule:
    def __init__(self, tree):
        self.tree = tree

    @staticmethod
    def read(text, points, alarms):
        """text: bytes; raises Refusal BadRule/NoName with the place."""
        tree = _RuleParser(text).whole()
        names = []

        def walk(t):
            if t[0] in ('or', 'and'):
                return (t[0], [walk(p) for p in t[1]])
            if t[0] == 'not':
                return ('not', walk(t[1]))
            find = alarms.find if t[0] == 'alarm' else points.find
            x = find(t[1].decode())
            if x is None:
                names.append(t[2])
            return ('alarm', x) if t[0] == 'alarm' else ('cmp', x, t[3], t[4])
        out = walk(tree)
        if names:
            raise Refusal('NoName', min(names))
        return Rule(out)

    def holds(self, points, alarms):
        def go(t):
            if t[0] == 'or':
                return any(go(p) for p in t[1])
            if t[0] == 'and':
                return all(go(p) for p in t[1])
            if t[0] == 'not':
                return not go(t[1])
            if t[0] == 'alarm':
                return alarms.raised(t[1])
            a, b = points.value(t[1]), t[3]
            return {b'=': a == b, b'!=': a != b, b'<': a < b, b'<=': a <= b, b'>': a > b, b'>=': a >= b}[t[2]]
        return go(self.tree)


class MasterPoints:
    """What a master makes of the updates that it executes."""

    def __init__(self, plant, screens):
        self.plant = plant
        self.proxies = len(plant.devices)
        self.screens = screens
        self.points = Points(plant.points)
        self.alarms = Alarms(plant.alarms)
        self.orders = [[] for _ in range(self.proxies + screens)]

    def apply(self, update):
        client, t, op = update.a
        if client < self.proxies:
            if op[0] != 'reading' or op[1] >= len(self.plant.points):
                return
            p = self.plant.points[op[1]]
            if p.proxy != client or not p.low <= op[2] <= p.high:
                return
            self.points.set(op[1], op[2])
            for what, alarm in self.alarms.see(op[1], op[2]):
                for s in range(self.screens):
                    self.orders[self.proxies + s].append(('notice', 7 if what == 'raised' else 8, 0, alarm))
            return
        self.orders[client].append(('notice',) + self.screen_op(t, op))

    def screen_op(self, t, op):
        if op[0] == 'reading':
            return (9, t, 0)
        if op[0] == 'ack':
            try:
                self.alarms.acknowledge(op[1])
                return (1, t, 0)
            except Refusal:
                return (6, t, op[1])
        p, v = op[1], op[2]
        if p >= len(self.plant.points):
            return (3, t, p)
        if self.plant.points[p].area in (DISCRETE, INPUT):
            return (5, t, p)
        try:
            raw = self.points.raw_of(p, v)
        except Refusal:
            return (4, t, p)
        for i, lock in enumerate(self.plant.interlocks):
            if lock.point == p and lock.value in (None, v) and lock.deny.holds(self.points, self.alarms):
                return (2, t, i)
        self.orders[self.plant.points[p].proxy].append(('write', p, raw))
        return (1, t, 0)


# ---------------------------------------------------------------------------
# Modbus
# ---------------------------------------------------------------------------
# Request: (transaction, unit, pdu); pdu is ('ReadBits', function, place, quantity), ('ReadRegisters', ..),
# ('WriteCoil', place, value), ('WriteRegister', place, value), ('WriteCoils', place, quantity, bytes),
# ('WriteRegisters', ..), ('Other', function, bytes).
# Reply pdu: ('Bits', function, bytes), ('Registers', function, bytes), ('Wrote', function, place, value),
# ('WroteMany', function, place, quantity), ('Exception', function, code).

def _header(data):
    if len(data) < 7:
        raise Refusal('Short')
    tx, proto, length, unit = struct.unpack('>HHHB', data[:7])
    if proto != 0:
        raise Refusal('BadProtocol')
    if not 2 <= length <= 254:
        raise Refusal('BadLength')
    if len(data) < 6 + length:
        raise Refusal('Short')
    if len(data) > 6 + length:
        raise Refusal('Trailing')
    return tx, unit, data[7:]


def read_request(data):
    tx, unit, pdu = _header(data)
    f, rest = pdu[0], pdu[1:]
    if f in (1, 2, 3, 4, 5, 6):
        if len(rest) != 4:
            raise Refusal('BadLength')
        a, b = struct.unpack('>HH', rest)
        name = {1: 'ReadBits', 2: 'ReadBits', 3: 'ReadRegisters', 4: 'ReadRegisters'}.get(f)
        if name:
            return (tx, unit, (name, f, a, b))
        return (tx, unit, ('WriteCoil' if f == 5 else 'WriteRegister', a, b))
    if f in (15, 16):
        if len(rest) < 5 or len(rest) != 5 + rest[4]:
            raise Refusal('BadLength')
        a, b = struct.unpack('>HH', rest[:4])
        return (tx, unit, ('WriteCoils' if f == 15 else 'WriteRegisters', a, b, rest[5:]))
    return (tx, unit, ('Other', f, rest))


def _request_pdu(p):
    if p[0] in ('ReadBits', 'ReadRegisters'):
        return u8(p[1]) + u16(p[2]) + u16(p[3])
    if p[0] in ('WriteCoil', 'WriteRegister'):
        return u8(5 if p[0] == 'WriteCoil' else 6) + u16(p[1]) + u16(p[2])
    if p[0] in ('WriteCoils', 'WriteRegisters'):
        return u8(15 if p[0] == 'WriteCoils' else 16) + u16(p[1]) + u16(p[2]) + u8(len(p[3])) + p[3]
    return u8(p[1]) + p[2]


def _with_header(tx, unit, pdu):
    return u16(tx) + u16(0) + u16(len(pdu) + 1) + u8(unit) + pdu


def write_request(r):
    return _with_header(r[0], r[1], _request_pdu(r[2]))


def read_reply(data):
    tx, unit, pdu = _header(data)
    f, rest = pdu[0], pdu[1:]
    if f in (1, 2, 3, 4):
        if len(rest) < 1 or len(rest) != 1 + rest[0]:
            raise Refusal('BadLength')
        return (tx, unit, ('Bits' if f < 3 else 'Registers', f, rest[1:]))
    if f in (5, 6, 15, 16):
        if len(rest) != 4:
            raise Refusal('BadLength')
        a, b = struct.unpack('>HH', rest)
        return (tx, unit, ('Wrote' if f < 7 else 'WroteMany', f, a, b))
    if f >= 0x80:
        if len(rest) != 1:
            raise Refusal('BadLength')
        return (tx, unit, ('Exception', f, rest[0]))
    raise Refusal('BadLength')


def write_reply(r):
    p = r[2]
    if p[0] in ('Bits', 'Registers'):
        pdu = u8(p[1]) + u8(len(p[2])) + p[2]
    elif p[0] in ('Wrote', 'WroteMany'):
        pdu = u8(p[1]) + u16(p[2]) + u16(p[3])
    else:
        pdu = u8(p[1]) + u8(p[2])
    return _with_header(r[0], r[1], pdu)


class Device:
    def __init__(self, sizes):
        """sizes: (coils, discrete, holding, input)"""
        self.cells = [[0] * x for x in sizes]

    def value(self, area, place):
        return self.cells[area][place] if place < len(self.cells[area]) else None

    def change(self, area, place, value):
        if place >= len(self.cells[area]):
            raise Refusal('NoPlace')
        self.cells[area][place] = int(value != 0) if area in (COIL, DISCRETE) else value

    def answer(self, request):
        tx, unit, p = request
        return (tx, unit, self.pdu(p))

    def pdu(self, p):
        def exc(f, code):
            return ('Exception', f + 0x80 if f < 0x80 else f, code)
        kind = p[0]
        if kind in ('ReadBits', 'ReadRegisters'):
            f, place, quantity = p[1:]
            cells = self.cells[f - 1]
            if not 1 <= quantity <= (2000 if f < 3 else 125):
                return exc(f, 3)
            if place + quantity > len(cells):
                return exc(f, 2)
            got = cells[place:place + quantity]
            if f < 3:
                out = bytearray((quantity + 7) // 8)
                for i, x in enumerate(got):
                    out[i // 8] |= x << (i % 8)
                return ('Bits', f, bytes(out))
            return ('Registers', f, b''.join(u16(x) for x in got))
        if kind == 'WriteCoil':
            place, value = p[1:]
            if value not in (0xFF00, 0):
                return exc(5, 3)
            if place + 1 > len(self.cells[COIL]):
                return exc(5, 2)
            self.cells[COIL][place] = int(value != 0)
            return ('Wrote', 5, place, value)
        if kind == 'WriteRegister':
            place, value = p[1:]
            if place + 1 > len(self.cells[HOLDING]):
                return exc(6, 2)
            self.cells[HOLDING][place] = value
            return ('Wrote', 6, place, value)
        if kind == 'WriteCoils':
            place, quantity, data = p[1:]
            if not 1 <= quantity <= 1968 or len(data) != (quantity + 7) // 8:
                return exc(15, 3)
            if place + quantity > len(self.cells[COIL]):
                return exc(15, 2)
            for i in range(quantity):
                self.cells[COIL][place + i] = data[i // 8] >> (i % 8) & 1
            return ('WroteMany', 15, place, quantity)
        if kind == 'WriteRegisters':
            place, quantity, data = p[1:]
            if not 1 <= quantity <= 123 or len(data) != 2 * quantity:
                return exc(16, 3)
            if place + quantity > len(self.cells[HOLDING]):
                return exc(16, 2)
            for i in range(quantity):
                self.cells[HOLDING][place + i] = struct.unpack('>H', data[2 * i:2 * i + 2])[0]
            return ('WroteMany', 16, place, quantity)
        return exc(p[1], 1)


# ---------------------------------------------------------------------------
# Scenarios
# ---------------------------------------------------------------------------

class Scenario:
    def __init__(self, sizes, seed, heights=(5, 5, 5), intruded=(), screens=1, plant=None, frames=1, failing=None, rules=1):
        self.sizes, self.seed, self.heights = sizes, seed, tuple(heights)
        self.intruded, self.screens = frozenset(intruded), screens
        self.plant = plant or Plant()
        self.frames, self.rules = frames, rules
        self.proxies = len(self.plant.devices)
        self.clients = self.proxies + screens
        self.actors = sizes.n + self.clients
        self.failing = failing or [[] for _ in range(self.actors)]
        self._keys = {}
        self._ring = None

    @staticmethod
    def s1():
        return Scenario(Sizes(1, 0), bytes(32))

    def key(self, actor):
        """A fresh key state of the actor."""
        return actor_key(self.seed, actor, self.heights)

    def ring(self):
        if self._ring is None:
            self._ring = Ring(self.sizes, self.clients, [self.key(a) for a in range(self.actors)])
        return self._ring

    def name(self, actor):
        n = self.sizes.n
        if actor < n:
            return f'm{actor}'
        if actor < n + self.proxies:
            return f'p{actor - n}'
        return f's{actor - n - self.proxies}'

    def actor_of(self, kind, number):
        """The actor number of a name; None where nobody is there."""
        n = self.sizes.n
        if kind == 'm':
            return number if number < n else None
        if kind == 'p':
            return n + number if number < self.proxies else None
        return n + self.proxies + number if number < self.screens else None

    def is_master(self, actor):
        return actor < self.sizes.n

    def is_proxy(self, actor):
        return self.sizes.n <= actor < self.sizes.n + self.proxies

    def is_screen(self, actor):
        return self.sizes.n + self.proxies <= actor < self.actors

    def correct(self, actor):
        return actor not in self.intruded

    @staticmethod
    def read(data):
        return _ScenarioReader(data).read()


class ScenarioRefusal(Exception):
    def __init__(self, name, key=None):
        super().__init__(name, key)
        self.name, self.key = name, key

    def __str__(self):
        return self.name if self.key is None else f'{self.name} {self.key}'


def _is_int(x):
    return isinstance(x, int) and not isinstance(x, bool)


_NONE = object()


class _ScenarioReader:
    def __init__(self, data):
        import tomllib
        try:
            text = data.decode('utf-8')
            self.doc = tomllib.loads(text)
        except (UnicodeDecodeError, tomllib.TOMLDecodeError, RecursionError, ValueError):
            raise ScenarioRefusal('BadToml')
        self.ints(self.doc)
        self.unknown = []

    def ints(self, x):
        if _is_int(x) and not I64MIN <= x <= I64MAX:
            raise ScenarioRefusal('BadToml')
        if isinstance(x, dict):
            for v in x.values():
                self.ints(v)
        elif isinstance(x, list):
            for v in x:
                self.ints(v)

    def get(self, table, prefix, key, default=_NONE):
        if key not in table:
            if default is _NONE:
                raise ScenarioRefusal('MissingKey', prefix + key)
            return default
        return table[key]

    def int(self, table, prefix, key, least, most, default=_NONE):
        x = self.get(table, prefix, key, default)
        if not _is_int(x) or not least <= x <= most:
            raise ScenarioRefusal('BadValue', prefix + key)
        return x

    def list(self, key, most, tables=True):
        x = self.get(self.doc, '', key, [])
        if not isinstance(x, list):
            raise ScenarioRefusal('BadValue', key)
        if most is not None and len(x) > most:
            raise ScenarioRefusal('TooMany', key)
        if tables and any(not isinstance(t, dict) for t in x):
            raise ScenarioRefusal('BadValue', key)
        return x

    def name(self, table, prefix, taken):
        x = self.get(table, prefix, 'name')
        if not isinstance(x, str) or not is_name(x.encode('utf-8')) or x in taken:
            raise ScenarioRefusal('BadValue', prefix + 'name')
        taken.append(x)
        return x

    def others(self, table, prefix, known):
        for k in table:
            if k not in known:
                self.unknown.append(prefix + k)

    def read(self):
        doc = self.doc
        f = self.int(doc, '', 'f', 1, 3)
        k = self.int(doc, '', 'k', 0, 2 if STAGE >= 16 else 0, 0)
        sizes = Sizes(f, k)
        seed = self.get(doc, '', 'seed')
        if not isinstance(seed, str) or len(seed) != 64 or any(c not in '0123456789abcdefABCDEF' for c in seed):
            raise ScenarioRefusal('BadValue', 'seed')
        seed = bytes.fromhex(seed)
        levels = self.get(doc, '', 'levels', [5, 5, 5])
        if not isinstance(levels, list) or not levels:
            raise ScenarioRefusal('BadValue', 'levels')
        if len(levels) > 3:
            raise ScenarioRefusal('TooMany', 'levels')
        if any(not _is_int(x) or x not in (5, 10) for x in levels):
            raise ScenarioRefusal('BadValue', 'levels')
        frames = 1
        if STAGE >= 17:
            frames = self.int(doc, '', 'frames', 1, 2, 1)
        intruded = self.get(doc, '', 'intruded', [])
        if not isinstance(intruded, list):
            raise ScenarioRefusal('BadValue', 'intruded')
        if any(not _is_int(x) or not 0 <= x < sizes.n for x in intruded) or len(set(intruded)) != len(intruded):
            raise ScenarioRefusal('BadValue', 'intruded')
        screens = self.int(doc, '', 'screens', 1, 4)
        known = ['f', 'k', 'seed', 'levels', 'intruded', 'screens']
        rules = 1
        if STAGE >= RULES_STAGE:
            known.append('rules')
            rules = self.int(doc, '', 'rules', 1, 2, 1)
        if STAGE >= 17:
            known.append('frames')
        plant = Plant()
        if STAGE >= 9:
            known += ['proxy', 'point', 'alarm', 'interlock']
            self.plant(plant)
        failing = None
        if STAGE >= 15:
            known.append('keeper')
            failing = self.keepers(Scenario(sizes, seed, levels, intruded, screens, plant))
        self.others(doc, '', known)
        if self.unknown:
            raise ScenarioRefusal('UnknownKey', min(self.unknown, key=lambda s: s.encode('utf-8')))
        return Scenario(sizes, seed, levels, intruded, screens, plant, frames, failing, rules)

    def plant(self, plant):
        for x, t in enumerate(self.list('proxy', 8)):
            p = f'proxy[{x}].'
            plant.devices.append(tuple(self.int(t, p, key, 0, 1024) for key in ('coils', 'discrete', 'holding', 'input')))
            self.others(t, p, ('coils', 'discrete', 'holding', 'input'))
        names = []
        for x, t in enumerate(self.list('point', 1024)):
            p = f'point[{x}].'
            name = self.name(t, p, names)
            proxy = self.int(t, p, 'proxy', 0, len(plant.devices) - 1)
            area = self.get(t, p, 'area')
            if not isinstance(area, str) or area not in AREAS:
                raise ScenarioRefusal('BadValue', p + 'area')
            place = self.int(t, p, 'place', 0, 65535)
            scale = self.int(t, p, 'scale', 1, 1000000, 1)
            offset = self.int(t, p, 'offset', I64MIN, I64MAX, 0)
            low = self.int(t, p, 'low', I64MIN, I64MAX)
            high = self.int(t, p, 'high', low, I64MAX)
            start = self.int(t, p, 'start', low, high, 0)
            plant.points.append(Point(name, proxy, AREAS.index(area), place, scale, offset, low, high, start))
            self.others(t, p, ('name', 'proxy', 'area', 'place', 'scale', 'offset', 'low', 'high', 'start'))
        points = Points(plant.points)
        names = []
        for x, t in enumerate(self.list('alarm', 256)):
            p = f'alarm[{x}].'
            name = self.name(t, p, names)
            point = self.point(t, p, points)
            kind = self.get(t, p, 'kind')
            if kind not in ('high', 'low'):
                raise ScenarioRefusal('BadValue', p + 'kind')
            limit = self.int(t, p, 'limit', I64MIN, I64MAX)
            band = self.int(t, p, 'band', 0, I64MAX)
            plant.alarms.append(AlarmRule(name, point, kind, limit, band))
            self.others(t, p, ('name', 'point', 'kind', 'limit', 'band'))
        alarms = Alarms(plant.alarms)
        names = []
        for x, t in enumerate(self.list('interlock', 64)):
            p = f'interlock[{x}].'
            name = self.name(t, p, names)
            point = self.point(t, p, points)
            value = None
            if 'value' in t:
                value = self.int(t, p, 'value', I64MIN, I64MAX)
            deny = self.get(t, p, 'deny')
            if not isinstance(deny, str):
                raise ScenarioRefusal('BadValue', p + 'deny')
            try:
                rule = Rule.read(deny.encode('utf-8'), points, alarms)
            except Refusal:
                raise ScenarioRefusal('BadValue', p + 'deny')
            plant.interlocks.append(Interlock(name, point, value, rule))
            self.others(t, p, ('name', 'point', 'value', 'deny'))

    def point(self, t, p, points):
        x = self.get(t, p, 'point')
        n = points.find(x) if isinstance(x, str) else None
        if n is None:
            raise ScenarioRefusal('BadValue', p + 'point')
        return n

    def keepers(self, scenario):
        failing = [[] for _ in range(scenario.actors)]
        taken = set()
        for x, t in enumerate(self.list('keeper', None)):
            p = f'keeper[{x}].'
            name = self.get(t, p, 'actor')
            who = parse_actor(name.encode('utf-8')) if isinstance(name, str) else None
            who = scenario.actor_of(*who) if who else None
            if who is None or not scenario.correct(who) or who in taken:
                raise ScenarioRefusal('BadValue', p + 'actor')
            taken.add(who)
            nums = self.get(t, p, 'failing')
            if not isinstance(nums, list) or not nums:
                raise ScenarioRefusal('BadValue', p + 'failing')
            if len(nums) > 16:
                raise ScenarioRefusal('TooMany', p + 'failing')
            if any(not _is_int(y) or not 1 <= y <= 50000 for y in nums):
                raise ScenarioRefusal('BadValue', p + 'failing')
            if any(a >= b for a, b in zip(nums, nums[1:])):
                raise ScenarioRefusal('BadValue', p + 'failing')
            failing[who] = list(nums)
            self.others(t, p, ('actor', 'failing'))
        return failing


def parse_actor(b):
    """(kind, number) of an actor's name, None where it is no name."""
    if b[:1] not in (b'm', b'p', b's'):
        return None
    s = b[1:]
    if not s or any(c not in DIGITS for c in s) or (len(s) > 1 and s[:1] == b'0'):
        return None
    return chr(b[0]), int(s) if len(s) < 30 else 10 ** 30


# ---------------------------------------------------------------------------
# What is known, and what a correct master says
# ---------------------------------------------------------------------------

class Known:
    """What a master knows, as it grows pair by pair, with what follows from it."""

    def __init__(self, sizes, me):
        self.sizes, self.n, self.q, self.me = sizes, sizes.n, sizes.q, me
        self.pairs = {}          # (signer, text) -> first frame
        self.lists = {}          # (signer, kind) -> frames, one per body
        self.requests = {}       # (j, k) -> porequest frames of signer j
        self.acks = {}           # (j, k, digest) -> {signer: frame}
        self.cert = {}           # (j, k) -> update body
        self.vector = [0] * self.n
        self.latest = {}         # j -> frame
        self.latest_version = 0
        self.suspects = {}       # v -> signers
        self.reports = {}        # v -> {signer: frame}
        self.newviews = {}       # v -> first newview frame
        self.view = 0
        self.preprepares = {}    # v -> {s: rows of the first known}
        self.rows = {}           # digest -> rows, in order
        self.prepares = {}       # (v, s, digest) -> {signer: frame}
        self.commits = {}
        self.by_digest = {}      # digest -> keys of prepares and commits with a quorum
        self.prepared = {}       # (v, s) -> digests that have a certificate, in order
        self.certs_of = {}       # s -> {(v, digest)}
        self.ordered = {}        # s -> rows
        self.marks = {}          # s -> {signer: frame}
        self.stable = 0
        self.pings = []          # (signer, number) of others' or own, in order
        self.pongs = []          # (signer, to, number)
        self.rtts = {}           # signer -> (number, ticks), to me
        self.tatreports = {}     # v -> {signer: greatest}
        self.tatbounds = {}      # v -> {signer: first}
        self.asked_updates = []  # (j, k) that another master asked for
        self.asked_orders = []
        # order and executed
        self.run_next = 1            # the next number whose rows come in
        self.run_reach = [0] * self.n
        self.run_queue = []          # eligible (j, k) not passed yet
        self.run_at = 0
        self.executed = []
        self.kept = {}
        self.gap_reach = [0] * self.n   # eligible over the ordered numbers without a gap
        self.gap = 1                    # the least number not ordered
        self._latest_eligible = (-1, None)

    def add_frame(self, frame):
        for part in frame.parts:
            self.add_pair(part)

    def add_pair(self, fr):
        b = fr.body
        key = (fr.signer, b.text)
        if key in self.pairs:
            return
        self.pairs[key] = fr
        self.lists.setdefault((fr.signer, b.kind), []).append(fr)
        self.take(fr, fr.signer, b, b.kind, b.a)
        for rows in b.held_rows(self.n):
            self.add_rows(rows)
        self.run()

    def take(self, fr, signer, b, k, a):
        n, q = self.n, self.q
        if k == UPDATE:
            return
        if signer >= n:
            return
        if k == POREQUEST:
            key = (signer, a[0])
            self.requests.setdefault(key, []).append(fr)
            if key not in self.cert:
                if len(self.acks.get(key + (a[1].body.digest(),), ())) >= q:
                    self.certify(key, a[1].body)
        elif k == POACK:
            votes = self.acks.setdefault(a, {})
            if signer not in votes:
                votes[signer] = fr
            key = a[:2]
            if len(votes) >= q and key not in self.cert:
                for r in self.requests.get(key, ()):
                    if r.body.a[1].body.digest() == a[2]:
                        self.certify(key, r.body.a[1].body)
                        break
        elif k == POSUMMARY:
            old = self.latest.get(signer)
            if len(a[0]) == n and (old is None or sum(a[0]) > sum(old.body.a[0])):
                self.latest[signer] = fr
                self.latest_version += 1
        elif k == PREPREPARE:
            self.preprepares.setdefault(a[0], {}).setdefault(a[1], b.rows_of_preprepare(n))
        elif k in (PREPARE, COMMIT):
            table = self.prepares if k == PREPARE else self.commits
            votes = table.setdefault(a, {})
            if signer not in votes:
                votes[signer] = fr
                if len(votes) == q:
                    self.by_digest.setdefault(a[2], []).append((k, a[0], a[1]))
                    if a[2] in self.rows:
                        self.reached(k, a[0], a[1], a[2])
        elif k == PING:
            self.pings.append((signer, a[0]))
        elif k == PONG:
            self.pongs.append((signer, a[0], a[1]))
        elif k == RTT:
            if a[0] == self.me:
                old = self.rtts.get(signer)
                if old is None or a[1] > old[0]:
                    self.rtts[signer] = (a[1], a[2])
        elif k == TATREPORT:
            t = self.tatreports.setdefault(a[0], {})
            t[signer] = max(t.get(signer, 0), a[1])
        elif k == TATBOUND:
            self.tatbounds.setdefault(a[0], {}).setdefault(signer, a[1])
        elif k == SUSPECT:
            votes = self.suspects.setdefault(a[0], set())
            votes.add(signer)
            if len(votes) >= q:
                self.view = max(self.view, a[0] + 1)
        elif k == REPORT:
            self.reports.setdefault(a[0], {}).setdefault(signer, fr)
        elif k == NEWVIEW:
            self.newviews.setdefault(a[0], fr)
            self.view = max(self.view, a[0])
        elif k == ASKUPDATE:
            if signer != self.me:
                self.asked_updates.append(a)
        elif k == ASKORDER:
            if signer != self.me:
                self.asked_orders.append(a[0])
        elif k == MARK:
            votes = self.marks.setdefault(a[0], {})
            votes.setdefault(signer, fr)
            if len(votes) >= q:
                self.stable = max(self.stable, a[0])

    def certify(self, key, update):
        self.cert[key] = update
        j = key[0]
        while (j, self.vector[j] + 1) in self.cert:
            self.vector[j] += 1

    def add_rows(self, rows):
        d = rows_digest(rows)
        if d in self.rows:
            return
        self.rows[d] = rows
        for k, v, s in self.by_digest.get(d, ()):
            self.reached(k, v, s, d)

    def reached(self, k, v, s, d):
        """A quorum for (v, s, d) and the rows are known."""
        if k == PREPARE:
            self.prepared.setdefault((v, s), []).append(d)
            self.certs_of.setdefault(s, set()).add((v, d))
        elif s not in self.ordered:
            self.ordered[s] = self.rows[d]

    def run(self):
        """What is ordered without a gap, and what is executed."""
        while self.gap in self.ordered:
            e = eligible(self.sizes, self.ordered[self.gap])
            self.gap_reach = [max(x, y) for x, y in zip(self.gap_reach, e)]
            self.gap += 1
        while True:
            if self.run_at == len(self.run_queue):
                if STAGE == 1:
                    return self.run_r1()
                if self.run_next not in self.ordered:
                    return
                e = eligible(self.sizes, self.ordered[self.run_next])
                self.run_queue = []
                self.run_at = 0
                for j in range(self.n):
                    for k in range(self.run_reach[j] + 1, e[j] + 1):
                        self.run_queue.append((j, k))
                    self.run_reach[j] = max(self.run_reach[j], e[j])
                self.run_next += 1
                continue
            u = self.cert.get(self.run_queue[self.run_at])
            if u is None:
                return
            self.run_at += 1
            self.execute(u)

    def run_r1(self):
        while (0, self.run_next) in self.cert:
            self.execute(self.cert[(0, self.run_next)])
            self.run_next += 1

    def execute(self, u):
        client, t, _ = u.a
        if t == self.kept.get(client, 0) + 1:
            self.kept[client] = t
            self.executed.append(u)

    def waiting_for(self):
        """The first place at which execution waits for a certificate."""
        if self.run_at < len(self.run_queue):
            return self.run_queue[self.run_at]
        return None

    def is_open(self):
        return self.view == 0 or self.view in self.newviews

    def plan(self, v):
        """(base, rows) of the first known newview v; (0, []) of view 0; else None."""
        if v in self.newviews:
            return self.newviews[v].body.plan(self.n)
        return (0, []) if v == 0 else None

    def offered(self, v, s):
        if v != self.view or not self.is_open():
            return None
        base, rows = self.plan(v)
        if s <= base:
            return None
        if s <= base + len(rows):
            return rows[s - base - 1]
        return self.preprepares.get(v, {}).get(s)

    def latest_rows(self):
        return tuple(self.latest[j].body.a[0] if j in self.latest else () for j in range(self.n))

    def latest_eligible(self):
        if self._latest_eligible[0] != self.latest_version:
            self._latest_eligible = (self.latest_version, eligible(self.sizes, self.latest_rows()))
        return self._latest_eligible[1]

    def waits(self):
        return not self.is_open() or exceeds(self.latest_eligible(), self.gap_reach)

    def certificate(self, v, s, digest):
        votes = self.prepares[(v, s, digest)]
        return Certificate(s, v, self.rows[digest], [votes[j] for j in sorted(votes)[:self.q]])

    def best_certificate(self, s, below):
        """The certificate for s of the highest view below the given one, among equals of the least digest."""
        c = [(-v, d) for v, d in self.certs_of.get(s, ()) if v < below]
        if not c:
            return None
        v, d = min(c)
        return self.certificate(-v, s, d)

    def certificate_numbers(self):
        return sorted(self.certs_of)

    def give(self, j, k):
        u = self.cert.get((j, k))
        if u is None:
            return None
        text = u.text
        req = next(r for r in self.requests[(j, k)] if r.body.a[1].body.text == text)
        votes = self.acks[(j, k, u.digest())]
        return Body(GIVE, req, tuple(votes[i] for i in sorted(votes)[:self.q]))

    def give_ordered(self, s):
        rows = self.ordered.get(s)
        if rows is None:
            return None
        d = rows_digest(rows)
        v = max(v for (k, v, s2) in self.by_digest[d] if k == COMMIT and s2 == s)
        votes = self.commits[(v, s, d)]
        return Body(GIVEORDERED, s, v, rows, tuple(votes[i] for i in sorted(votes)[:self.q]))

    def turnaround(self, v):
        t = self.tatreports.get(v, {})
        return sorted(t.get(j, 0) for j in range(self.n))[self.sizes.f]

    def acceptable(self, v):
        t = self.tatbounds.get(v, {})
        return sorted((t.get(j, 16) for j in range(self.n)), reverse=True)[self.sizes.f]

    def own_bound(self):
        b = sorted((2 * t + 4 for p, (_, t) in self.rtts.items() if p != self.me), reverse=True)
        return b[self.sizes.f] if len(b) >= self.q - 1 else None


_eligible_memo = {}


def eligible(sizes, rows):
    key = (sizes.n, sizes.q, rows)
    e = _eligible_memo.get(key)
    if e is None:
        e = []
        for j in range(sizes.n):
            col = sorted((r[j] if len(r) > j else 0 for r in rows), reverse=True)
            e.append(col[sizes.q - 1] if len(col) >= sizes.q else 0)
        e = tuple(e)
        _eligible_memo[key] = e
    return e


def exceeds(a, b):
    return any(x > y for x, y in zip(a, b))


class Node:
    """One correct master over its list, by rules 1."""

    def __init__(self, scenario, number):
        self.scenario, self.sizes, self.i = scenario, scenario.sizes, number
        self.k = Known(scenario.sizes, number)
        self.waiting = []            # frames said at the entry before: they join K before the next event
        self.ticks = 0
        self.x = 0
        self.x_view = 0
        self.own_updates = {}        # (client, t) -> first frame taken as a frame of its own
        self.points = MasterPoints(scenario.plant, scenario.screens)
        self.applied = 0
        # what was said
        self.requests_of = {}
        self.requests_said = 0
        self.acks_said = set()
        self.summary_said = (0,) * scenario.sizes.n
        self.preprepare_said = {}    # v -> greatest s
        self.prepares_said = set()
        self.commits_said = set()
        self.said = set()            # bodies of the other kinds, as short tuples
        self.pings_said = set()
        self.vouchers_said = [0] * scenario.clients
        self.doors = [self.i in scenario.sizes.doors(c) for c in range(scenario.clients)]
        # work that may be due
        self.ack_at = 0
        self.ack_wait = []
        self.prepared_at = 0
        self.commit_wait = []
        self.mark_said = 0
        self.seen = {'ping': 0, 'pong': 0, 'asku': 0, 'asko': 0}
        self.todo = {'ping': [], 'pong': [], 'asku': [], 'asko': []}

    def event(self, frame, is_tick, room):
        """One event but a skip or a restart; answers the bodies that are said, cut to room."""
        k = self.k
        for f in self.waiting:
            k.add_frame(f)
        self.waiting = []
        if frame is not None:
            if frame.body.kind == UPDATE:
                self.own_updates.setdefault(frame.body.a[:2], frame)
            k.add_frame(frame)
        if is_tick:
            self.ticks += 1
        if not k.waits():
            self.x = 0
        else:
            if self.x_view != k.view:
                self.x = 0
            if is_tick:
                self.x += 1
        self.x_view = k.view
        while self.applied < len(k.executed):
            self.points.apply(k.executed[self.applied])
            self.applied += 1
        bodies = [b for b in self.due(is_tick) if kind_known(b.kind)][:room]
        for b in bodies:
            self.note(b)
        return bodies

    def signed(self, frames):
        self.waiting.extend(frames)

    def fresh(self, which, source):
        """The entries of a growing list that were never dealt with; the caller drops those that are."""
        todo = self.todo[which]
        todo.extend(source[self.seen[which]:])
        self.seen[which] = len(source)
        return todo

    def due(self, tick):
        k, i, n, q = self.k, self.i, self.sizes.n, self.sizes.q
        out = []
        # porequest
        total = self.requests_said
        for c in range(self.scenario.clients):
            if self.doors[c] and total < 4096:
                fr = self.own_updates.get((c, self.requests_of.get(c, 0) + 1))
                if fr is not None:
                    total += 1
                    out.append(Body(POREQUEST, total, fr))
        # poack
        if len(k.requests) != self.ack_at:
            self.ack_wait.extend(itertools.islice(k.requests, self.ack_at, None))
            self.ack_at = len(k.requests)
        if self.ack_wait:
            self.ack_wait = [key for key in self.ack_wait if key not in self.acks_said]
            for j, num in sorted(self.ack_wait):
                out.append(Body(POACK, j, num, k.requests[(j, num)][0].body.a[1].body.digest()))
        v = k.view
        is_open = k.is_open()
        window = 16 if STAGE >= 13 else 64
        most = 4096 if STAGE >= 13 else 64
        stable = k.stable if STAGE >= 13 else 0
        if tick:
            vec = tuple(k.vector)
            if vec != self.summary_said:
                out.append(Body(POSUMMARY, vec))
            if v % n == i and is_open:
                base, rows = k.plan(v)
                s = max(base + len(rows), self.preprepare_said.get(v, 0)) + 1
                if s <= min(most, stable + window):
                    reach = [0] * n
                    for s2 in range(1, s):
                        r = k.ordered.get(s2) if s2 <= base else k.offered(v, s2)
                        if r is not None:
                            reach = [max(x, y) for x, y in zip(reach, eligible(self.sizes, r))]
                    if exceeds(k.latest_eligible(), reach):
                        out.append(Body(PREPREPARE, v, s, tuple(k.latest[j] for j in sorted(k.latest))))
        # prepare
        if is_open:
            base, rows = k.plan(v)
            for s in range(base + 1, min(most, stable + window) + 1):
                if (v, s) not in self.prepares_said:
                    r = k.offered(v, s)
                    if r is not None:
                        out.append(Body(PREPARE, v, s, rows_digest(r)))
        # commit
        if len(k.prepared) != self.prepared_at:
            self.commit_wait.extend(itertools.islice(k.prepared, self.prepared_at, None))
            self.prepared_at = len(k.prepared)
        if self.commit_wait:
            self.commit_wait = [key for key in self.commit_wait if key[0] >= v and key not in self.commits_said]
            for v2, s in sorted(self.commit_wait):
                if v2 == v and s <= stable + window:
                    out.append(Body(COMMIT, v, s, k.prepared[(v, s)][0]))
        # ping, pong, rtt
        if tick and self.ticks % 16 == 0:
            out.append(Body(PING, self.ticks // 16))
        todo = self.fresh('ping', k.pings)
        if todo:
            todo[:] = [p for p in todo if p[0] != i and (PONG,) + p not in self.said]
            out.extend(Body(PONG, to, num) for to, num in sorted(set(todo)))
        todo = self.fresh('pong', k.pongs)
        if todo:
            todo[:] = [p for p in todo if p[1] == i and (RTT, p[0], p[2]) not in self.said]
            for to, num in sorted({(p[0], p[2]) for p in todo if p[2] in self.pings_said}):
                out.append(Body(RTT, to, num, self.ticks - 16 * num))
        if tick:
            if self.x > 0 and self.x % 8 == 0 and (TATREPORT, v, self.x) not in self.said:
                out.append(Body(TATREPORT, v, self.x))
            if (TATBOUND, v) not in self.said:
                bound = k.own_bound()
                if bound is not None:
                    out.append(Body(TATBOUND, v, bound))
            if v <= 254 and (SUSPECT, v) not in self.said and k.turnaround(v) > k.acceptable(v):
                out.append(Body(SUSPECT, v))
        # report, newview
        if v >= 1 and (REPORT, v) not in self.said and len(k.suspects.get(v - 1, ())) >= q:
            marks = ()
            base = 0
            numbers = k.certificate_numbers()
            if STAGE >= 13:
                base = k.stable
                if base > 0:
                    marks = k.marks[base]
                    marks = tuple(marks[j] for j in sorted(marks)[:q])
                numbers = [s for s in numbers if base + 1 <= s <= base + 16]
            certs = [k.best_certificate(s, v) for s in numbers]
            out.append(Body(REPORT, v, base, marks, tuple(c for c in certs if c is not None)))
        if v >= 1 and v % n == i and (NEWVIEW, v) not in self.said:
            r = k.reports.get(v, {})
            if len(r) >= q:
                out.append(Body(NEWVIEW, v, tuple(r[j] for j in sorted(r)[:q])))
        # reconciliation
        if tick:
            w = k.waiting_for()
            if w is not None and (ASKUPDATE,) + w not in self.said:
                out.append(Body(ASKUPDATE, *w))
        todo = self.fresh('asku', k.asked_updates)
        if todo:
            todo[:] = [p for p in todo if (GIVE,) + p not in self.said]
            for j, num in sorted(set(todo)):
                b = k.give(j, num)
                if b is not None:
                    out.append(b)
        if tick:
            s = k.gap
            if (ASKORDER, s) not in self.said and len(k.ordered) > s - 1:
                out.append(Body(ASKORDER, s))
        todo = self.fresh('asko', k.asked_orders)
        if todo:
            todo[:] = [s for s in todo if (GIVEORDERED, s) not in self.said]
            for s in sorted(set(todo)):
                b = k.give_ordered(s)
                if b is not None:
                    out.append(b)
        # voucher
        for c in range(self.scenario.clients):
            orders = self.points.orders[c]
            for x in range(self.vouchers_said[c], len(orders)):
                out.append(Body(VOUCHER, c, x + 1, orders[x]))
        # mark
        if STAGE >= 13:
            for s in range(self.mark_said + 8, k.gap, 8):
                out.append(Body(MARK, s))
        return out

    def note(self, b):
        """The body counts as said."""
        k, a = b.kind, b.a
        if k == POREQUEST:
            c = a[1].body.a[0]
            self.requests_of[c] = self.requests_of.get(c, 0) + 1
            self.requests_said += 1
        elif k == POACK:
            self.acks_said.add(a[:2])
        elif k == POSUMMARY:
            self.summary_said = a[0]
        elif k == PREPREPARE:
            self.preprepare_said[a[0]] = a[1]
        elif k == PREPARE:
            self.prepares_said.add(a[:2])
        elif k == COMMIT:
            self.commits_said.add(a[:2])
        elif k == PING:
            self.pings_said.add(a[0])
        elif k == RTT:
            self.said.add((RTT, a[0], a[1]))
        elif k in (TATBOUND, REPORT, NEWVIEW):
            self.said.add((k, a[0]))
        elif k == GIVE:
            self.said.add((GIVE, a[0].signer, a[0].body.a[0]))
        elif k == GIVEORDERED:
            self.said.add((GIVEORDERED, a[0]))
        elif k == VOUCHER:
            self.vouchers_said[a[0]] = a[1]
        elif k == MARK:
            self.mark_said = a[0]
        else:
            self.said.add((k,) + a)

    def executions(self):
        return self.k.executed

    def view(self):
        return self.k.view


# ---------------------------------------------------------------------------
# Rules 2 (the scenario's `rules = 2`): what else is known, and what a correct master says by them
# ---------------------------------------------------------------------------

class LiveKnown(Known):
    """What is known, with what rules 2 count besides."""

    def __init__(self, sizes, me):
        super().__init__(sizes, me)
        self.turn_next = [1] * self.n                # by door: its least number whose turn hasn't come
        self.turn_top = [{} for _ in range(self.n)]  # by door: client -> the greatest t that had its turn
        self.ack_due = {}                            # (j, k) -> digest: to be acknowledged, not said yet
        self.high_commit = [0] * self.n              # the greatest s of a known commit or mark, by signer
        self.voted_to = [0] * self.n                 # one more than the greatest v of a known suspect, by signer

    def take(self, fr, signer, b, k, a):
        super().take(fr, signer, b, k, a)
        if signer >= self.n:
            return
        if k == POREQUEST:
            if len(self.requests[(signer, a[0])]) == 1:
                self.in_turn(signer)
        elif k == COMMIT:
            self.high_commit[signer] = max(self.high_commit[signer], a[1])
        elif k == MARK:
            self.high_commit[signer] = max(self.high_commit[signer], a[0])
        elif k == SUSPECT:
            self.voted_to[signer] = max(self.voted_to[signer], a[0] + 1)

    def in_turn(self, j):
        """Acknowledged are a door's requests for its own clients, once all its lower numbers are known, where the
        update's t is above those of the client's updates in the lower numbers."""
        while (j, self.turn_next[j]) in self.requests:
            key = (j, self.turn_next[j])
            u = self.requests[key][0].body.a[1].body
            c, t = u.a[0], u.a[1]
            if j in self.sizes.doors(c) and t > self.turn_top[j].get(c, 0):
                self.turn_top[j][c] = t
                self.ack_due[key] = u.digest()
            self.turn_next[j] += 1

    def shown(self):
        """By master, how far f + 1 latest summaries have its requests certified."""
        rows = self.latest_rows()
        return [nth_highest((r[j] if r else 0 for r in rows), self.sizes.f) for j in range(self.n)]


def nth_highest(values, x):
    return sorted(values, reverse=True)[x]


class LiveNode(Node):
    """One correct master by rules 2."""

    def __init__(self, scenario, number):
        super().__init__(scenario, number)
        n = self.sizes.n
        self.k = LiveKnown(self.sizes, number)
        self.wanted = []             # (ticks before it, eligible): the latest rows' eligible vectors in this view
        self.wanted_in = 0           # the view that they are of
        self.shown_before = [0] * n  # what f + 1 summaries showed at the last tick that is a multiple of 4
        self.introduced = [0] * scenario.clients   # the greatest t asked for as a door
        self.my_requests = {}        # k -> own porequest body, as said before the present event
        self.my_acks = {}            # (j, k) -> own poack body, the same
        self.voted = set()           # views voted against
        self.asked = set()           # askupdate and askorder bodies said, as (kind,) + values
        self.answered = [0] * n      # events that answered an ask, by asker

    def event(self, frame, is_tick, room):
        k = self.k
        for f in self.waiting:
            k.add_frame(f)
        self.waiting = []
        if frame is not None:
            if frame.body.kind == UPDATE:
                self.own_updates.setdefault(frame.body.a[:2], frame)
            k.add_frame(frame)
        if is_tick:
            self.ticks += 1
        self.measure_wait(is_tick)
        while self.applied < len(k.executed):
            self.points.apply(k.executed[self.applied])
            self.applied += 1
        # nothing is said after a cut (the leaves are spent), so what counts as said may count before it
        bodies = self.words(is_tick, frame)
        for b in bodies:
            if b.kind == POREQUEST:
                self.my_requests.setdefault(b.a[0], b)
            elif b.kind == POACK:
                self.my_acks.setdefault(b.a[:2], b)
        return bodies[:room]

    def measure_wait(self, is_tick):
        """x: the ticks since the first event of this view at which something was eligible that isn't ordered."""
        k = self.k
        if self.wanted_in != k.view:
            self.wanted_in, self.wanted = k.view, []
        e = k.latest_eligible()
        if not self.wanted or self.wanted[-1][1] != e:
            self.wanted.append((self.ticks - is_tick, e))
        first = next((i for i, (_, then) in enumerate(self.wanted) if exceeds(then, k.gap_reach)), None)
        if first is None:
            self.x = 0
            self.wanted = self.wanted[-1:]
        else:
            self.x = self.ticks - self.wanted[first][0]
            self.wanted = self.wanted[first:]

    def patience(self):
        return 32 << min(max(0, self.k.view - self.ticks // 1024) // self.sizes.n, 16)

    def words(self, tick, frame):
        """The bodies due, in the order of their kinds."""
        k = self.k
        v = k.view
        is_open = k.is_open()
        base, plan = k.plan(v) if is_open else (0, [])
        lim = min(4096, k.stable + 16)
        slow_beat = tick and self.ticks % 32 == 0
        out = []
        self.request(out, slow_beat)
        self.acknowledge(out, slow_beat)
        if tick:
            self.summarize(out, slow_beat)
            if v % self.sizes.n == self.i and is_open and k.gap - 1 >= base:
                self.propose(out, v, base, base + len(plan), lim)
        if is_open:
            self.prepare(out, v, base, base + len(plan), lim)
        self.commit(out, v, lim)
        self.vote(out, v, tick)
        self.change_view(out, v)
        if tick:
            self.ask_updates(out)
            self.ask_orders(out, base)
        if frame is not None:
            self.give(out, frame)
        for c in range(self.scenario.clients):
            orders = self.points.orders[c]
            for y in range(self.vouchers_said[c], len(orders)):
                out.append(Body(VOUCHER, c, y + 1, orders[y]))
            self.vouchers_said[c] = len(orders)
        while self.mark_said + 8 <= k.gap - 1:
            self.mark_said += 8
            out.append(Body(MARK, self.mark_said))
        return out

    def request(self, out, slow_beat):
        """For each client the update after all that were introduced and all that are executed; the first request that
        isn't certified again."""
        for c in range(self.scenario.clients):
            if self.doors[c] and self.requests_said < 4096:
                t = max(self.introduced[c], self.k.kept.get(c, 0)) + 1
                fr = self.own_updates.get((c, t))
                if fr is not None:
                    self.requests_said += 1
                    self.introduced[c] = t
                    out.append(Body(POREQUEST, self.requests_said, fr))
        again = self.my_requests.get(self.k.vector[self.i] + 1)
        if slow_beat and again is not None:
            out.append(again)

    def acknowledge(self, out, slow_beat):
        k = self.k
        for key in sorted(k.ack_due):
            out.append(Body(POACK, *key, k.ack_due[key]))
        k.ack_due = {}
        if slow_beat:
            firsts = (self.my_acks.get((j, k.vector[j] + 1)) for j in range(self.sizes.n))
            out.extend(b for b in firsts if b is not None)

    def summarize(self, out, slow_beat):
        """The last summary again, while what it tells isn't ordered; and a new one."""
        last, vec = self.summary_said, tuple(self.k.vector)
        if slow_beat and exceeds(last, self.k.gap_reach):
            out.append(Body(POSUMMARY, last))
        if vec != last:
            self.summary_said = vec
            out.append(Body(POSUMMARY, vec))

    def propose(self, out, v, base, end, lim):
        k = self.k
        s = max(end, self.preprepare_said.get(v, 0)) + 1
        if s > lim:
            return
        reach = [0] * self.sizes.n
        for s2 in range(1, s):
            r = k.ordered.get(s2) if s2 <= base else k.offered(v, s2)
            if r is not None:
                reach = [max(y, z) for y, z in zip(reach, eligible(self.sizes, r))]
        if exceeds(k.latest_eligible(), reach):
            self.preprepare_said[v] = s
            out.append(Body(PREPREPARE, v, s, tuple(k.latest[j] for j in sorted(k.latest))))

    def prepare(self, out, v, base, end, lim):
        """What the view offers up to the plan's end or to the last number ordered without a gap; above, as long as each
        number makes more eligible than all before it."""
        k = self.k
        gapless = k.gap - 1
        worth = max(end, gapless)
        reach = k.gap_reach
        for s in range(gapless + 1, lim + 1):
            r = k.offered(v, s)
            if r is None:
                r = k.ordered.get(s)
            if r is None:
                break
            e = eligible(self.sizes, r)
            if s > end and not exceeds(e, reach):
                break
            reach = [max(y, z) for y, z in zip(reach, e)]
            worth = max(worth, s)
        for s in range(base + 1, min(worth, lim) + 1):
            r = k.offered(v, s)
            if r is not None and (v, s) not in self.prepares_said:
                self.prepares_said.add((v, s))
                out.append(Body(PREPARE, v, s, rows_digest(r)))

    def commit(self, out, v, lim):
        k = self.k
        if len(k.prepared) != self.prepared_at:
            self.commit_wait.extend(itertools.islice(k.prepared, self.prepared_at, None))
            self.prepared_at = len(k.prepared)
        if self.commit_wait:
            self.commit_wait = [key for key in self.commit_wait if key[0] >= v and key not in self.commits_said]
            for v2, s in sorted(self.commit_wait):
                if v2 == v and s <= lim:
                    self.commits_said.add((v, s))
                    out.append(Body(COMMIT, v, s, k.prepared[(v, s)][0]))

    def vote(self, out, v, tick):
        """Against each view below, once, and on to what f + k + 1 masters voted against; out of patience against the
        present view, and at each 16th tick against the last two again."""
        impatient = tick and self.x > self.patience()
        to = max(nth_highest(self.k.voted_to, self.sizes.f + self.sizes.k), v + 1 if impatient else v)
        for w in range(min(to, 255)):
            if w not in self.voted or impatient and self.ticks % 16 == 0 and v - 1 <= w <= v:
                self.voted.add(w)
                out.append(Body(SUSPECT, w))

    def change_view(self, out, v):
        k, i, n, q = self.k, self.i, self.sizes.n, self.sizes.q
        if v >= 1 and (REPORT, v) not in self.said and len(k.suspects.get(v - 1, ())) >= q:
            low = k.stable
            marks = ()
            if low > 0:
                marks = k.marks[low]
                marks = tuple(marks[j] for j in sorted(marks)[:q])
            numbers = [s for s in k.certificate_numbers() if low + 1 <= s <= low + 16]
            certs = [k.best_certificate(s, v) for s in numbers]
            self.said.add((REPORT, v))
            out.append(Body(REPORT, v, low, marks, tuple(c for c in certs if c is not None)))
        if v >= 1 and v % n == i and (NEWVIEW, v) not in self.said:
            r = k.reports.get(v, {})
            if len(r) >= q:
                self.said.add((NEWVIEW, v))
                out.append(Body(NEWVIEW, v, tuple(r[j] for j in sorted(r)[:q])))

    def may_ask(self, *ask):
        """At once, and again at each 16th tick."""
        if ask in self.asked and self.ticks % 16 != 0:
            return False
        self.asked.add(ask)
        return True

    def ask_updates(self, out):
        """For what the ordered rows make eligible; at each fourth tick also for what f + 1 summaries showed four ticks
        before. At most 16 at a tick."""
        k = self.k
        room = 16
        fourth = self.ticks % 4 == 0
        for j in range(self.sizes.n):
            to = max(k.gap_reach[j], self.shown_before[j] if fourth else 0)
            for num in range(k.vector[j] + 1, min(to, 4096) + 1):
                if room and (j, num) not in k.cert and self.may_ask(ASKUPDATE, j, num):
                    room -= 1
                    out.append(Body(ASKUPDATE, j, num))
        if fourth:
            self.shown_before = k.shown()

    def ask_orders(self, out, base):
        """Numbers that are lacking, at most 64: after a long wait, or where the plan stands on them, as far as f + 1
        masters committed; the next one without a sign of it each 128 ticks, and after one that had to be asked for."""
        k = self.k
        gapless = k.gap - 1
        starved = self.x > 16
        to = max(nth_highest(k.high_commit, self.sizes.f), base) if starved or gapless < base else 0
        blind = (ASKORDER, gapless) in self.asked and (ASKORDER, gapless + 1) not in self.asked
        if starved or blind or self.ticks % 128 == 0:
            to = max(to, gapless + 1)
        for s in range(gapless + 1, min(to, gapless + 64, 4096) + 1):
            if s not in k.ordered and self.may_ask(ASKORDER, s):
                out.append(Body(ASKORDER, s))

    def give(self, out, frame):
        """The answer to the ask just taken, within its asker's share."""
        k, ask, asker = self.k, frame.body, frame.signer
        if ask.kind not in (ASKUPDATE, ASKORDER) or asker == self.i or asker >= self.sizes.n:
            return
        if self.answered[asker] >= 64 + self.ticks // 4 + 4 * (k.gap - 1 + sum(k.vector)):
            return
        b = k.give(*ask.a) if ask.kind == ASKUPDATE else k.give_ordered(ask.a[0])
        if b is not None:
            self.answered[asker] += 1
            out.append(b)


# ---------------------------------------------------------------------------
# Clients
# ---------------------------------------------------------------------------

class Vouched:
    """Orders by number, f + 1 matching vouchers each."""

    def __init__(self, sizes, client):
        self.f, self.client = sizes.f, client
        self.votes = {}    # (number, order) -> signers
        self.met = {}      # number -> the order whose (f+1)st voucher came first
        self.done = 0

    def take(self, signer, voucher, counts):
        client, number, order = voucher
        if client != self.client or not counts(order):
            return
        votes = self.votes.setdefault((number, order), set())
        votes.add(signer)
        if len(votes) == self.f + 1:
            self.met.setdefault(number, order)

    def next(self):
        """The next (number, order) that is due, or None."""
        o = self.met.get(self.done + 1)
        if o is None:
            return None
        self.done += 1
        return self.done, o


class Proxy:
    def __init__(self, client, sizes, plant):
        self.client, self.plant = client, plant
        self.device = Device(plant.devices[client])
        self.vouched = Vouched(sizes, client)
        self.writes = []     # (number, point, raw, exception or None)
        self.last = {}       # point -> value said
        self.t = 0

    def change(self, area, place, value):
        self.device.change(area, place, value)

    def poll(self, room):
        out = []
        for x, p in enumerate(self.plant.points):
            if p.proxy != self.client:
                continue
            name = 'ReadBits' if p.area in (COIL, DISCRETE) else 'ReadRegisters'
            pdu = self.device.pdu((name, p.area + 1, p.place, 1))
            if pdu[0] == 'Exception':
                continue
            raw = pdu[2][0] & 1 if pdu[0] == 'Bits' else struct.unpack('>H', pdu[2])[0]
            value = raw * p.scale + p.offset
            if not I64MIN <= value <= I64MAX or self.last.get(x) == value:
                continue
            if len(out) == room:
                break
            self.last[x] = value
            self.t += 1
            out.append(Body(UPDATE, self.client, self.t, ('reading', x, value)))
        return out

    def counts(self, order):
        if order[0] != 'write' or order[1] >= len(self.plant.points):
            return False
        p = self.plant.points[order[1]]
        return p.proxy == self.client and p.area in (COIL, HOLDING)

    def take_voucher(self, signer, voucher):
        self.vouched.take(signer, voucher, self.counts)
        while True:
            due = self.vouched.next()
            if due is None:
                return
            number, (_, point, raw) = due
            p = self.plant.points[point]
            if p.area == COIL:
                pdu = self.device.pdu(('WriteCoil', p.place, 0xFF00 if raw else 0))
            else:
                pdu = self.device.pdu(('WriteRegister', p.place, raw))
            self.writes.append((number, point, raw, pdu[2] if pdu[0] == 'Exception' else None))


# the areas in the order of functions 1 to 4 read the lists in the order of AREAS
assert AREAS == ['coil', 'discrete', 'holding', 'input']


class Screen:
    def __init__(self, client, sizes):
        self.client = client
        self.vouched = Vouched(sizes, client)
        self.board = []      # (number, what, t, n)
        self.t = 0

    def command(self, op):
        self.t += 1
        return Body(UPDATE, self.client, self.t, op)

    def take_voucher(self, signer, voucher):
        self.vouched.take(signer, voucher, lambda o: o[0] == 'notice')
        while True:
            due = self.vouched.next()
            if due is None:
                return
            self.board.append((due[0],) + due[1][1:])


# ---------------------------------------------------------------------------
# world_history: entries, benches
# ---------------------------------------------------------------------------
# Events: ('took', stamp, place, frame), ('tick',), ('command', op), ('field', area, place, value), ('poll',),
# ('cry', bytes), ('skip',), ('restart',)

class Entry:
    __slots__ = ('stamp', 'actor', 'event', 'said', 'cried')

    def __init__(self, stamp, actor, event):
        self.stamp, self.actor, self.event = stamp, actor, event
        self.said = []       # frames
        self.cried = None    # the frame of a cry that read_frame reads

    def frame(self, place):
        """The frame said as body `place` at this entry, None where there is none."""
        if self.event[0] == 'cry':
            return self.cried if place == 0 else None
        return self.said[place] if place < len(self.said) else None


class Bench:
    def __init__(self, scenario, actor):
        self.scenario, self.actor = scenario, actor
        self.sizes = scenario.sizes
        self.key = scenario.key(actor)
        self.node = self.known = self.proxy = self.screen = None
        self.master = scenario.is_master(actor)
        self.is_intruded = actor in scenario.intruded
        client = actor - self.sizes.n
        if self.is_intruded:
            self.known = Known(self.sizes, actor)
            self.waiting = []
        elif self.master:
            self.node = (LiveNode if scenario.rules == 2 else Node)(scenario, actor)
        elif scenario.is_proxy(actor):
            self.proxy = Proxy(client, self.sizes, scenario.plant)
        else:
            self.screen = Screen(client, self.sizes)
        self.list = []
        # keeper
        self.failing = list(scenario.failing[actor])
        self.calls = 0
        self.halted = False

    # leaves
    def leaves(self):
        return self.key.left()

    def fits(self, event):
        k = event[0]
        if k in ('took', 'tick', 'skip'):
            return True
        if k == 'command':
            return self.screen is not None
        if k == 'poll':
            return self.proxy is not None
        if k == 'field':
            return self.proxy is not None and self.proxy.device.value(event[1], event[2]) is not None
        if k == 'cry':
            return self.is_intruded
        if k == 'restart':
            return STAGE >= 15 and not self.is_intruded
        return False

    def room(self):
        return self.leaves() * (32 if self.scenario.frames == 2 else 1)

    def act(self, stamp, event):
        """One entry; answers it. Its frames are entry.said."""
        e = Entry(stamp, self.actor, event)
        k = event[0]
        bodies = []
        if k in ('skip', 'restart'):
            pass
        elif self.is_intruded:
            for f in self.waiting:
                self.known.add_frame(f)
            self.waiting = []
            if k == 'took':
                self.known.add_frame(event[3])
            elif k == 'cry':
                e.cried = event[2] if len(event) > 2 else try_read_frame(event[1])
                if e.cried is not None:
                    self.waiting.append(e.cried)
        elif self.master:
            bodies = self.node.event(event[3] if k == 'took' else None, k == 'tick', self.room())
        elif self.proxy:
            if k == 'took':
                self.voucher(self.proxy, event[3])
            elif k == 'field':
                self.proxy.change(*event[1:])
            elif k == 'poll' and STAGE >= 10:
                bodies = self.proxy.poll(self.room())
        elif k == 'took':
            self.voucher(self.screen, event[3])
        elif k == 'command' and self.room() > 0:
            bodies = [self.screen.command(event[1])]
        e.said = self.sign(bodies)
        if self.node:
            self.node.signed(e.said)
        self.list.append(e)
        self.keeper(k)
        return e

    def voucher(self, client, frame):
        b = frame.body
        if b.kind == VOUCHER:
            client.take_voucher(frame.signer, b.a)

    def keeper(self, k):
        """A reading where the entry is a restart, then an append."""
        for _ in range(2 if k == 'restart' else 1):
            self.calls += 1
            if self.calls in self.failing:
                self.halted = True
                return

    def sign(self, bodies):
        size = 32 if self.scenario.frames == 2 else 1
        out = []
        for at in range(0, len(bodies), size):
            group = bodies[at:at + size]
            m = self.key.used
            assert m < self.key.total
            self.key.used += 1
            if len(group) == 1:
                b = group[0]
                out.append(Frame(self.actor, b, maker=lambda b=b, m=m: self.key.sign_at(m, b.text)))
            else:
                made = []

                def field(place, group=group, m=m, made=made):
                    if not made:
                        levels = group_levels([b.text for b in group])
                        made.append((levels, self.key.sign_at(m, batch_text(len(group), levels[-1][0]))))
                    return group_field(made[0][0], place, len(group), made[0][1])
                for place, b in enumerate(group):
                    out.append(Frame(self.actor, b, maker=lambda place=place, field=field: field(place)))
        return out

    def last_frames(self):
        """What a restart posts again: the frames of the entry before it."""
        return (self.list[-2], self.list[-2].said) if len(self.list) > 1 else (None, [])

    # intruded masters
    def speak(self, word):
        """(bytes, frame or None) of the word, None where it is not there."""
        if word[0] == 'raw':
            return word[1], try_read_frame(word[1])
        for f in self.waiting:
            self.known.add_frame(f)
        self.waiting = []
        b = self.word_body(word)
        if b is None or self.leaves() == 0:
            return None
        fr = self.sign_word(b)
        return fr.bytes, fr

    def sign_word(self, b):
        m = self.key.used
        self.key.used += 1
        return Frame(self.actor, b, maker=lambda: self.key.sign_at(m, b.text))

    def ref(self, r):
        fs = self.known.lists.get((r[0], r[1]), ())
        return fs[r[2] - 1] if r[2] <= len(fs) else None

    def ref_digest(self, r):
        fr = self.ref(r)
        if fr is None:
            return None
        if fr.body.kind == POREQUEST:
            return fr.body.a[1].body.digest()
        return rows_digest(fr.body.rows_of_preprepare(self.sizes.n))

    def word_body(self, w):
        k = w[0]
        known = self.known
        if k == POREQUEST:
            fr = self.ref(w[2])
            return fr and Body(k, w[1], fr)
        if k in (POACK, PREPARE, COMMIT):
            d = self.ref_digest(w[3])
            return d and Body(k, w[1], w[2], d)
        if k == PREPREPARE:
            frs = [self.ref(r) for r in w[3]]
            return None if None in frs else Body(k, w[1], w[2], tuple(frs))
        if k == NEWVIEW:
            frs = [self.ref(r) for r in w[2]]
            return None if None in frs else Body(k, w[1], tuple(frs))
        if k == REPORT:
            _, v, base, items = w
            marks = ()
            if STAGE >= 13:
                if base is None:
                    base = known.stable
                if base > 0:
                    got = known.marks.get(base, {})
                    if len(got) < known.q:
                        return None
                    marks = tuple(got[j] for j in sorted(got)[:known.q])
            certs = []
            for s, v2 in items:
                d = known.prepared.get((v2, s))
                if d is None:
                    return None
                certs.append(known.certificate(v2, s, d[0]))
            return Body(k, v, base or 0, marks, tuple(certs))
        if k == GIVE:
            return known.give(w[1], w[2])
        if k == GIVEORDERED:
            return known.give_ordered(w[1])
        return Body(k, *w[1:])

    # answers
    def executions(self):
        return self.node.executions() if self.node else []

    def view(self):
        return self.node.view() if self.node else 0

    def writes(self):
        return self.proxy.writes if self.proxy else []

    def board(self):
        return self.screen.board if self.screen else []

    def left(self):
        return self.key.left()

    def certified(self, j, k):
        return self.node.k.cert.get((j, k)) if self.node else None


def addressees(scenario, actor, body):
    n = scenario.sizes.n
    if body.kind == UPDATE:
        return sorted(scenario.sizes.doors(body.a[0]))
    if body.kind == VOUCHER:
        return [n + body.a[0]]
    return [j for j in range(n) if j != actor]


def audit(scenario, entries):
    """Forged, alike, intruded."""
    forged = 0
    said = set()
    digests = {}
    alike = 0
    seen = set()
    n = scenario.sizes.n

    def look(text, digest):
        nonlocal alike
        if text in seen:
            return
        seen.add(text)
        if digest in digests and digests[digest] != text:
            alike += 1
        digests.setdefault(digest, text)

    done = set()

    def body_texts(b):
        if id(b) in done:
            return
        done.add(id(b))
        keep.append(b)
        if b.kind == UPDATE:
            look(b.text, b.digest())
        if b.kind == POREQUEST:
            u = b.a[1].body
            look(u.text, u.digest())
        for rows in b.held_rows(n):
            look(rows_text(rows), rows_digest(rows))
    keep = []
    for e in entries:
        if e.event[0] == 'took':
            for part in e.event[3].parts:
                if scenario.correct(part.signer) and (part.signer, part.body.text) not in said:
                    forged += 1
                body_texts(part.body)
        for f in e.said:
            said.add((f.signer, f.body.text))
            for part in f.parts:
                body_texts(part.body)
    return forged, alike, len(scenario.intruded)


def agree(scenario, benches):
    lists = [[u.text for u in b.executions()] for b in benches[:scenario.sizes.n] if not b.is_intruded]
    longest = max(lists, key=len, default=[])
    return all(longest[:len(x)] == x for x in lists)


# ---------------------------------------------------------------------------
# The printed text
# ---------------------------------------------------------------------------

def hex_text(data):
    return data.hex() if data else '-'


def event_text(event):
    k = event[0]
    if k == 'took':
        if event[2] == U32MAX:
            return 'took frame ' + hex_text(event[3].bytes)
        return f'took {event[1]}.{event[2]}'
    if k == 'command':
        return 'command ' + op_text(event[1])
    if k == 'field':
        return f'field {AREAS[event[1]]} {event[2]} {event[3]}'
    if k == 'cry':
        return 'cry ' + hex_text(event[1])
    return k


def write_run(scenario, benches, entries):
    out = ['spire 1']
    n = scenario.sizes.n
    for b in benches:
        name = scenario.name(b.actor)
        halted = ' halted' if b.halted else ''
        if b.master:
            if b.is_intruded:
                out.append(f'master {name} intruded')
                continue
            out.append(f'master {name} view {b.view()} executed {len(b.executions())}{halted}')
            for x, u in enumerate(b.executions()):
                out.append(f'{x + 1} {scenario.name(n + u.a[0])} {u.a[1]} {op_text(u.a[2])}')
        elif STAGE < 10:
            continue
        elif b.proxy:
            out.append(f'proxy {name} writes {len(b.writes())}{halted}')
            for number, point, raw, exc in b.writes():
                out.append(f'{number} {point} {raw} ' + ('ok' if exc is None else f'exception {exc}'))
        else:
            out.append(f'screen {name} notices {len(b.board())}{halted}')
            for number, what, t, num in b.board():
                line = f'{number} {NOTICES[what]}'
                if what <= 6 or what == 9:
                    line += f' {t}'
                if 2 <= what <= 8:
                    line += f' {num}'
                out.append(line)
    if STAGE >= 4:
        a, b, c = audit(scenario, entries)
        out.append(f'audit forged {a} alike {b} intruded {c} limit {scenario.sizes.f}')
    out.append('agree yes' if agree(scenario, benches) else 'agree no')
    out.append(f'history {len(entries)}')
    for e in entries:
        line = f'{e.stamp} {scenario.name(e.actor)} {event_text(e.event)}'
        if e.said:
            line += ' says ' + ' '.join(KINDS[f.body.kind] for f in e.said)
        out.append(line)
    return ''.join(x + '\n' for x in out)


# ---------------------------------------------------------------------------
# Scripts, words and plays
# ---------------------------------------------------------------------------

class LineRefusal(Exception):
    def __init__(self, name, line):
        super().__init__(name, line)
        self.name, self.line = name, line

    def __str__(self):
        return f'{self.name} {self.line}'


class _NoActor(Exception):
    pass


class _BadLine(Exception):
    pass


def split_lines(data):
    """The lines of a script or words file; a carriage return before a line feed is dropped."""
    parts = data.split(b'\n')
    out = [p[:-1] if p.endswith(b'\r') else p for p in parts[:-1]]
    if parts[-1]:
        out.append(parts[-1])
    return out


def number(b, most, least=0):
    x = decimal(b, 0, most)
    if x is None or x < least:
        raise _BadLine()
    return x


def value_number(b):
    x = decimal(b, I64MIN, I64MAX)
    if x is None:
        raise _BadLine()
    return x


class _LineParser:
    """The words of one line; actors are looked up once the line is known to be in the grammar."""

    def __init__(self, scenario, line):
        self.sc = scenario
        self.w = line.split(b' ')
        if b'' in self.w:
            raise _BadLine()
        self.checks = []

    def words(self, *counts):
        if len(self.w) not in counts:
            raise _BadLine()

    def actor(self, b, role=None):
        """Answers a cell whose [0] is the actor's number once finish() has passed."""
        a = parse_actor(b)
        if a is None:
            raise _BadLine()
        cell = [self.sc.actor_of(*a)]
        ok = cell[0] is not None and (role is None or role(cell[0]))
        self.checks.append(ok)
        if cell[0] is None:
            cell[0] = -1
        return cell[0]

    def ref(self, b, kinds=None):
        p = b.split(b'.')
        if len(p) != 3:
            raise _BadLine()
        kind = KIND_OF.get(p[1].decode('latin-1'))
        if kind is None or not kind_known(kind) or (kinds is not None and kind not in kinds):
            raise _BadLine()
        x = number(p[2], U64MAX, 1)
        return (self.actor(p[0]), kind, x)

    def finish(self):
        if not all(self.checks):
            raise _NoActor()


def read_script(data, scenario):
    """A list of (line number, what, ...)."""
    out = []
    for x, line in enumerate(split_lines(data), 1):
        if x > 10000:
            raise LineRefusal('BadLine', x)
        if not line or line.startswith(b'#'):
            continue
        try:
            out.append((x,) + script_line(scenario, line))
        except _BadLine:
            raise LineRefusal('BadLine', x)
        except _NoActor:
            raise LineRefusal('NoActor', x)
    return out


def script_line(sc, line):
    p = _LineParser(sc, line)
    w = p.w
    what = w[0]

    def repeat(at):
        return number(w[at], 1000, 1) if len(w) > at else 1

    if what == b'tick':
        p.words(2, 3)
        if w[1] == b'masters':
            who = list(range(sc.sizes.n))
        elif w[1] == b'all':
            who = list(range(sc.actors))
        else:
            who = [p.actor(w[1])]
        out = ('tick', who, repeat(2))
    elif what == b'flow':
        p.words(1, 2)
        out = ('flow', repeat(1))
    elif what in (b'lose', b'heal'):
        p.words(2)
        out = (what.decode(), p.actor(w[1]))
    elif what == b'drop':
        p.words(1)
        out = ('drop',)
    elif what == b'take':
        p.words(3)
        out = ('take', p.actor(w[1]), p.ref(w[2]))
    elif what == b'command':
        p.words(4, 5)
        who = p.actor(w[1], sc.is_screen)
        if w[2] == b'set':
            p.words(5)
            op = ('set', number(w[3], U32MAX), value_number(w[4]))
        elif w[2] == b'ack':
            p.words(4)
            op = ('ack', number(w[3], U32MAX))
        else:
            raise _BadLine()
        out = ('command', who, op)
    elif what == b'field':
        p.words(5)
        who = p.actor(w[1], sc.is_proxy)
        area = w[2].decode('latin-1')
        if area not in AREAS:
            raise _BadLine()
        area = AREAS.index(area)
        place, value = number(w[3], 65535), number(w[4], 65535)
        if who >= 0 and sc.is_proxy(who):
            if STAGE < 10 or place >= sc.plant.devices[who - sc.sizes.n][area]:
                raise _BadLine()
        out = ('field', who, area, place, value)
    elif what == b'poll':
        p.words(2)
        who = p.actor(w[1], sc.is_proxy)
        if STAGE < 10 and who >= 0 and sc.is_proxy(who):
            raise _BadLine()
        out = ('poll', who)
    elif what == b'cry':
        p.words(2, 3)
        out = ('cry', p.actor(w[1], lambda a: a in sc.intruded), repeat(2))
    elif what == b'restart' and STAGE >= 15:
        p.words(2)
        out = ('restart', p.actor(w[1], sc.correct))
    else:
        raise _BadLine()
    p.finish()
    return out


def read_words(data, scenario):
    """A list of (speaker, addressees rising, word)."""
    out = []
    for x, line in enumerate(split_lines(data), 1):
        if x > 1000:
            raise LineRefusal('BadLine', x)
        if not line or line.startswith(b'#'):
            continue
        try:
            out.append(words_line(scenario, line))
        except _BadLine:
            raise LineRefusal('BadLine', x)
        except _NoActor:
            raise LineRefusal('NoActor', x)
    return out


def read_hex(b):
    if b == b'-':
        return b''
    if len(b) % 2 or not b or b.translate(None, b'0123456789abcdefABCDEF'):
        return None
    return bytes.fromhex(b.decode())


def words_line(sc, line):
    p = _LineParser(sc, line)
    w = p.w
    if len(w) < 3:
        raise _BadLine()
    who = p.actor(w[0], lambda a: a in sc.intruded)
    to = sorted({p.actor(b) for b in w[1].split(b',')})
    word = read_word(p, w[2], w[3:])
    p.finish()
    return who, to, word


def read_word(p, name, a):
    if name == b'raw':
        if len(a) != 1:
            raise _BadLine()
        data = read_hex(a[0])
        if data is None:
            raise _BadLine()
        return ('raw', data)
    kind = KIND_OF.get(name.decode('latin-1'))
    if kind is None or not kind_known(kind) or kind == UPDATE:
        raise _BadLine()

    def count(x):
        if len(a) != x:
            raise _BadLine()

    def digest(b):
        if b[:1] != b'@':
            raise _BadLine()
        return p.ref(b[1:], (POREQUEST, PREPREPARE))

    def refs(bs, k, most):
        if len(bs) > most:
            raise _BadLine()
        out = [p.ref(b, (k,)) for b in bs]
        actors = [parse_order(p.sc, b.split(b'.')[0]) for b in bs]
        if any(x >= y for x, y in zip(actors, actors[1:])):
            raise _BadLine()
        return tuple(out)

    def n64(x):
        return number(a[x], U64MAX)

    def n32(x):
        return number(a[x], U32MAX)

    if kind == POREQUEST:
        count(2)
        return (kind, n64(0), p.ref(a[1], (UPDATE,)))
    if kind == POACK:
        count(3)
        return (kind, n32(0), n64(1), digest(a[2]))
    if kind == POSUMMARY:
        if len(a) > 14:
            raise _BadLine()
        return (kind, tuple(n64(x) for x in range(len(a))))
    if kind == PREPREPARE:
        if len(a) < 2:
            raise _BadLine()
        return (kind, n64(0), n64(1), refs(a[2:], POSUMMARY, 14))
    if kind in (PREPARE, COMMIT):
        count(3)
        return (kind, n64(0), n64(1), digest(a[2]))
    if kind in (PING, SUSPECT, ASKORDER, GIVEORDERED, MARK):
        count(1)
        return (kind, n64(0))
    if kind in (PONG, ASKUPDATE, GIVE):
        count(2)
        return (kind, n32(0), n64(1))
    if kind == RTT:
        count(3)
        return (kind, n32(0), n64(1), n64(2))
    if kind in (TATREPORT, TATBOUND):
        count(2)
        return (kind, n64(0), n64(1))
    if kind == REPORT:
        if len(a) < 1:
            raise _BadLine()
        v = n64(0)
        at = 1
        base = None
        if STAGE >= 13 and len(a) > 1 and a[1] == b'base':
            if len(a) < 3:
                raise _BadLine()
            base = n64(2)
            at = 3
        items = []
        for b in a[at:]:
            q = b.split(b':')
            if len(q) != 2:
                raise _BadLine()
            items.append((number(q[0], U64MAX), number(q[1], U64MAX)))
        if len(items) > cert_limit() or any(x[0] >= y[0] for x, y in zip(items, items[1:])):
            raise _BadLine()
        return (kind, v, base, tuple(items))
    if kind == NEWVIEW:
        if len(a) < 1:
            raise _BadLine()
        return (kind, n64(0), refs(a[1:], REPORT, 14))
    if kind == VOUCHER:
        if len(a) < 3:
            raise _BadLine()
        if a[2] == b'write':
            count(5)
            order = ('write', n32(3), number(a[4], 65535))
        elif a[2] == b'notice':
            count(6)
            order = ('notice', number(a[3], 9, 1), n64(4), n32(5))
        else:
            raise _BadLine()
        return (kind, n32(0), n64(1), order)
    raise AssertionError(kind)


def parse_order(sc, b):
    """Where an actor's name stands in the order of actor numbers, also where nobody is there."""
    k, x = parse_actor(b)
    return {'m': 0, 'p': 1, 's': 2}[k], x


class World:
    """The history as it is played."""

    def __init__(self, scenario, words):
        self.sc = scenario
        self.benches = [Bench(scenario, a) for a in range(scenario.actors)]
        self.entries = []
        self.queue = []            # (addressee, sender, stamp, place, frame)
        self.posted = {}           # (actor, kind) -> [(stamp, place, frame)]
        self.lost = set()
        self.words = {a: [w for w in words if w[0] == a] for a in range(scenario.actors)}
        self.word_at = [0] * scenario.actors
        self.line = 0

    def act(self, actor, event):
        if len(self.entries) >= 50000:
            raise LineRefusal('TooMany', self.line)
        bench = self.benches[actor]
        e = bench.act(len(self.entries), event)
        self.entries.append(e)
        if bench.halted:
            return e
        if event[0] == 'restart':
            old, frames = bench.last_frames()
            for place, f in enumerate(frames):
                self.deliver(actor, old.stamp, place, f, addressees(self.sc, actor, f.body))
        for place, f in enumerate(e.said):
            self.post(actor, e.stamp, place, f, addressees(self.sc, actor, f.body))
        return e

    def post(self, actor, stamp, place, frame, to):
        self.posted.setdefault((actor, frame.body.kind), []).append((stamp, place, frame))
        self.deliver(actor, stamp, place, frame, to)

    def deliver(self, actor, stamp, place, frame, to):
        for a in to:
            self.queue.append((a, actor, stamp, place, frame))

    def stands(self, frame):
        return check(self.sc.ring(), frame) is None

    def alive(self, a):
        return not self.benches[a].halted

    def play(self, script):
        for item in script:
            self.line = item[0]
            getattr(self, 'do_' + item[1])(*item[2:])
        return self.entries

    def do_tick(self, who, x):
        for _ in range(x):
            for a in who:
                if self.alive(a):
                    self.act(a, ('tick',))

    def do_flow(self, x):
        for _ in range(x):
            if not self.queue:
                break
            queue, self.queue = self.queue, []
            for to, sender, stamp, place, frame in queue:
                if to in self.lost or sender in self.lost or not self.alive(to) or not self.stands(frame):
                    continue
                self.act(to, ('took', stamp, place, frame))

    def do_lose(self, a):
        self.lost.add(a)

    def do_heal(self, a):
        self.lost.discard(a)

    def do_drop(self):
        self.queue = []

    def do_take(self, a, ref):
        if not self.alive(a):
            return
        posted = self.posted.get(ref[:2], ())
        if ref[2] > len(posted):
            raise LineRefusal('NoFrame', self.line)
        stamp, place, frame = posted[ref[2] - 1]
        if self.stands(frame):
            self.act(a, ('took', stamp, place, frame))

    def do_command(self, a, op):
        if self.alive(a):
            self.act(a, ('command', op))

    def do_field(self, a, area, place, value):
        if self.alive(a):
            self.act(a, ('field', area, place, value))

    def do_poll(self, a):
        if self.alive(a):
            self.act(a, ('poll',))

    def do_restart(self, a):
        if self.alive(a):
            self.act(a, ('restart',))

    def do_cry(self, a, x):
        for _ in range(x):
            words = self.words[a]
            if self.word_at[a] >= len(words):
                raise LineRefusal('NoFrame', self.line)
            _, to, word = words[self.word_at[a]]
            if len(self.entries) >= 50000:
                raise LineRefusal('TooMany', self.line)
            got = self.benches[a].speak(word)
            if got is None:
                raise LineRefusal('NoFrame', self.line)
            self.word_at[a] += 1
            data, frame = got
            e = self.act(a, ('cry', data, frame))
            if e.cried is not None:
                self.post(a, e.stamp, 0, e.cried, to)


def play(scenario, script, words):
    w = World(scenario, words)
    w.play(script)
    return w


# ---------------------------------------------------------------------------
# replay
# ---------------------------------------------------------------------------

def history_lines(data):
    """(lines, whether the last one has its line feed)"""
    parts = data.split(b'\n')
    whole = parts[-1] == b''
    return (parts[:-1] if whole else parts), whole


def read_history(scenario, data, watch=None):
    """(benches, entries) of a legal history; raises LineRefusal BadLine or NotLegal. `watch` is told each entry with its
    bench, and how far the actor had come before it."""
    lines, whole = history_lines(data)

    def good(x):
        """Line x (from 0) is there and ended by its line feed."""
        return x < len(lines) - (0 if whole else 1)

    if not good(0) or lines[0] != b'spire 1':
        raise LineRefusal('BadLine', 1)
    at = 1
    while True:
        if at >= len(lines):
            raise LineRefusal('BadLine', at + 1)
        if lines[at].startswith(b'history '):
            break
        at += 1
    count = decimal(lines[at][8:], 0, U32MAX)
    if count is None or not good(at):
        raise LineRefusal('BadLine', at + 1)
    items = []
    for x in range(count):
        if not good(at + 1 + x):
            raise LineRefusal('BadLine', at + 2 + x)
        try:
            items.append(entry_line(lines[at + 1 + x]))
        except _BadLine:
            raise LineRefusal('BadLine', at + 2 + x)
    if len(lines) > at + 1 + count:
        raise LineRefusal('BadLine', at + 2 + count)
    benches = [Bench(scenario, a) for a in range(scenario.actors)]
    entries = []
    for x, item in enumerate(items):
        try:
            entries.append(legal_entry(scenario, benches, entries, x, item, watch))
        except _NoActor:
            raise LineRefusal('NotLegal', x)
    return benches, entries


def entry_line(line):
    """(stamp, actor name, event, kinds) of a line in the form of an entry."""
    w = line.split(b' ')
    if b'' in w or len(w) < 3:
        raise _BadLine()
    stamp = number(w[0], U64MAX)
    actor = parse_actor(w[1])
    if actor is None:
        raise _BadLine()
    kinds = []
    if b'says' in w:
        at = w.index(b'says')
        for b in w[at + 1:]:
            k = KIND_OF.get(b.decode('latin-1'))
            if k is None or not kind_known(k):
                raise _BadLine()
            kinds.append(k)
        if not kinds:
            raise _BadLine()
        w = w[:at]
    w = w[2:]
    if not w:
        raise _BadLine()
    what = w[0]
    if what == b'took':
        if len(w) == 3 and w[1] == b'frame':
            data = read_hex(w[2])
            if data is None:
                raise _BadLine()
            event = ('took hex', data)
        elif len(w) == 2:
            p = w[1].split(b'.')
            if len(p) != 2:
                raise _BadLine()
            event = ('took', number(p[0], U64MAX), number(p[1], U32MAX))
        else:
            raise _BadLine()
    elif what == b'command':
        if len(w) == 4 and w[1] in (b'set', b'reading'):
            event = ('command', (w[1].decode(), number(w[2], U32MAX), value_number(w[3])))
        elif len(w) == 3 and w[1] == b'ack':
            event = ('command', ('ack', number(w[2], U32MAX)))
        else:
            raise _BadLine()
    elif what == b'field':
        if len(w) != 4 or w[1].decode('latin-1') not in AREAS:
            raise _BadLine()
        event = ('field', AREAS.index(w[1].decode()), number(w[2], 65535), number(w[3], 65535))
    elif what == b'cry':
        if len(w) != 2:
            raise _BadLine()
        data = read_hex(w[1])
        if data is None:
            raise _BadLine()
        event = ('cry', data)
    elif len(w) == 1 and (what in (b'tick', b'poll', b'skip') or (what == b'restart' and STAGE >= 15)):
        event = (what.decode(),)
    else:
        raise _BadLine()
    return stamp, actor, event, kinds


def legal_entry(sc, benches, entries, x, item, watch=None):
    stamp, name, event, kinds = item
    who = sc.actor_of(*name)
    if stamp != x or who is None:
        raise _NoActor()
    bench = benches[who]
    if bench.halted:
        raise _NoActor()
    if event[0] == 'took':
        _, s, p = event
        frame = entries[s].frame(p) if s < x else None
        if frame is None:
            raise _NoActor()
        event = ('took', s, p, frame)
    elif event[0] == 'took hex':
        frame = try_read_frame(event[1])
        if frame is None or x == 0:
            raise _NoActor()
        event = ('took', x - 1, U32MAX, frame)
    if event[0] == 'took' and check(sc.ring(), event[3]) is not None:
        raise _NoActor()
    if not bench.fits(event):
        raise _NoActor()
    came = (len(bench.executions()), len(bench.board()), bench.view())
    e = bench.act(x, event)
    if [f.body.kind for f in e.said] != kinds:
        raise _NoActor()
    if watch is not None:
        watch(bench, e, *came)
    return e


# The spelling of a kept entry -----------------------------------------

def spell_entry(e):
    k = e.event
    out = u64(e.stamp)
    if k[0] == 'took':
        b = k[3].bytes
        return out + b'\x01' + u64(k[1]) + u32(k[2]) + u32(len(b)) + b
    if k[0] == 'tick':
        return out + b'\x02'
    if k[0] == 'command':
        return out + b'\x03' + op_bytes(k[1])
    if k[0] == 'field':
        return out + b'\x04' + u8(k[1] + 1) + u16(k[2]) + u16(k[3])
    if k[0] == 'poll':
        return out + b'\x05'
    if k[0] == 'cry':
        return out + b'\x06' + u32(len(k[1])) + k[1]
    return out + {'skip': b'\x07', 'restart': b'\x08'}[k[0]]


def read_entry(ring, data):
    """(stamp, event), None where the bytes are no spelling or the frame doesn't stand."""
    r = _Reader(data)
    try:
        stamp, kind = r.u64(), r.u8()
        if kind == 1:
            s, place = r.u64(), r.u32()
            frame = read_frame(r.take(r.u32()))
            if check(ring, frame) is not None:
                return None
            event = ('took', s, place, frame)
        elif kind == 3:
            event = ('command', r.op())
        elif kind == 4:
            area = r.u8()
            if not 1 <= area <= 4:
                return None
            event = ('field', area - 1, r.u16(), r.u16())
        elif kind == 6:
            event = ('cry', r.take(r.u32()))
        elif kind in (2, 5, 7, 8):
            event = ({2: 'tick', 5: 'poll', 7: 'skip', 8: 'restart'}[kind],)
        else:
            return None
    except FormRefusal:
        return None
    return (stamp, event) if r.at == r.end else None


# ---------------------------------------------------------------------------
# make
# ---------------------------------------------------------------------------

S1_TEXT = 'f = 1\nseed = "' + '0' * 64 + '"\nscreens = 1\n'
S2_TEXT = S1_TEXT + '''[[proxy]]
coils = 2
discrete = 0
holding = 1
input = 1
[[proxy]]
coils = 2
discrete = 0
holding = 0
input = 0
[[point]]
name = "feeder_amps"
proxy = 0
area = "input"
place = 0
scale = 10
low = 0
high = 20000
[[point]]
name = "breaker"
proxy = 0
area = "coil"
place = 0
low = 0
high = 1
[[point]]
name = "pump"
proxy = 1
area = "coil"
place = 9
low = 0
high = 1
[[alarm]]
name = "overload"
point = "feeder_amps"
kind = "high"
limit = 9000
band = 500
[[interlock]]
name = "no_close"
point = "breaker"
value = 1
deny = "alarm overload"
'''


def make_script(num):
    x = num
    lines = []
    for _ in range(30):
        x = (1664525 * x + 1013904223) % 2 ** 32
        lines.append(f'field p0 input 0 {x % 2001}')
        lines.append('poll p0')
        x = (1664525 * x + 1013904223) % 2 ** 32
        lines.append(f'command s0 set 1 {x % 2}')
        lines += ['flow 4', 'tick masters', 'flow 1', 'tick m0', 'flow 5']
    return ''.join(y + '\n' for y in lines)


def make_scenario(num):
    return S2_TEXT.replace('0' * 64, '00' * 28 + u32(num).hex())


SUMMARY = ('spire', 'master', 'proxy', 'screen', 'audit', 'agree', 'history')


def make(num):
    sc = Scenario.read(make_scenario(num).encode())
    w = play(sc, read_script(make_script(num).encode(), sc), [])
    text = write_run(sc, w.benches, w.entries)
    return ''.join(x + '\n' for x in text.split('\n') if x.startswith(SUMMARY))


# ---------------------------------------------------------------------------
# Parts over GF(256)
# ---------------------------------------------------------------------------

def gf_mul(a, b):
    r = 0
    while b:
        if b & 1:
            r ^= a
        a <<= 1
        if a & 0x100:
            a ^= 0x11d
        b >>= 1
    return r


def gf_pow(a, e):
    r = 1
    for _ in range(e):
        r = gf_mul(r, a)
    return r


def gf_inv(a):
    return gf_pow(a, 254)


def part_of(f, master, text):
    """(master, length, bytes)"""
    w = -(-len(text) // (f + 1))
    padded = text + bytes(w * (f + 1) - len(text))
    out = bytearray(w)
    for c in range(f + 1):
        k = gf_pow(master, c)
        for b in range(w):
            out[b] ^= gf_mul(k, padded[c * w + b])
    return (master, len(text), bytes(out))


def join_parts(f, parts):
    """Solves for the pieces from f + 1 parts."""
    m = f + 1
    w = len(parts[0][2])
    rows = [[gf_pow(p[0], c) for c in range(m)] + [x] for x, p in enumerate(parts)]
    mat = [r[:m] for r in rows]
    val = [bytearray(p[2]) for p in parts]
    for c in range(m):
        piv = next(r for r in range(c, m) if mat[r][c])
        mat[c], mat[piv] = mat[piv], mat[c]
        val[c], val[piv] = val[piv], val[c]
        inv = gf_inv(mat[c][c])
        mat[c] = [gf_mul(inv, x) for x in mat[c]]
        val[c] = bytearray(gf_mul(inv, x) for x in val[c])
        for r in range(m):
            if r != c and mat[r][c]:
                k = mat[r][c]
                mat[r] = [x ^ gf_mul(k, y) for x, y in zip(mat[r], mat[c])]
                val[r] = bytearray(x ^ gf_mul(k, y) for x, y in zip(val[r], val[c]))
    return b''.join(bytes(v) for v in val)[:parts[0][1]]


def rebuild(f, digest, parts):
    """(text, wrong masters) or None (NoText)."""
    for group in itertools.combinations(parts, f + 1):
        if len({p[1] for p in group}) != 1:
            continue
        text = join_parts(f, group)
        if H(text) == digest:
            return text, [p[0] for p in parts if part_of(f, p[0], text) != p]
    return None


def read_parts(sizes, data):
    lines, whole = history_lines(data)

    def good(x):
        return x < len(lines) - (0 if whole else 1)
    first = lines[0].split(b' ') if good(0) else []
    digest = read_hex(first[1]) if len(first) == 2 and first[0] == b'digest' else None
    if digest is None or len(digest) != 32:
        raise LineRefusal('BadLine', 1)
    parts = []
    for x, line in enumerate(lines[1:], 2):
        w = line.split(b' ')
        a = parse_actor(w[0])
        if not good(x - 1) or len(w) != 3 or a is None or a[0] != 'm' or a[1] >= sizes.n:
            raise LineRefusal('BadLine', x)
        if parts and parts[-1][0] >= a[1]:
            raise LineRefusal('BadLine', x)
        size = decimal(w[1], 1, 65536)
        data = read_hex(w[2])
        if size is None or data is None or len(data) != -(-size // (sizes.f + 1)):
            raise LineRefusal('BadLine', x)
        parts.append((a[1], size, data))
    return digest, parts


# ---------------------------------------------------------------------------
# Blame; trends
# ---------------------------------------------------------------------------

class Blame:
    def __init__(self, sizes):
        self.seen = {}       # (signer, kind, key) -> first-seen frames of different bodies
        self.texts = set()
        self.pairs = {}      # master -> (first, second)

    def take(self, frame):
        for part in frame.parts:
            b = part.body
            if b.kind == POACK or b.kind in (PREPREPARE, PREPARE, COMMIT):
                key = (part.signer, b.kind, b.a[:2])
                first = self.seen.setdefault(key, part)
                if first.body.text != b.text:
                    self.pairs.setdefault(part.signer, (first, part))

    def named(self):
        return [(m,) + self.pairs[m] for m in sorted(self.pairs)]


class Trend:
    def __init__(self, plant):
        self.plant = plant
        self.values = [p.start for p in plant.points]
        self.items = [[] for _ in plant.points]
        self.count = 0

    def apply(self, update):
        self.count += 1
        client, _, op = update.a
        if op[0] != 'reading' or op[1] >= len(self.plant.points):
            return
        p = self.plant.points[op[1]]
        if p.proxy == client and p.low <= op[2] <= p.high and self.values[op[1]] != op[2]:
            self.values[op[1]] = op[2]
            self.items[op[1]].append((self.count, op[2]))

    def changes(self, point, first, last):
        if point >= len(self.plant.points):
            raise Refusal('NoPoint')
        if first == 0 or first > last:
            raise Refusal('BadRange')
        if last > self.count:
            raise Refusal('NotReached', self.count)
        return (point, first, last, tuple(x for x in self.items[point] if first <= x[0] <= last))


class TrendBoard:
    def __init__(self, sizes):
        self.f = sizes.f
        self.votes = {}
        self.first = None

    def take(self, signer, changes):
        v = self.votes.setdefault(changes, set())
        v.add(signer)
        if len(v) == self.f + 1 and self.first is None:
            self.first = changes

    def shown(self):
        return self.first


# ---------------------------------------------------------------------------
# The program
# ---------------------------------------------------------------------------

# ---------------------------------------------------------------------------
# Delays
# ---------------------------------------------------------------------------

class Watched:
    """What happened in a history, entry by entry, and the text of its delays. Times are (stamp, the actor's ticks)."""

    def __init__(self, scenario):
        self.scenario = scenario
        self.masters = [i for i in range(scenario.sizes.n) if i not in scenario.intruded]
        self.ticks = [0] * scenario.actors
        self.said = []         # (client, t, stamp, ticks of all actors then)
        self.ended = {}        # (actor, client, t): times at which it was executed or answered
        self.executions = []   # the stamps of all executions
        self.views = [(0, 0)]  # each view with the stamp at which it began
        self.votes = set()     # (view, master)

    def entry(self, bench, e, executed, shown, view):
        me, n, stamp = bench.actor, self.scenario.sizes.n, e.stamp
        if e.event[0] == 'tick':
            self.ticks[me] += 1
        if bench.view() > max(view, self.views[-1][0]):
            self.views.append((bench.view(), stamp))
        for f in e.said:
            if f.body.kind == UPDATE:
                self.said.append((f.body.a[0], f.body.a[1], stamp, list(self.ticks)))
            elif f.body.kind == SUSPECT:
                self.votes.add((f.body.a[0], me))
        for u in bench.executions()[executed:]:
            self.executions.append(stamp)
            self.ended.setdefault((me, u.a[0], u.a[1]), []).append((stamp, self.ticks[me]))
        for _, _, t, _ in bench.board()[shown:]:
            self.ended.setdefault((me, me - n, t), []).append((stamp, self.ticks[me]))

    def outcomes(self):
        """(client, t, stamp, actor, tick, None or (stamp, entries, ticks)) of each update at each actor."""
        n = self.scenario.sizes.n
        for client, t, stamp, ticks in self.said:
            own = [] if self.scenario.is_proxy(n + client) else [n + client]
            for a in self.masters + own:
                after = [x for x in self.ended.get((a, client, t), []) if x[0] >= stamp]
                delay = (after[0][0], after[0][0] - stamp, after[0][1] - ticks[a]) if after else None
                yield client, t, stamp, a, ticks[a], delay

    def text(self, count):
        sc, n = self.scenario, self.scenario.sizes.n
        out = [f'views {len(self.views)}']
        for x, (view, begun) in enumerate(self.views):
            to = self.views[x + 1][1] if x + 1 < len(self.views) else None
            end = count if to is None else to
            marks = [begun] + [s for s in self.executions if begun <= s < end] + [end]
            idle = max(b - a for a, b in zip(marks, marks[1:]))
            votes = len([m for m in self.masters if (view, m) in self.votes])
            out.append(f'view {view} leader m{view % n} from {begun}' + ('' if to is None else f' to {to}')
                       + f' votes {votes} idle {idle}')
        outcomes = list(self.outcomes())
        pairs = sorted({(w[0], w[3]) for w in outcomes})
        out.append(f'spreads {len(pairs)}')
        for client, a in pairs:
            mine = [w for w in outcomes if (w[0], w[3]) == (client, a)]
            ended = [w[5] for w in mine if w[5] is not None]
            line = f'{sc.name(n + client)} at {sc.name(a)} said {len(mine)} ended {len(ended)}'
            for word, at in (('entries', 1), ('ticks', 2)):
                line += f' {word} ' + ' '.join(str(x) for x in figures([d[at] for d in ended]))
            out.append(line)
        lacks = []
        for client, t, stamp, _ in self.said:
            executed = len([m for m in self.masters if any(x[0] >= stamp for x in self.ended.get((m, client, t), []))])
            if executed < len(self.masters):
                lacks.append(f'{sc.name(n + client)} {t} said {stamp} executed {executed}')
        out += [f'unexecuted {len(lacks)}'] + lacks + [f'outcomes {len(outcomes)}']
        for client, t, stamp, a, tick, delay in outcomes:
            end = 'never' if delay is None else 'ended {} entries {} ticks {}'.format(*delay)
            out.append(f'{sc.name(n + client)} {t} said {stamp} at {sc.name(a)} tick {tick} {end}')
        return ''.join(x + '\n' for x in out)


def figures(numbers):
    """The greatest numbers that more than half, a tenth and a hundredth of them reach, and the greatest of all."""
    falling = sorted(numbers, reverse=True)
    return [falling[len(falling) // part] if falling else 0 for part in (2, 10, 100)] + [falling[0] if falling else 0]


class End(Exception):
    def __init__(self, status, line):
        super().__init__(status, line)
        self.status, self.line = status, line


ROOM = 16 * 1024 * 1024


class RealFiles:
    def load(self, name):
        try:
            with open(name, 'rb') as f:
                data = f.read(ROOM + 1)
        except (OSError, ValueError):
            raise End(3, f'spire: file {name} fault')
        if len(data) > ROOM:
            raise End(3, f'spire: file {name} too long')
        return data


class MemoryFiles:
    def __init__(self, files):
        self.files = files

    def load(self, name):
        if name not in self.files:
            raise End(3, f'spire: file {name} fault')
        data = self.files[name]
        data = data.encode() if isinstance(data, str) else data
        if len(data) > ROOM:
            raise End(3, f'spire: file {name} too long')
        return data


def usage():
    return End(2, 'spire: usage')


COMMANDS = {'play': (3, 5), 'run': (3, 12), 'replay': (2, 11), 'make': (1, 11), 'keys': (1, 5), 'verify': (3, 3),
            'parts': (4, 18), 'rebuild': (2, 18), 'blame': (2, 19), 'trend': (5, 20), 'delays': (2, 20)}


def clap_u32(s):
    t = s[1:] if s.startswith('+') else s
    if not t or not t.isascii() or not t.isdigit() or int(t) > U32MAX:
        raise usage()
    return int(t)


def load_scenario(files, name):
    data = files.load(name)
    try:
        return Scenario.read(data)
    except ScenarioRefusal as e:
        raise End(4, f'spire: scenario {e}')


def load_history(files, sc, name, watch=None):
    data = files.load(name)
    try:
        return read_history(sc, data, watch)
    except LineRefusal as e:
        raise End(5, f'spire: history {e}')


def play_text(sc, script, words):
    try:
        w = play(sc, script, words)
    except LineRefusal as e:
        raise End(5, f'spire: script {e}')
    return write_run(sc, w.benches, w.entries)


def early_script(data, sc):
    """The first scripts: NotBuilt exactly at the first line that isn't built."""
    out = []
    if STAGE == 1:
        parts = data.split(b'\n')
        lines = [(p, True) for p in parts[:-1]]
        if parts[-1]:
            lines.append((parts[-1], False))
    else:
        lines = [(p, True) for p in split_lines(data)]
    for x, (line, ended) in enumerate(lines, 1):
        if x > 100 or not ended:
            raise End(5, f'spire: script NotBuilt {x}')
        if STAGE > 1 and (not line or line.startswith(b'#')):
            continue
        try:
            item = script_line(sc, line)
        except (_BadLine, _NoActor):
            item = ('none',)
        ok = item[0] in ('command', 'flow', 'tick')
        if item[0] == 'command' and item[2][0] != 'ack':
            ok = False
        if STAGE == 1 and (item[0] == 'tick' or line == b'flow'):
            ok = False
        if not ok:
            raise End(5, f'spire: script NotBuilt {x}')
        out.append((x,) + item)
    return out


def keys_text(sc):
    return ''.join(f'{sc.name(a)} {sc.key(a).public().hex()}\n' for a in range(sc.actors))


def command(args, files):
    """The text to put, or End."""
    if not args or args[0] not in COMMANDS:
        raise usage()
    name = args[0]
    count, since = COMMANDS[name]
    rest = args[1:]
    if STAGE < 5 and name == 'play':
        if len(rest) != 1:
            raise usage()
        sc = Scenario.s1()
        return play_text(sc, early_script(files.load(rest[0]), sc), [])
    if 3 <= STAGE < 5 and name == 'keys':
        if rest:
            raise usage()
        return keys_text(Scenario.s1())
    if STAGE < since or len(rest) != count or name == 'run':
        raise usage()
    if STAGE >= 5 and any(x.startswith('-') and len(x) > 1 for x in rest):
        raise usage()
    if name == 'verify':
        public = read_hex(rest[0].encode('utf-8', 'surrogateescape'))
        if public is None or len(public) != 60:
            raise usage()
        message = files.load(rest[1])
        sig = files.load(rest[2])
        if not verify(public, message, sig):
            raise End(8, 'spire: not verified')
        return 'verified\n'
    if name == 'make':
        return make(clap_u32(rest[0]))
    nums = []
    if name == 'parts':
        nums = [clap_u32(x) for x in rest[2:]]
    if name == 'trend':
        nums = [clap_u32(x) for x in rest[2:]]
    sc = load_scenario(files, rest[0])
    if name == 'play':
        data = files.load(rest[1])
        try:
            script = read_script(data, sc)
        except LineRefusal as e:
            raise End(5, f'spire: script {e}')
        data = files.load(rest[2])
        try:
            words = read_words(data, sc)
        except LineRefusal as e:
            raise End(5, f'spire: words {e}')
        return play_text(sc, script, words)
    if name == 'keys':
        return keys_text(sc)
    if name == 'rebuild':
        data = files.load(rest[1])
        try:
            digest, parts = read_parts(sc.sizes, data)
        except LineRefusal as e:
            raise End(5, f'spire: parts {e}')
        got = rebuild(sc.sizes.f, digest, parts)
        if got is None:
            raise End(9, 'spire: rebuild NoText')
        return f'text {got[0].hex()}\n' + ''.join(f'wrong m{i}\n' for i in got[1])
    watched = Watched(sc)
    benches, entries = load_history(files, sc, rest[1], watched.entry)
    if name == 'delays':
        return watched.text(len(entries))
    if name == 'replay':
        return write_run(sc, benches, entries)
    masters = [b for b in benches[:sc.sizes.n] if not b.is_intruded]
    if name == 'parts':
        return parts_text(sc, masters, *nums)
    if name == 'blame':
        return blame_text(sc, entries)
    return trend_text(sc, masters, *nums)


def parts_text(sc, masters, j, k):
    u = next((b.certified(j, k) for b in masters if b.certified(j, k) is not None), None)
    if u is None:
        raise End(9, 'spire: parts NotCertified')
    out = [f'digest {u.digest().hex()}']
    for b in masters:
        c = b.certified(j, k)
        if c is not None and c.digest() == u.digest():
            m, size, data = part_of(sc.sizes.f, b.actor, c.text)
            out.append(f'm{m} {size} {data.hex()}')
    return ''.join(x + '\n' for x in out)


def blame_text(sc, entries):
    b = Blame(sc.sizes)
    for e in entries:
        if e.event[0] == 'took':
            b.take(e.event[3])
    named = b.named()
    out = [f'blame {len(named)}']
    for m, x, y in named:
        out.append(f'm{m} {KINDS[x.body.kind]} {x.bytes.hex()} {y.bytes.hex()}')
    return ''.join(x + '\n' for x in out)


def trend_text(sc, masters, point, first, last):
    if point >= len(sc.plant.points):
        raise End(9, 'spire: trend NoPoint')
    if first == 0 or first > last:
        raise End(9, 'spire: trend BadRange')
    f = sc.sizes.f
    counts = sorted((len(b.executions()) for b in masters), reverse=True)
    if len([c for c in counts if c >= last]) < f + 1:
        e = counts[f] if len(counts) > f else 0
        raise End(9, f'spire: trend NotReached {e}')
    board = TrendBoard(sc.sizes)
    for b in masters:
        if len(b.executions()) >= last:
            t = Trend(sc.plant)
            for u in b.executions():
                t.apply(u)
            board.take(b.actor, t.changes(point, first, last))
    got = board.shown()
    if got is None:
        raise End(9, 'spire: trend NoMatch')
    out = [f'trend {point} {first} {last} changes {len(got[3])}'] + [f'{x} {v}' for x, v in got[3]]
    return ''.join(x + '\n' for x in out)


def spire(args, files, stage=None):
    """(status, out, err) of the program's words."""
    if stage is not None:
        set_stage(stage)
    try:
        return 0, command(args, files), ''
    except End as e:
        return e.status, '', e.line + '\n'


def spire_full(args, files, stage=None, failing_out=(), failing_err=()):
    """As `spire` over a MemorySink with failing puts: (status, bytes put to out, bytes put to err)."""
    status, out, err = spire(args, files, stage)
    data = out.encode()
    put = b''
    if status == 0:
        for x, at in enumerate(range(0, len(data), 512), 1):
            if x in failing_out:
                status, err = 6, 'spire: output fault\n'
                break
            put += data[at:at + 512]
    return status, put, b'' if 1 in failing_err else err.encode()


def main(argv):
    stage = 20
    if argv[:1] == ['--stage']:
        stage = int(argv[1])
        argv = argv[2:]
    status, out, err = spire(argv, RealFiles(), stage)
    try:
        sys.stdout.write(out)
        sys.stdout.flush()
    except OSError:
        status, err = 6, 'spire: output fault\n'
    sys.stderr.write(err)
    return status


if __name__ == '__main__':
    sys.exit(main(sys.argv[1:]))
