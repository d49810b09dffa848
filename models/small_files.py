# Makes the expected output of `small_files` from the text of 01 and of 02's R-2, R-3, R-6, R-10 and R-12 alone: the same
# files by the same generator, and a model of the refusals, of the meaning and of the search on Python's sets of values.
#
# Every call of the planner that the program makes is made here too, in the same order, and the number, the place,
# the splits, the dead ends and the rounds of each go into the checksum one by one. So the calls are compared one for
# one, and not by their totals alone, in which two errors could cancel.
import sys
from functools import cache
from itertools import count, product
from math import prod

P = 2147483647
SIZES = [5329, 4641, 3136, 4380, 8000, 5456, 3822, 1680, 6400, 4608, 2016, 1536,
         6000, 3000, 3000, 1000, 3000, 3000, 1000, 3000, 3000]
SYSTEMATIC = 12
if len(sys.argv) > 1: SIZES = [int(x) for x in sys.argv[1].split(',')]
STATS = len(sys.argv) > 2

class Source:
    def __init__(self, seed): self.state = seed
    def draw(self, below):
        self.state = self.state * 48271 % P
        return self.state % below

# ---- writing files
def field(tag, content): return bytes([tag]) + len(content).to_bytes(2, 'big') + bytes(content)
def atom(p, mask): return bytes([p]) + mask.to_bytes(4, 'big')
def header(v, n): return bytes([1, 0, 2, v, n])

def digits(number, bases):
    out = []
    for b in bases:
        out.append(number % b); number //= b
    return out + [number]

def clause_no(number, v, sets):
    content = b''
    while number > 0:
        number -= 1
        p, number = number % v + 1, number // v
        s, number = number % sets, number // sets
        content += atom(p, s)
    return field(2, content)

def equality_no(mask, number, v):
    content = mask.to_bytes(4, 'big')
    while number > 0:
        number -= 1
        content += bytes([number % v + 1]); number //= v
    return field(3, content)

# At most k positions in a set: the positions are the list with a number, of the lists of different ones of 1 to 3.
LISTS = [[], [1], [2], [3], [1, 2], [1, 3], [2, 3], [1, 2, 3]]
def at_most_no(k, mask, number): return field(5, bytes([k]) + mask.to_bytes(4, 'big') + bytes(LISTS[number]))

# The starting set with a number: its position, then its set, which is not empty.
def start_no(number, v): return field(4, atom(number % v + 1, number // v + 1))

def systematic(family, k):
    if family == 0:
        a, b = digits(k, [73]); return header(2, 2) + clause_no(a, 2, 4) + clause_no(b, 2, 4)
    if family == 1:
        a, b = digits(k, [273]); return header(2, 3) + clause_no(a, 2, 8) + clause_no(b, 2, 8)
    if family == 2:
        s, t, l, m = digits(k, [8, 8, 7]); return header(2, 3) + equality_no(s, l, 2) + equality_no(t, m, 2)
    if family == 3:
        a, s, l = digits(k, [73, 4]); return header(2, 2) + clause_no(a, 2, 4) + equality_no(s, l, 2)
    if family == 4:
        s, l, a = digits(k, [8, 40]); return header(3, 3) + equality_no(s, l, 3) + clause_no(a, 3, 8)
    if family == 5:
        s, l = digits(k, [16]); return header(4, 4) + equality_no(s, l, 4)
    if family == 6:
        a, b = digits(k, [273]); return header(2, 3) + clause_no(a, 2, 8) + start_no(b, 2)
    if family == 7:
        b, s, l = digits(k, [14, 8]); return header(2, 3) + start_no(b, 2) + equality_no(s, l, 2)
    if family == 8:
        m, s, l, a = digits(k, [4, 8, 8]); return header(3, 3) + at_most_no(m, s, l) + clause_no(a, 3, 8)
    if family == 9:
        m, s, l, o, t, j = digits(k, [3, 4, 8, 3, 4]); return header(3, 2) + at_most_no(m, s, l) + at_most_no(o, t, 4 + j)
    if family == 10:
        b, m, s, l = digits(k, [21, 3, 8]); return header(3, 3) + start_no(b, 3) + at_most_no(m, s, 4 + l)
    if family == 11:
        t, m, s, l = digits(k, [8, 3, 8]); return header(3, 3) + field(3, t.to_bytes(4, 'big') + b'\1\2\3') + at_most_no(m, s, l)

# A set from the bits of the values n down to 1.
def set_by(n, bit):
    mask = 0
    for value in range(n, 0, -1): mask = mask * 2 + (1 if bit(value) else 0)
    return mask

# What files are drawn: how many of eight fields are equalities, starting sets and at-most rules; in how many of four
# draws a value is put into a set or into a starting set, and a set is {1..b} with at most one value changed.
class Shape:
    def __init__(self, v, n, fields, equalities=0, atoms=1, density=2, starts=0, fitted=2, ladders=0, at_mosts=0):
        self.v, self.n, self.fields, self.equalities, self.atoms = v, n, fields, equalities, atoms
        self.density, self.starts, self.fitted, self.ladders, self.at_mosts = density, starts, fitted, ladders, at_mosts

def drawn_set(src, shape):
    if src.draw(4) < shape.ladders:
        b, odd = src.draw(shape.n + 1), src.draw(2 * shape.n + 1)
        return set_by(shape.n, lambda value: (value <= b) != (value == odd))
    return set_by(shape.n, lambda value: src.draw(4) < shape.density)

# A starting set, of one value at least; nothing where its position has one already.
def drawn_start(src, shape, had):
    p, sure = src.draw(shape.v) + 1, src.draw(shape.n) + 1
    mask = set_by(shape.n, lambda value: value == sure or src.draw(4) < shape.fitted)
    if p in had: return b''
    had.add(p)
    return field(4, atom(p, mask))

# At most 0 to 3 positions in a set: the positions in turn from one that is drawn on, each in three of four draws.
def drawn_at_most(src, shape):
    mask, k, first = drawn_set(src, shape), src.draw(4), src.draw(shape.v)
    return field(5, bytes([k]) + mask.to_bytes(4, 'big') + bytes([(first + i) % shape.v + 1 for i in range(shape.v) if src.draw(4) < 3]))

def drawn_field(src, shape, had):
    kind = src.draw(8)
    if kind < shape.equalities:
        mask = drawn_set(src, shape)
        count = src.draw(shape.v + 1)
        return field(3, mask.to_bytes(4, 'big') + bytes([src.draw(shape.v) + 1 for _ in range(count)]))
    if kind < shape.equalities + shape.starts: return drawn_start(src, shape, had)
    if kind < shape.equalities + shape.starts + shape.at_mosts: return drawn_at_most(src, shape)
    content = b''
    for _ in range(0 if src.draw(100) == 0 else shape.atoms + src.draw(3)):
        p = src.draw(shape.v) + 1
        content += atom(p, drawn_set(src, shape))
    return field(2, content)

WIDE = [(12, 2, 8), (9, 2, 8), (7, 3, 8), (6, 4, 8), (5, 5, 8), (4, 8, 8), (3, 16, 8), (2, 32, 8), (1, 32, 8), (64, 1, 3)]
def sized(src, least_v, more_v, least_n, more_n):
    v = least_v + src.draw(more_v); return v, least_n + src.draw(more_n)
def shape_of(family, src):
    if family == 12: return Shape(*sized(src, 1, 4, 1, 4), density=src.draw(3) + 1, fields=8, equalities=1)
    if family == 13: return Shape(*sized(src, 3, 2, 2, 3), fields=10, atoms=2)
    if family == 14: return Shape(*sized(src, 2, 3, 2, 3), fields=3, equalities=8, density=3)
    if family == 15:
        v, n, fields = WIDE[src.draw(10)]; return Shape(v, n, fields, equalities=2, atoms=2, density=src.draw(2) + 2)
    if family == 16: return Shape(*sized(src, 1, 4, 2, 5), fields=8, equalities=1, starts=3)
    if family == 17: return Shape(*sized(src, 2, 3, 3, 4), fields=9, starts=3, fitted=3, ladders=3)
    if family == 18: return Shape(*sized(src, 3, 4, 8, 25), fields=10, equalities=1, starts=4, fitted=1)
    if family == 19: return Shape(*sized(src, 3, 4, 2, 3), fields=6, atoms=2, at_mosts=5)
    return Shape(*sized(src, 1, 4, 2, 5), fields=8, equalities=1, starts=2, at_mosts=2)
def drawn(family, src):
    shape = shape_of(family, src)
    out, had = header(shape.v, shape.n), set()
    for _ in range(src.draw(shape.fields + 1)): out += drawn_field(src, shape, had)
    return out

# ---- 01, "The rule file" and "Replies": the refusal of a file, or its rules
@cache
def members(b):
    m = int.from_bytes(b, 'big'); return frozenset(i + 1 for i in range(32) if m >> i & 1)

def read(file):
    if not file: return ('refused', 14, 0)
    at = 0; v = n = None; rules = []; had = set()
    while at < len(file):
        rest = file[at:]
        if len(rest) < 3: return ('refused', 13, at)
        tag = rest[0]
        if at == 0 and tag != 1: return ('refused', 14, 0)
        if at > 0 and tag == 1: return ('refused', 15, at)
        if tag not in (1, 2, 3, 4, 5): return ('refused', 16, at)
        length = rest[1] * 256 + rest[2]
        if tag == 1 and length != 2 or tag == 2 and length % 5 or tag == 3 and not 4 <= length <= 68: return ('refused', 17, at)
        if tag == 4 and length != 5 or tag == 5 and not 5 <= length <= 69: return ('refused', 17, at)
        if len(rest) - 3 < length: return ('refused', 13, at)
        c = rest[3:3 + length]
        if tag == 1:
            v, n = c
            if not 1 <= v <= 64 or not 1 <= n <= 32: return ('refused', 18, at)
        elif tag == 2:
            atoms = []
            for i in range(0, length, 5):
                p, s = c[i], members(c[i + 1:i + 5])
                if not 1 <= p <= v: return ('refused', 19, at)
                if s and max(s) > n: return ('refused', 20, at)
                atoms.append((p, s))
            rules.append(('clause', atoms, at))
        elif tag == 4:
            p, s = c[0], members(c[1:])
            if not 1 <= p <= v: return ('refused', 19, at)
            if s and max(s) > n: return ('refused', 20, at)
            if not s: return ('refused', 26, at)
            if p in had: return ('refused', 27, at)
            had.add(p)
            rules.append(('start', p, s, at))
        elif tag == 5:
            s, named = members(c[1:5]), c[5:]
            if s and max(s) > n: return ('refused', 20, at)
            for p in named:
                if not 1 <= p <= v: return ('refused', 19, at)
            if len(set(named)) < len(named): return ('refused', 36, at)
            rules.append(('at most', c[0], s, list(named), at))
        else:
            s = members(c[:4])
            if s and max(s) > n: return ('refused', 20, at)
            for p in c[4:]:
                if not 1 <= p <= v: return ('refused', 19, at)
            rules.append(('equality', s, list(c[4:]), at))
        at += 3 + length
    return ('sound', v, n, rules)

# ---- 02, R-6: the starting sets of positions 1 to v
def starting(v, n, rules):
    given = {r[1]: r[2] for r in rules if r[0] == 'start'}
    return [given.get(p, frozenset(range(1, n + 1))) for p in range(1, v + 1)]

# ---- 01, "What rules mean", and 02's R-12
def met(rule, a):
    if rule[0] == 'clause': return any(a[p - 1] in s for p, s in rule[1])
    if rule[0] == 'at most': return len([p for p in rule[3] if a[p - 1] in rule[2]]) <= rule[1]
    return {a[p - 1] for p in rule[2]} == rule[1]

# All plans in dictionary order, which are assignments inside the starting sets.
def plans(rooms, rules):
    others = [r for r in rules if r[0] != 'start']
    return (a for a in product(*map(sorted, rooms)) if all(met(r, a) for r in others))

# ---- 01, demand 3: the special kind, by R-6 judged by the starting sets
# Whether a set counts as {1..b}: with each starting value in it, all smaller starting values are in it too.
def is_ladder(s, start):
    return all(y in s for x in s & start for y in start if y < x)

# Whether every rule is a clause, with at most one position whose united set does not count as {1..b}, or a starting set.
# An at-most rule is outside, as an equality is.
def special(rooms, rules):
    return all(r[0] == 'start' or r[0] == 'clause'
               and sum(not is_ladder(s, rooms[p - 1]) for p, s in united(r[1]).items()) <= 1 for r in rules)

# ---- 01, "The search, step for step", from the starting sets on, with step 4 as 02 has it, the place of the
# field first found dead, the rounds of the first box and at-most rules
def united(c):
    union = {}
    for p, s in c: union[p] = union.get(p, frozenset()) | s
    return union

# A clause, by the union of each of its positions.
class OneOf:
    def __init__(self, atoms): self.union = united(atoms)
    # Cuts the room of the only live position at once. Whether it is dead.
    def look(self, rooms):
        live = [p for p in self.union if rooms[p - 1] & self.union[p]]
        if len(live) == 1: rooms[live[0] - 1] &= self.union[live[0]]
        return not live
    def settled(self, rooms): return any(rooms[p - 1] <= s for p, s in self.union.items())
    def live(self, p, room): return room & self.union.get(p, set())

# At most k of the positions in a set.
class AtMost:
    def __init__(self, k, values, named): self.k, self.values, self.named = k, values, named
    # Cuts the rooms that meet the set and are not inside it, where k are. Whether it is dead.
    def look(self, rooms):
        inside = sum(rooms[p - 1] <= self.values for p in self.named)
        if inside == self.k:
            for p in self.named: rooms[p - 1] = rooms[p - 1] - self.values or rooms[p - 1]
        return inside > self.k
    def settled(self, rooms): return sum(bool(rooms[p - 1] & self.values) for p in self.named) <= self.k
    def live(self, p, room): return p in self.named and room & self.values

# A field as its place and its parts: the clauses of an equality in 01's order. A starting set has none.
def as_parts(r):
    if r[0] == 'start': parts = []
    elif r[0] == 'clause': parts = [OneOf(r[1])]
    elif r[0] == 'at most': parts = [AtMost(*r[1:4])]
    else: parts = [OneOf([(p, r[1])]) for p in r[2]] + [OneOf([(p, frozenset([m])) for p in r[2]]) for m in sorted(r[1])]
    return r[-1], parts

class Stop(Exception): pass
# The place is that of the first box where shrinking finds it dead, and else 0, as in every search that splits. The
# rounds are those of the first box, the one that is shrunk before any split.
class Search:
    def __init__(self, v, n, rules, allowed):
        self.fields, self.allowed, self.splits, self.dead = [as_parts(r) for r in rules], allowed, 0, 0
        self.parts = [part for _, parts in self.fields for part in parts]
        try:
            plan = self.box(starting(v, n, rules))
            self.number, self.plan = (0, plan) if plan else (1, None)
        except Stop as s: self.number, self.plan = s.args[0], None
    # The fields in file order, over and over, each left at its first dead part: the place of the field first found dead, 0
    # where a round changes nothing; and the rounds up to that one, which counts.
    def shrink(self, rooms):
        for rounds in count(1):
            before = list(rooms)
            for place, parts in self.fields:
                if any(part.look(rooms) for part in parts): return place, rounds
            if rooms == before: return 0, rounds
    def box(self, rooms):
        rooms = list(rooms)
        dead_at, rounds = self.shrink(rooms)
        if self.splits == 0: self.place, self.rounds = dead_at, rounds
        if dead_at: self.dead += 1; return None
        left = [part for part in self.parts if not part.settled(rooms)]
        if not left: return tuple(min(r) for r in rooms)
        i = next(i for i, r in enumerate(rooms) if len(r) >= 2 and any(part.live(i + 1, r) for part in left))
        if self.splits >= self.allowed: raise Stop(2)
        self.splits += 1
        low = min(rooms[i])
        return self.box(rooms[:i] + [frozenset([low])] + rooms[i + 1:]) or self.box(rooms[:i] + [rooms[i] - {low}] + rooms[i + 1:])

# ---- 01, "Replies": the reply to one call of the planner
class Refused:
    plan, splits, dead, rounds = None, 0, 0, 0
    def __init__(self, number, place): self.number, self.place = number, place

MOST, FEW = 1000000, 30
def plan(file, length, allowance):
    if len(file) > 32768: return Refused(10, 0)
    if length < 64: return Refused(11, 0)
    if allowance > MOST: return Refused(12, 0)
    r = read(file)
    return Refused(*r[1:]) if r[0] == 'refused' else Search(*r[1:], allowance)

# ---- the program's counts
REFUSALS = [*range(10, 21), 26, 27, 36]
T = dict.fromkeys([0, 1, 2, *REFUSALS, 'files', 'damaged', 'special', 'splits', 'dead', 'places', 'rounds', 'checksum', 'comparisons'], 0)
hist = {}

def ask(file, length=64, allowance=MOST):
    s = plan(file, length, allowance)
    T[s.number] += 1; T['splits'] += s.splits; T['dead'] += s.dead; T['places'] += s.place; T['rounds'] += s.rounds
    T['comparisons'] += 1
    for x in (s.number, s.place, s.splits, s.dead, s.rounds): T['checksum'] = (T['checksum'] * 1000003 + x + 1) % 4294967296
    assert s.rounds == 0 if s.number >= 10 else s.rounds >= 1
    return s

def judge(file, origin=False):
    r = read(file)
    if r[0] == 'refused':
        assert not origin
        return ask(file)
    _, v, n, rules = r
    rooms = starting(v, n, rules)
    sizes = [len(room) for room in rooms]
    many = prod(sizes) > 4096
    s = ask(file, 64, FEW if many else MOST)
    if not many:
        a = next(plans(rooms, rules), None)
        assert (s.number, s.plan) == ((1, None) if a is None else (0, a)), file
        assert s.splits <= prod(sizes) - 1
    if s.number == 1: assert s.dead == s.splits + 1
    if s.number == 0: assert s.dead <= s.splits
    assert s.place in [r[-1] for r in rules if r[0] != 'start'] if s.number == 1 and s.splits == 0 else s.place == 0
    assert 1 <= s.rounds <= sum(size - 1 for size in sizes) + 1
    if special(rooms, rules): judge_special(s, v, rooms, rules, many)
    if STATS:
        key = (FAMILY[0], origin, 'many' if many else 'few', 'special' if special(rooms, rules) else '', s.number)
        hist[key] = hist.get(key, 0) + 1
    return s

# Demand 3 of the special kind with v or more splits allowed: NONE at no split, or a plan at no dead end, at no position
# higher than any other plan.
def judge_special(s, v, rooms, rules, many):
    T['special'] += 1; T['comparisons'] += 1
    if s.number == 2: assert many and v > FEW
    if s.number == 1: assert s.splits == 0
    if s.number == 0:
        assert s.dead == 0 and s.splits <= v
        assert many or all(x <= y for a in plans(rooms, rules) for x, y in zip(s.plan, a))

# Where the few splits that a file of many assignments is allowed did not suffice, no other allowance is tried.
def one(src, file, number):
    T['files'] += 1; T['comparisons'] += 1
    assert len(file) < 256
    full = judge(file, True)
    if full.number != 2: small_allowances(file, full)
    if number % 100 == 0:
        judge(file, True)
        if full.number != 2: limits(file, full)
        damaged(src, file)

def whole(s): return s.number, s.place, s.plan, s.splits, s.dead, s.rounds

def small_allowances(file, full):
    for a in range(0, min(full.splits, 99) + 2):
        s = ask(file, 64, a)
        assert (s.number == 2 and s.place == 0 and s.splits == a and s.dead <= a) if a < full.splits else whole(s) == whole(full)
        assert s.rounds == full.rounds

def limits(file, full):
    for length in range(60, 69):
        s = ask(file, length)
        assert s.number == 11 if length < 64 else whole(s) == whole(full)
    for a in (MOST - 1, MOST + 1, 2 ** 64 - 1):
        s = ask(file, 64, a)
        assert s.number == 12 if a > MOST else whole(s) == whole(full)

def damaged(src, file):
    def tried(b): T['damaged'] += 1; judge(bytes(b))
    def more(i): tried(file[:i] + bytes([src.draw(7)]) + file[i:])
    for i in range(len(file)):
        tried(file[:i])
        tried(file[:i] + bytes([(file[i] + 251 + src.draw(5)) % 256]) + file[i + 1:])
        tried(file[:i] + bytes([(file[i] + 1 + src.draw(255)) % 256]) + file[i + 1:])
        for another in (4, 5, 0): tried(file[:i] + bytes([another]) + file[i + 1:])
        more(i)
    more(len(file))
    at = 5
    while at < len(file):
        end = at + 3 + file[at + 1] * 256 + file[at + 2]
        twice = bytearray((file + file[at:end])[:256])
        tried(twice)
        twice[-1] = 0; tried(twice)
        twice[-1] = 255; tried(twice)
        twice[-1] = twice[-2]; tried(twice)
        if len(file) + 3 < len(twice): twice[len(file) + 3] = 0
        tried(twice)
        at = end

src = Source(20251)
FAMILY = [None]
for family, size in enumerate(SIZES):
    FAMILY[0] = family
    for k in range(size):
        one(src, systematic(family, k) if family < SYSTEMATIC else drawn(family, src), k)
FAMILY[0] = 'limits'
long = bytes([1]) * 32769
for file, length, allowance in [(long, 64, MOST), (long, 63, MOST + 1), (b'', 63, MOST + 1), (b'', 64, MOST + 1)]: ask(file, length, allowance)
for v, n in [(1, 1), (64, 32), (65, 32), (64, 33), (0, 1), (1, 0)]: judge(header(v, n))
judge(header(64, 1) + field(3, bytes([0, 0, 0, 1] + [1] * 64))); judge(header(64, 1) + field(3, bytes([0, 0, 0, 1] + [1] * 65)))
print('files', T['files']); print('damaged files', T['damaged']); print('of the special kind', T['special'])
print('PLAN', T[0]); print('NONE', T[1]); print('UNDECIDED', T[2])
for i in REFUSALS: print('refused, %d: %d' % (i, T[i]))
print('splits', T['splits']); print('dead ends', T['dead']); print('places', T['places']); print('rounds', T['rounds'])
print('checksum', T['checksum']); print('comparisons', T['comparisons']); print('differences 0')
if STATS:
    for k in sorted(hist, key=str): print(k, hist[k], file=sys.stderr)
