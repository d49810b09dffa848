# A model of documents 01 and 02, written from their text alone: reading a rule file,
# what rules mean, the search step for step, the reply, and what the program prints. A set is a Python set of the values
# in it.
from collections import namedtuple

# The ceilings.
MOST_POSITIONS = 64
MOST_VALUES = 32
MOST_BYTES = 32768
MOST_SPLITS = 1000000
LEAST_BUFFER = 64
# The splits that the program allows.
PROGRAM_SPLITS = 100000

# The replies that are not refusals.
PLAN, NONE, UNDECIDED = 0, 1, 2
# A reply. The place is that of a refusal, or of a NONE with no split, and else 0. The rounds are those of the
# first box, and 0 for a refusal. The values are those of a plan; every other reply has none.
Reply = namedtuple('Reply', 'number place splits dead_ends rounds values')

# The fields of a rule file. A field's place is the offset of its tag byte.
Header = namedtuple('Header', 'place v n')
Clause = namedtuple('Clause', 'place atoms')
Equality = namedtuple('Equality', 'place values positions')
# The starting set of a position.
Start = namedtuple('Start', 'place position values')
# At most k of the positions take a value in the set.
AtMost = namedtuple('AtMost', 'place k values positions')
# "The position's value is in this set."
Atom = namedtuple('Atom', 'position values')


# A refusal: its number, its place, and in words what is wrong there.
class Refused(Exception):
    def __init__(self, number, place, words):
        super().__init__(number, place, words)
        self.number, self.place, self.words = number, place, words


# ---- The rule file

# The set that a number stands for: the lowest bit stands for value 1, the next one for value 2, and so on.
def set_of(number):
    values, value = set(), 1
    while number > 0:
        if number % 2 == 1:
            values.add(value)
        number, value = number // 2, value + 1
    return frozenset(values)


# A four-byte set, high byte first.
def set_at(content, at):
    number = 0
    for byte in content[at:at + 4]:
        number = number * 256 + byte
    return set_of(number)


# The tag of a field: the first is 1, and a later one is 2, 3, 4 or 5.
def check_tag(tag, place):
    if place == 0 and tag != 1:
        raise Refused(14, place, f'the first tag is {tag}, and not 1')
    if place > 0 and tag == 1:
        raise Refused(15, place, 'a second header: tag 1 comes first and once')
    if tag not in (1, 2, 3, 4, 5):
        raise Refused(16, place, f'tag {tag} is none of 1, 2, 3, 4, 5')


# The length that a tag asks for.
def check_length(tag, length, place):
    if tag == 1 and length != 2:
        raise Refused(17, place, f'a header of length {length}, which has to be 2')
    if tag == 2 and length % 5 != 0:
        raise Refused(17, place, f'a clause of length {length}, which is not 5 times a number of atoms')
    if tag == 3 and not 4 <= length <= 68:
        raise Refused(17, place, f'an equality of length {length}, which has to be 4 to 68')
    if tag == 4 and length != 5:
        raise Refused(17, place, f'a starting set of length {length}, which has to be 5')
    if tag == 5 and not 5 <= length <= 69:
        raise Refused(17, place, f'an at-most rule of length {length}, which has to be 5 to 69')


# One field: its tag and its content. In order: a head that is cut, tag, length, bytes missing.
def read_field(file, place):
    left = len(file) - place
    if left < 3:
        raise Refused(13, place, f'bytes missing: of the 3 for tag and length {left} are left')
    tag, length = file[place], file[place + 1] * 256 + file[place + 2]
    check_tag(tag, place)
    check_length(tag, length, place)
    if left - 3 < length:
        raise Refused(13, place, f'bytes missing: the length says {length}, and {left - 3} are left')
    return tag, file[place + 3:place + 3 + length]


# A header: v, then n.
def read_header(content, place):
    v, n = content
    if not 1 <= v <= MOST_POSITIONS:
        raise Refused(18, place, f'v is {v}, which is not 1 to {MOST_POSITIONS}')
    if not 1 <= n <= MOST_VALUES:
        raise Refused(18, place, f'n is {n}, which is not 1 to {MOST_VALUES}')
    return Header(place, v, n)


# A position is 1 to v.
def check_position(position, header, place, where):
    if not 1 <= position <= header.v:
        raise Refused(19, place, f'{where} is position {position}, which is not 1 to {header.v}')


# A set has no value above n.
def check_set(values, header, place, where):
    above = [value for value in sorted(values) if value > header.n]
    if above:
        raise Refused(20, place, f'{where} has the value {above[0]}, which is above n, {header.n}')


# A clause: atoms of five bytes, a position byte and a four-byte set. In an atom 19 comes before 20.
def read_clause(content, place, header):
    atoms = []
    for at in range(0, len(content), 5):
        atom = Atom(content[at], set_at(content, at + 1))
        check_position(atom.position, header, place, f'in atom {at // 5 + 1} there')
        check_set(atom.values, header, place, f'the set of atom {at // 5 + 1}')
        atoms.append(atom)
    return Clause(place, atoms)


# An equality: a four-byte set M, then position bytes. 20 comes before 19.
def read_equality(content, place, header):
    values, positions = set_at(content, 0), list(content[4:])
    check_set(values, header, place, 'the set M')
    for k, position in enumerate(positions):
        check_position(position, header, place, f'number {k + 1} of those named')
    return Equality(place, values, positions)


# A starting set: a position byte and a four-byte set. In order: 19, 20, 26, 27. The positions that had their
# starting set before are given.
def read_start(content, place, header, had):
    position, values = content[0], set_at(content, 1)
    check_position(position, header, place, 'the position there')
    check_set(values, header, place, f'the starting set of position {position}')
    if not values:
        raise Refused(26, place, f'the starting set of position {position} is empty')
    if position in had:
        raise Refused(27, place, f'a second starting set for position {position}')
    return Start(place, position, values)


# An at-most rule: the count k, any byte, a four-byte set, then position bytes. In order: 20, 19 for every
# position, 36.
def read_at_most(content, place, header):
    k, values, positions = content[0], set_at(content, 1), list(content[5:])
    check_set(values, header, place, 'the set')
    for at, position in enumerate(positions, 1):
        check_position(position, header, place, f'number {at} of those named')
    for at, position in enumerate(positions):
        if position in positions[:at]:
            raise Refused(36, place, f'position {position} is named twice')
    return AtMost(place, k, values, positions)


# The fields one after another, the header first, up to the first fault, which is raised.
def fields(file):
    if len(file) == 0:
        raise Refused(14, 0, 'the input is empty')
    header, had, place = None, set(), 0
    while place < len(file):
        tag, content = read_field(file, place)
        if tag == 1:
            header = read_header(content, place)
            yield header
        elif tag == 2:
            yield read_clause(content, place, header)
        elif tag == 3:
            yield read_equality(content, place, header)
        elif tag == 4:
            start = read_start(content, place, header, had)
            had.add(start.position)
            yield start
        else:
            yield read_at_most(content, place, header)
        place += 3 + len(content)


# A whole file: its header and its rules, among which the starting sets are.
def read(file):
    header, *rules = fields(file)
    return header, rules


# The starting set of every position, by its number: what its field says, wherever that stands, and {1..n} where there
# is none.
def starting_sets(header, rules):
    full = frozenset(range(1, header.n + 1))
    sets = {position: full for position in range(1, header.v + 1)}
    sets.update((rule.position, rule.values) for rule in rules if isinstance(rule, Start))
    return sets


# ---- What rules mean

# Whether an assignment has its value for this atom's position in the atom's set.
def meets_atom(atom, assignment):
    return assignment[atom.position - 1] in atom.values


# The set of values taken by the named positions.
def taken(positions, assignment):
    return {assignment[position - 1] for position in positions}


# An assignment meets a clause if it does so for some atom, an equality if the values taken are exactly M, a starting
# set if the position's value is in it, and an at-most rule if no more than k of its positions take a value in its
# set.
def meets(rule, assignment):
    if isinstance(rule, Clause):
        return any(meets_atom(atom, assignment) for atom in rule.atoms)
    if isinstance(rule, Equality):
        return taken(rule.positions, assignment) == rule.values
    if isinstance(rule, AtMost):
        return sum(assignment[position - 1] in rule.values for position in rule.positions) <= rule.k
    return assignment[rule.position - 1] in rule.values


# The clauses that an equality means: for each named position "it is in M"; then for each value m in M, rising, "one of
# the named positions is in {m}".
def equality_clauses(equality):
    inside = [[Atom(position, equality.values)] for position in equality.positions]
    each = [[Atom(position, frozenset([m])) for position in equality.positions] for m in sorted(equality.values)]
    return inside + each


# ---- The search, step for step
#
# What is looked at, settled and live is a part of a rule: a clause, or an at-most rule as it was read. Here a
# clause is the list of its positions, each with the union of that position's sets in the clause.

# The clause of some atoms.
def united(atoms):
    unions = {}
    for position, values in atoms:
        unions[position] = unions.get(position, frozenset()) | values
    return list(unions.items())


# The parts of a rule, in the order in which they are gone through. A starting set has none: the rooms lie inside it
# from the start, so that in a round it changes nothing and is never dead.
def parts_of(rule):
    if isinstance(rule, Clause):
        return [united(rule.atoms)]
    if isinstance(rule, Equality):
        return [united(atoms) for atoms in equality_clauses(rule)]
    return [rule] if isinstance(rule, AtMost) else []


# The positions that are live in a clause, with their unions: those whose room meets the union. Two are enough:
# step 1 asks whether there is none, exactly one, or more.
def live_in(clause, rooms):
    live = []
    for position, union in clause:
        if not union.isdisjoint(rooms[position]):
            live.append((position, union))
            if len(live) == 2:
                break
    return live


# One look at a clause: whether it is dead, and the rooms that it cuts, by their positions. It is dead with no live
# position, and cuts the room of the only one down to its union.
def look_at_clause(clause, rooms):
    live = live_in(clause, rooms)
    if not live:
        return True, {}
    position, union = live[0]
    if len(live) == 1 and not rooms[position] <= union:
        return False, {position: rooms[position] & union}
    return False, {}


# One look at an at-most rule, the same of it. The rooms inside the set are counted first, wide ones too: more
# than k are dead, and exactly k cut all other rooms that meet the set down to the values outside.
def look_at_most(rule, rooms):
    inside = {position for position in rule.positions if rooms[position] <= rule.values}
    if len(inside) != rule.k:
        return len(inside) > rule.k, {}
    others = [position for position in rule.positions if position not in inside]
    return False, {position: rooms[position] - rule.values for position in others if rooms[position] & rule.values}


# One look at a part.
def look(part, rooms):
    return look_at_most(part, rooms) if isinstance(part, AtMost) else look_at_clause(part, rooms)


# Step 1: rounds through the fields in file order, the parts of each in their order and each room cut at once, until
# a round cuts nothing. Every part comes with the place of its field. Gives the rooms; where the box is dead the
# place of the field first found dead, and 0 where it is not dead; and the rounds, of which the last one counts
# too: it cut nothing, or found a dead field.
def shrink(parts, rooms):
    rooms, cut, rounds = dict(rooms), True, 0
    while cut:
        cut, rounds = False, rounds + 1
        for place, part in parts:
            dead, smaller = look(part, rooms)
            if dead:
                return rooms, place, rounds
            if smaller:
                rooms.update(smaller)
                cut = True
    return rooms, 0, rounds


# Step 2: whether a part is settled. A clause is if it has a position whose room lies inside its union, and an at-most
# rule if at most k rooms meet its set.
def settled(part, rooms):
    if isinstance(part, AtMost):
        return len(live_positions(part, rooms)) <= part.k
    return any(rooms[position] <= union for position, union in part)


# The parts not yet settled. The box is settled if there are none.
def unsettled(parts, rooms):
    return [part for place, part in parts if not settled(part, rooms)]


# The positions that count as live in a part: those whose room meets the union, or the set of an at-most rule. In
# the second the room may lie inside the set, and may have one value.
def live_positions(part, rooms):
    named = [(position, part.values) for position in part.positions] if isinstance(part, AtMost) else part
    return {position for position, values in named if not values.isdisjoint(rooms[position])}


# Step 4, as R-2 has it: the lowest-numbered position with two or more values in its room that is live in some part
# of those left, which are not yet settled. Once shrinking is over there always is one.
def split_position(left, rooms):
    live = {position for part in left for position in live_positions(part, rooms)}
    return min(position for position in live if len(rooms[position]) >= 2)


# Step 4: the box with the smallest value alone in that room, and the box with the others.
def halves(rooms, position):
    smallest = frozenset([min(rooms[position])])
    return {**rooms, position: smallest}, {**rooms, position: rooms[position] - smallest}


# Steps 1 to 4 from the box of the starting sets on. 01's search calls itself for each half; here the boxes that are still
# to be searched wait in a list, the next one last, so that the second half waits until the first gave no plan. A NONE
# with no split has met one box, the first, and has the place where that one is dead; any other has place 0. The
# rounds are those of the first box, the one that is shrunk before any split.
def search(header, rules, allowance):
    parts = [(rule.place, part) for rule in rules for part in parts_of(rule)]
    waiting = [starting_sets(header, rules)]
    splits = dead_ends = 0
    while waiting:
        rooms, dead_at, rounds_here = shrink(parts, waiting.pop())
        if splits == 0:
            rounds = rounds_here
        if dead_at > 0:
            dead_ends += 1
            continue
        left = unsettled(parts, rooms)
        if not left:
            values = tuple(min(rooms[position]) for position in sorted(rooms))
            return Reply(PLAN, 0, splits, dead_ends, rounds, values)
        position = split_position(left, rooms)
        if splits == allowance:
            return Reply(UNDECIDED, 0, splits, dead_ends, rounds, ())
        splits += 1
        first, second = halves(rooms, position)
        waiting += [second, first]
    return Reply(NONE, dead_at if splits == 0 else 0, splits, dead_ends, rounds, ())


# ---- Replies

# What a call is refused for before its file is looked at: 10, 11, 12.
def check_call(file, buffer_length, allowance):
    if len(file) > MOST_BYTES:
        raise Refused(10, 0, f'the input has more than {MOST_BYTES} bytes')
    if buffer_length < LEAST_BUFFER:
        raise Refused(11, 0, f'the answer buffer has {buffer_length} bytes, which is under {LEAST_BUFFER}')
    if allowance > MOST_SPLITS:
        raise Refused(12, 0, f'the allowance is {allowance}, which is above {MOST_SPLITS}')


# The reply to an input, for an answer buffer of some length and an allowance of splits.
def reply(file, buffer_length, allowance):
    try:
        check_call(file, buffer_length, allowance)
        header, rules = read(file)
    except Refused as refused:
        return Reply(refused.number, refused.place, 0, 0, 0, ())
    return search(header, rules, allowance)


# The most rounds of an input, known before the search: the sum over positions of starting size less one, plus
# one. A round that is not the last cuts some room, and no room is cut to nothing. 0 where the input is refused, for
# which neither buffer nor allowance plays a part.
def rounds_most(file):
    try:
        check_call(file, LEAST_BUFFER, MOST_SPLITS)
        header, rules = read(file)
    except Refused:
        return 0
    return sum(len(values) - 1 for values in starting_sets(header, rules).values()) + 1


# A reply as the lines that the program prints. The place of a NONE that has one is a fourth word.
def text(reply):
    if reply.number == PLAN:
        values = ' '.join(str(value) for value in reply.values)
        return f'PLAN {reply.splits} {reply.dead_ends}\n{values}\n'
    if reply.number == NONE:
        place = f' {reply.place}' if reply.place > 0 else ''
        return f'NONE {reply.splits} {reply.dead_ends}{place}\n'
    if reply.number == UNDECIDED:
        return f'UNDECIDED {reply.splits} {reply.dead_ends}\n'
    return f'REFUSED {reply.number} {reply.place}\n'


# What the program says on standard error, behind `oarloom: `, of a NONE with a place; no words of any other NONE,
# nor of a PLAN or UNDECIDED. The words of a refusal are not modelled.
def why_none(reply):
    if reply.number == NONE and reply.place > 0:
        return f'the field at byte {reply.place} cannot be met by what the rules leave open'
    return ''


# The program's reply to an input.
def program_reply(file):
    return reply(file, LEAST_BUFFER, PROGRAM_SPLITS)


# What the program prints for an input.
def printed(file):
    return text(program_reply(file))
