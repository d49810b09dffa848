# A second opinion on one sheet: says in words what a rule file asks for, and whether a reply is the right one.
#
#     python3 recheck.py [--all] FILE REPLY
#
# FILE is a rule file. REPLY is a file with what the program printed for it, or - for standard input.
# Exit status: 0 the reply agrees with the file; 1 it does not; 2 bad use, or something cannot be read or written;
# 3 nothing speaks against the reply, but its search is too long to be redone (--all redoes it whatever it takes).
import argparse
import os
import re
import sys
from collections import Counter
from itertools import product, zip_longest
from math import prod

import scope

# A printed reply: its first line, and the line of values. NONE alone may have a fourth word, a place above 0.
NUMBER = '(0|[1-9][0-9]{0,8})'
FIRST_LINE = re.compile(f'(PLAN|NONE|UNDECIDED|REFUSED) {NUMBER} {NUMBER}(?: (?!0){NUMBER})?\n')
VALUES_LINE = re.compile(f'{NUMBER}( {NUMBER})*\n')
KINDS = {'PLAN': scope.PLAN, 'NONE': scope.NONE, 'UNDECIDED': scope.UNDECIDED}


# ---- The file in words

# A set: {1,3}, and {} for the empty set.
def set_words(values):
    return '{' + ','.join(str(value) for value in sorted(values)) + '}'


# A list of positions.
def position_words(positions):
    if len(positions) <= 1:
        return f'position {positions[0]}' if positions else 'no positions'
    return 'positions ' + ', '.join(str(position) for position in positions)


# Remarks in brackets, or nothing.
def remarks(notes):
    return f' ({"; ".join(notes)})' if notes else ''


# The positions that stand more than once, rising, each with how often it does.
def repeated(positions):
    return [(position, times) for position, times in sorted(Counter(positions).items()) if times > 1]


# A clause: its atoms, with a remark on empty sets and on positions that stand in several atoms.
def clause_words(clause):
    if not clause.atoms:
        return 'clause: empty, with no atom (no assignment meets it)'
    atoms = ' or '.join(f'position {position} in {set_words(values)}' for position, values in clause.atoms)
    unions = dict(scope.united(clause.atoms))
    notes = [f'position {position} stands in {times} atoms, together {set_words(unions[position])}'
             for position, times in repeated([position for position, values in clause.atoms])]
    if not all(values for position, values in clause.atoms):
        notes.append('{} is the empty set: no value is in it')
    return f'clause: {atoms}{remarks(notes)}'


# An equality: its positions and M, with a remark on no positions, on an empty M and on positions named twice.
def equality_words(equality):
    notes = [f'position {position} is named {times} times, which means the same as once'
             for position, times in repeated(equality.positions)]
    if not equality.positions:
        notes.append('never met: no position takes a value' if equality.values else 'always met')
    elif not equality.values:
        notes.append('never met: {} is the empty set, and a position takes some value')
    return (f'equality: the values of {position_words(equality.positions)} are exactly '
            f'{set_words(equality.values)}{remarks(notes)}')


# An at-most rule: k, its positions and its set, with a remark where any assignment meets it.
def at_most_words(rule):
    notes = []
    if rule.k >= len(rule.positions):
        notes.append(f'always met: no more than {rule.k} positions are named')
    elif not rule.values:
        notes.append('always met: {} is the empty set, and no value is in it')
    return (f'at-most rule: at most {rule.k} of {position_words(rule.positions)} '
            f'take a value of {set_words(rule.values)}{remarks(notes)}')


# Any field. A starting set counts from the start on, wherever its field stands.
def field_words(field):
    if isinstance(field, scope.Header):
        return f'header: positions 1 to {field.v}, values 1 to {field.n}'
    if isinstance(field, scope.Start):
        return f'starting set: position {field.position} takes a value of {set_words(field.values)} and no other'
    if isinstance(field, scope.AtMost):
        return at_most_words(field)
    return clause_words(field) if isinstance(field, scope.Clause) else equality_words(field)


# Says every field up to the first fault, and the fault. Gives the header and the rules, and no header where the
# file is refused.
def decode(file):
    print('the file:')
    found = []
    try:
        scope.check_call(file, scope.LEAST_BUFFER, scope.PROGRAM_SPLITS)
        for field in scope.fields(file):
            print(f'byte {field.place}: {field_words(field)}')
            found.append(field)
        return found[0], found[1:]
    except scope.Refused as refused:
        print(f'byte {refused.place}: refused, {refused.number}: {refused.words}')
        return None, []


# ---- The reply as it was printed

# What was printed is no reply, and why.
class Unreadable(Exception):
    pass


# What was printed, line by line, each with its end.
def lines_of(printed):
    return re.findall('[^\n]*\n|[^\n]+', printed)


# Takes what was printed apart. Only the program's own form is read: its words, single spaces, no line too many. The
# rounds are not printed: the reply has None for them.
def parse(printed):
    lines = lines_of(printed)
    if not lines:
        raise Unreadable('the reply is empty')
    if not lines[-1].endswith('\n'):
        raise Unreadable(f'line {len(lines)} of the reply is not ended')
    first = FIRST_LINE.fullmatch(lines[0])
    if not first or first[4] and first[1] != 'NONE':
        raise Unreadable('line 1 is not PLAN, NONE, UNDECIDED or REFUSED with two numbers, or NONE with a place above '
                         '0 as well, and single spaces')
    kind, one, two, place = first[1], int(first[2]), int(first[3]), int(first[4] or 0)
    wanted = 2 if kind == 'PLAN' else 1
    if len(lines) > wanted:
        raise Unreadable(f'{kind} ends with line {wanted}, and the reply goes on')
    if kind == 'PLAN' and not VALUES_LINE.fullmatch(''.join(lines[1:])):
        raise Unreadable('PLAN has no line 2 of values with single spaces')
    if kind == 'REFUSED':
        return scope.Reply(one, two, 0, 0, None, ())
    values = tuple(int(word) for line in lines[1:] for word in line.split())
    return scope.Reply(KINDS[kind], place, one, two, None, values)


# ---- How much is redone

# How many positions a part of a rule is looked at in.
def positions_in(part):
    return len(part.positions) if isinstance(part, scope.AtMost) else len(part)


# How many splits are redone without --all, and how many assignments are gone through: 20,000, and fewer where there are
# many positions to look at, as each of them looks at those of all parts.
def most_redone(rules):
    positions = sum(positions_in(part) for rule in rules for part in scope.parts_of(rule))
    return min(20000, 10000000 // max(positions, 1))


# ---- What the reply says, held against the file

# The value that a position takes.
def takes(position, values):
    return f'position {position} takes {values[position - 1]}'


# Why a clause is met, by the first atom that shows it, or why it is not.
def clause_verdict(clause, values):
    for k, atom in enumerate(clause.atoms, 1):
        if scope.meets_atom(atom, values):
            return f'met by atom {k}: {takes(atom.position, values)}, in {set_words(atom.values)}'
    failed = [f'{takes(atom.position, values)}, not in {set_words(atom.values)}' for atom in clause.atoms]
    return 'NOT met: ' + ('; '.join(failed) if failed else 'the clause is empty')


# Why an equality is met, or why it is not.
def equality_verdict(equality, values):
    taken = scope.taken(equality.positions, values)
    if taken == equality.values:
        return f'met: the values taken are exactly {set_words(taken)}'
    return f'NOT met: the values taken are {set_words(taken)}, and not exactly {set_words(equality.values)}'


# Whether a position's value is in its starting set.
def start_verdict(start, values):
    if scope.meets(start, values):
        return f'met: {takes(start.position, values)}, in {set_words(start.values)}'
    return f'NOT met: {takes(start.position, values)}, not in {set_words(start.values)}'


# Which positions of an at-most rule take a value in its set, and whether they are too many.
def at_most_verdict(rule, values):
    inside = [position for position in rule.positions if values[position - 1] in rule.values]
    verb = 'take' if len(inside) != 1 else 'takes'
    found = f'{position_words(inside)} {verb} a value of {set_words(rule.values)}'
    if len(inside) <= rule.k:
        return f'met: {found}, and {rule.k} may'
    return f'NOT met: {found}, and no more than {rule.k} may'


# Why a rule is met, or why it is not.
def rule_verdict(rule, values):
    if isinstance(rule, scope.Clause):
        return clause_verdict(rule, values)
    if isinstance(rule, scope.AtMost):
        return at_most_verdict(rule, values)
    return equality_verdict(rule, values) if isinstance(rule, scope.Equality) else start_verdict(rule, values)


# Holds a plan against every rule, as the rule was read. Gives what is wrong.
def check_plan(header, rules, values):
    if len(values) != header.v:
        return [f'the plan has {len(values)} values, and there are {header.v} positions']
    wrong = [f'{takes(position, values)}, which is not 1 to {header.n}'
             for position in range(1, header.v + 1) if not 1 <= values[position - 1] <= header.n]
    if wrong:
        return wrong
    print('the plan:', *values)
    for rule in rules:
        print(f'byte {rule.place}: {rule_verdict(rule, values)}')
        if not scope.meets(rule, values):
            wrong.append(f'the rule at byte {rule.place} is not met')
    print('the plan does NOT meet every rule' if wrong else 'the plan meets every rule')
    return wrong


# Goes through all assignments inside the starting sets in dictionary order, where they are not too many, up to the first
# that meets every rule. This asks what rules mean and nothing of the search. Gives what is wrong.
def check_all(header, rules, values):
    sets = scope.starting_sets(header, rules)
    choices = [sorted(sets[position]) for position in range(1, header.v + 1)]
    many = prod(len(choice) for choice in choices)
    if many > most_redone(rules):
        return []
    first = next((tried for tried in product(*choices) if all(scope.meets(rule, tried) for rule in rules)), ())
    if first == values:
        found = 'this is the first that meets every rule' if first else 'none meets every rule'
        print(f'of all {many} assignments inside the starting sets {found}')
        return []
    return [f'of all {many} assignments the first that meets every rule is {" ".join(map(str, first)) or "none"}']


# Tests what holds for the counts of any file: the splits are allowed; UNDECIDED has used them up; splits leave one
# box more than there are splits, and all of these are dead where the reply is NONE, and else not all.
def check_counts(number, splits, dead_ends):
    wrong = []
    if splits > scope.PROGRAM_SPLITS or number == scope.UNDECIDED and splits < scope.PROGRAM_SPLITS:
        wrong.append(f'{splits} splits, where the program allows {scope.PROGRAM_SPLITS}')
    if number == scope.NONE and dead_ends == splits + 1:
        print('the dead ends are splits + 1, as they are where all boxes are dead')
    elif number == scope.NONE or dead_ends > splits:
        wrong.append(f'{dead_ends} dead ends do not go with {splits} splits')
    return wrong


# Tests what holds for the place of any NONE: there is one exactly if there is no split, and a clause, an equality or
# an at-most rule stands there, since a starting set is never dead.
def check_place(rules, splits, place):
    if splits == 0 and place == 0:
        return ['NONE with no split has a place, and the reply has none']
    wrong = []
    if splits > 0 and place > 0:
        wrong.append(f'NONE with a split has no place, and the reply has {place}')
    if place > 0 and not any(rule.place == place for rule in rules if not isinstance(rule, scope.Start)):
        wrong.append(f'no clause, no equality and no at-most rule starts at byte {place}')
    return wrong


# Tests a reply without redoing the search. Gives what is wrong.
def check_reply(header, rules, reply):
    if reply.number not in KINDS.values():
        return ['the file is not refused'] if header else []
    if not header:
        return ['the file is refused, and the reply is not']
    wrong = check_plan(header, rules, reply.values) if reply.number == scope.PLAN else []
    if not wrong and reply.number != scope.UNDECIDED:
        wrong += check_all(header, rules, reply.values)
    wrong += check_counts(reply.number, reply.splits, reply.dead_ends)
    return wrong + (check_place(rules, reply.splits, reply.place) if reply.number == scope.NONE else [])


# ---- The search redone

# Says which plan is the first, by the search that was redone. Gives what is wrong.
def check_first(values, redone):
    if values == redone.values:
        print('no earlier assignment meets the rules: the search, redone, finds this one first')
    elif redone.number == scope.PLAN:
        print('the first assignment that meets the rules is another:', *redone.values)
    elif redone.number == scope.NONE:
        print('no assignment meets the rules: the search, redone, finds none')
    return ['an earlier assignment meets the rules'] if () < redone.values < values else []


# Says which field is the one first found dead, by the search that was redone; nothing where that gives no place.
def say_first_dead(rules, redone):
    for rule in rules:
        if redone.number == scope.NONE and rule.place == redone.place:
            print(f'byte {rule.place}: the field first found dead is the {field_words(rule)}')


# A line of a reply where it differs, with its end.
def shown(line):
    return 'no such line' if line is None else ascii(line)


# Holds what was printed against what is right, line by line. Gives what is wrong.
def compare(printed, right):
    wrong = []
    for k, (given, redone) in enumerate(zip_longest(lines_of(printed), lines_of(right)), 1):
        if given == redone:
            print(f'line {k} agrees: {given[:-1]}')
        else:
            print(f'line {k} DIFFERS: the reply has {shown(given)}; redone: {shown(redone)}')
            wrong.append(f'line {k} differs')
    return wrong


# Redoes the whole reply. Gives what is wrong, and whether the search was redone to its end.
def redo(file, rules, printed, reply, whole):
    allowed = scope.PROGRAM_SPLITS if whole else most_redone(rules)
    redone = scope.reply(file, scope.LEAST_BUFFER, allowed)
    if redone.number == scope.UNDECIDED and allowed < scope.PROGRAM_SPLITS:
        print(f'the search needs more than {allowed} splits: the counts were NOT redone, nor was it searched for a '
              'plan that is earlier, or for any (--all does both)')
        few = reply and reply.number in KINDS.values() and reply.splits <= allowed
        return [f'the search needs more than {reply.splits} splits'] if few else [], False
    print(f'the reply redone, with {scope.PROGRAM_SPLITS} splits allowed:')
    wrong = check_first(reply.values, redone) if reply and reply.number == scope.PLAN else []
    say_first_dead(rules, redone)
    return wrong + compare(printed, scope.text(redone)), True


# ---- The opinion

# The whole opinion on a file and on what was printed for it; gives the exit status.
def opinion(file, printed, whole):
    header, rules = decode(file)
    reply, wrong = None, []
    try:
        reply = parse(printed)
        print(f'the reply: {lines_of(printed)[0][:-1]}')
        wrong += check_reply(header, rules, reply)
    except Unreadable as unreadable:
        wrong.append(str(unreadable))
    differences, to_its_end = redo(file, rules, printed, reply, whole)
    wrong += differences
    if wrong:
        print(f'the reply does NOT agree with the file: {"; ".join(wrong)}')
        return 1
    if not to_its_end:
        print('nothing speaks against the reply, but it was NOT redone to its end')
        return 3
    print('the reply agrees with the file')
    return 0


# The first bytes of a file, one more than an input may have. The name 0 is standard input.
def bytes_of(name):
    with open(name, 'rb') as opened:
        return opened.read(scope.MOST_BYTES + 1)


# Reads what the command names, and says what is found.
def main():
    command = argparse.ArgumentParser(description='A second opinion on a reply to a rule file.', allow_abbrev=False)
    command.add_argument('--all', action='store_true', help='redo the search whatever it takes')
    command.add_argument('file', metavar='FILE', help='a rule file')
    command.add_argument('reply', metavar='REPLY', help='a file with what the program printed, or - for standard input')
    named = command.parse_args()
    file = bytes_of(named.file)
    printed = bytes_of(0 if named.reply == '-' else named.reply).decode('latin-1')
    status = opinion(file, printed, named.all)
    print(end='', flush=True)
    return status


if __name__ == '__main__':
    try:
        sys.exit(main())
    except OSError as error:
        name = 'standard input or output' if error.filename in (None, 0) else error.filename
        print(f'recheck: {name}: {error.strerror}', file=sys.stderr)
        os._exit(2)
