# Makes the stored output of `bench_examples`: 01's examples, files that tell readings of the place of a NONE (02, R-3),
# of the rounds (02, R-10), of step 4 (02, R-2), of starting sets (02, R-6), of at-most rules (02, R-12) and of rules added
# late (02, R-14) apart, and the ceilings, with the replies of the model. 01's "bytes from v on stay; all other replies write nothing" is the word
# `kept` at the end of each line. Behind the line of a call stands what the program prints for the file, in which the
# rounds are not.
import scope
from writing import at_most, clause, equality, field, header, start

CASE_E = header(2, 2) + equality({1, 2}, 1, 2)
CASE_H = header(3, 3) + equality({1, 2, 3}, 1, 2, 3)
CASE_L = header(3, 2) + b''.join(clause((2, {x}), (3, {y})) for x in (1, 2) for y in (1, 2))
ROUND_TWO = header(2, 2) + clause((1, {2}), (2, {1})) + clause((1, {1})) + clause((2, {2}))
AFTER_A_SPLIT = header(2, 3) + clause((1, {1, 2, 3})) + equality({1, 2, 3}, 1, 2)
AT_THE_BOUND = header(3, 2) + clause((2, {1}), (3, {2})) + clause((1, {1}), (2, {2})) + clause((1, {2}))
ROUNDS_THEN_SPLIT = header(3, 2) + clause((1, {2})) + clause((2, {1}), (3, {1}))
START_SPLIT = header(2, 4) + start(1, {2, 4}) + start(2, {2, 4}) + equality({2, 4}, 1, 2)
START_ONE_EACH = CASE_E + start(1, {1}) + start(2, {2})
START_AT_THE_BOUND = (header(3, 4) + clause((2, {2}), (3, {4})) + clause((1, {1}), (2, {4})) + clause((1, {3}))
                      + start(1, {1, 3}) + start(2, {2, 4}) + start(3, {1, 4}))
START_64_32 = header(64, 32) + start(64, {32})
START_BEHIND = header(2, 3) + clause((1, {1})) + start(1, {2, 3})
GAPS = start(1, {1, 3, 5}) + start(2, {2, 4})
ONE_START = header(2, 2) + start(1, {1})
TWO_BUSES = header(3, 2) + at_most(1, {1}, 1, 2, 3) + at_most(1, {2}, 1, 2, 3)
ONE_PAIR = header(5, 3) + equality({1, 2, 3}, 2, 5)
ONE_PAIR_LONGER = ONE_PAIR + at_most(1, {2}, 1, 3, 4, 5)
ONE_POSITION = header(1, 2) + clause((1, {1})) + clause((1, {2}))
TO_ADD_TO = header(2, 3) + clause((1, {2, 3})) + clause((1, {3}), (2, {3}))
AT_MOST_ROUNDS = header(3, 2) + at_most(1, {2}, 2, 3) + at_most(0, {1}, 1, 2)
# A file of 32,768 bytes: v 1, n 32, and 6552 atoms whose five bytes are all 1.
LONGEST = header(1, 32) + field(2, bytes([1] * 5 * 6552))


# The line of one call: the name, the reply's five numbers, the values of a plan.
def show(name, file, allowance=1000000, lent=70):
    number, place, splits, dead_ends, rounds, values = scope.reply(file, lent, allowance)
    print(name, number, place, splits, dead_ends, rounds, *values, 'kept')
    print(scope.printed(file), end='')


# The line of the most rounds of an input: the name and the number.
def show_most(name, file):
    print(name, scope.rounds_most(file))


# The starred cases.
show('a', header(3, 2) + clause((1, {2}), (2, {2}), (3, {1})) + clause((1, {1}), (2, {1})) + clause((3, {2}))
     + clause((1, {2}), (2, {1})))
show('b', header(4, 2) + clause((1, {2}), (2, {1}), (3, {1}), (4, {1})) + clause((2, {2}), (4, {1}))
     + clause((3, {2}), (4, {1})) + clause((4, {2})))
show('c', header(2, 3))
show('d', header(2, 3) + clause())
show('e', CASE_E)
show('f', CASE_E, 0)
show('g', header(2, 3) + equality({1, 2, 3}, 1, 2))
show('h', CASE_H)
show('i', CASE_H, 2)
show('j', header(2, 3) + clause((1, {2, 3})) + clause((1, {1}), (2, {3})))
show('k', header(2, 2) + clause((1, {1}), (2, {1})))
show('l', CASE_L)

# the field first found dead. A round goes on behind a cut, to the last field; the next round starts at the first;
# and a NONE with no split has its place with allowance 0 too.
show('dead-at-the-last-field', header(2, 2) + clause((1, {1}), (2, {1})) + clause((1, {2})) + clause((2, {2}))
     + clause((2, {1})))
show('dead-in-round-two', ROUND_TWO)
show('dead-in-round-two-allowance-0', ROUND_TWO, 0)
# Of two fields that are dead from the start the first is told; in round two, the one between those that cut.
show('two-dead-fields', header(2, 2) + clause((1, {1})) + clause((2, set())) + clause())
show('middle-field-in-round-two', header(3, 2) + clause((3, {1})) + clause((1, {1}), (2, {1}))
     + clause((1, {2}), (3, {2})) + clause((2, {2})))
# Value 1 cuts the room of the only position, and value 2 finds it without that value: dead before the empty clause is.
show('equality-dead-by-its-own-cut', header(1, 2) + equality({1, 2}, 1) + clause())
# Value 1 cuts room 1, and so value 2 cuts room 2 in the same look: the last clause is dead in round one. Then the other
# way round: value 2 cuts room 1, and value 1, already passed, is first dead in round two.
show('equality-cuts-at-once', header(3, 3) + clause((1, {1, 2})) + clause((2, {2, 3})) + clause((3, {3}))
     + equality({1, 2, 3}, 1, 2, 3) + clause((2, {3})))
show('equality-once-in-a-round', header(3, 3) + clause((1, {1, 2})) + clause((2, {1, 3})) + clause((3, {3}))
     + equality({1, 2, 3}, 1, 2, 3) + clause((2, {3})))
# Both halves are dead at the equality, at byte 13: a NONE with a split has place 0, and so has UNDECIDED.
show('dead-after-a-split', AFTER_A_SPLIT)
show('dead-after-a-split-allowance-0', AFTER_A_SPLIT, 0)

# the rounds of the first box. A header alone takes the one round that changes nothing. Where every round but the
# last cuts a single value, and the rooms end with one value each, the rounds are as many as there can be.
show('rounds-header-alone', header(64, 32))
show('rounds-at-the-bound', AT_THE_BOUND)
# UNDECIDED has the rounds of the first box, and so has the PLAN that is found behind a split.
show('rounds-undecided', ROUNDS_THEN_SPLIT, 0)
show('rounds-of-the-first-box', ROUNDS_THEN_SPLIT)
# The round that finds a dead field counts.
show('rounds-dead-at-once', header(2, 2) + clause())
# The first box takes one round, and the one behind the split, where the plan is, three.
show('rounds-last-box-takes-more', header(3, 2) + clause((2, {1}), (3, {1})) + clause((1, {1}), (2, {2}))
     + clause((1, {2}), (3, {2})))
# Both cuts of the room are made in one round, so it takes one round fewer than the most.
show('rounds-most-one-room', header(1, 3) + clause((1, {2, 3})) + clause((1, {3})))
# The most rounds, which are known before the search: those of the header, and 0 for what is refused.
show_most('most-header-alone', header(64, 32))
show_most('most-at-the-bound', AT_THE_BOUND)
show_most('most-one-value', header(64, 1))
show_most('most-refused', header(65, 32))
show_most('most-empty', b'')
show_most('most-32768', LONGEST)
show_most('most-32773', header(1, 32) + field(2, bytes([1] * 5 * 6553)))

# Step 4 (02, R-2): case l with no split allowed; files whose position 1 has two values or more and is not split, for
# the reason in the name; and one whose lowest live position stands in the later clause.
show('l-allowance-0', CASE_L, 0)
show('own-set', header(3, 2) + clause((1, {1, 2})) + clause((2, {1}), (3, {1})))
show('own-sets-united', header(3, 2) + clause((1, {1}), (1, {2}), (2, {1})) + clause((2, {2}), (3, {1})))
show('settled-by-another', header(3, 3) + clause((2, {1, 2})) + clause((1, {1}), (2, {1, 2}))
     + clause((2, {1}), (3, {1})))
show('named-and-not-live', header(3, 3) + clause((1, {2, 3})) + clause((1, {1}), (2, {1}), (3, {1})))
show('values-settled', header(5, 3) + clause((1, {1, 2})) + clause((2, {1})) + clause((3, {2}))
     + equality({1, 2, 3}, 1, 2, 3, 4, 5))
show('later-clause', header(3, 2) + clause((2, {1}), (3, {1})) + clause((1, {2}), (2, {2})))

# Starting sets (02, R-6). They count from the start wherever they stand, and are never dead themselves.
show('start-behind', START_BEHIND)
show('start-in-front', header(2, 3) + start(1, {2, 3}) + clause((1, {1})))
show('start-alone', header(2, 3) + start(2, {3}) + start(1, {2, 3}), 0)
show('start-64-32', START_64_32, 0)
# What is live, inside or dead is judged by the rooms inside them.
show('start-not-live', header(2, 3) + clause((1, {1}), (2, {1})) + start(1, {2, 3}), 0)
show('start-inside', header(3, 3) + clause((1, {2, 3})) + clause((1, {2, 3}), (2, {1})) + start(1, {2, 3}), 0)
show('start-outside-the-equality', header(2, 3) + clause((2, {1, 2})) + equality({1, 2}, 1, 2) + start(1, {3}))
show('start-without-a-value', CASE_H + start(1, {1, 2}) + start(2, {1, 2}) + start(3, {1, 2}))
# Splits are of starting values alone, and never as many as the product of the starting sizes.
show('start-split', START_SPLIT)
show('start-split-allowance-0', START_SPLIT, 0)
show('start-l', header(3, 4) + b''.join(clause((2, {x}), (3, {y})) for x in (2, 4) for y in (2, 4))
     + start(2, {2, 4}) + start(3, {2, 4}))
show('start-one-value-each', START_ONE_EACH, 0)
show_most('start-most-one-value-each', START_ONE_EACH)
show('start-rounds-at-the-bound', START_AT_THE_BOUND, 0)
show_most('start-most-at-the-bound', START_AT_THE_BOUND)
# The special kind, judged by starting sets with gaps, with v splits allowed.
show('start-gaps-plan', header(2, 5) + clause((1, {1, 3}), (2, {4})) + clause((1, {3, 5}), (2, {2})) + GAPS, 2)
show('start-gaps-none', header(2, 5) + clause((1, {1}), (2, {2})) + clause((1, {1, 3}), (2, {4})) + clause((1, {5}))
     + GAPS, 2)
# The most rounds.
show_most('start-most-64-32', START_64_32)
show_most('start-most-behind', START_BEHIND)
show_most('start-most-26', header(2, 2) + start(1, set()))
show_most('start-most-27', ONE_START + start(1, {1}))
# What is refused in a starting set, and in a second one for the same position.
show('start-19-before-20', header(2, 2) + start(3, {3}))
show('start-17', header(2, 2) + field(4, b'\x01\x00\x00\x00\x01\x00'))
show('start-13', header(2, 2) + start(3, {1})[:-1])
show('start-26-before-27', ONE_START + start(1, set()))
show('start-27-same-set', ONE_START + start(1, {1}))
show('start-27-another-set', ONE_START + start(1, {2}))
show('start-20-before-27', ONE_START + start(1, {3}))

# At most k positions in a set (02, R-12). Two buses for three generators that may each have one, and no split allowed.
show('at-most-two-buses', TWO_BUSES)
show('at-most-two-buses-allowance-0', TWO_BUSES, 0)
# Exactly k rooms inside the set: a wide room counts too, and one look counts first and then cuts all others that meet
# the set, in whatever order they are named. With fewer inside nothing is cut.
show('at-most-wide-room-inside', header(2, 3) + start(1, {1, 2}) + at_most(1, {1, 2}, 1, 2), 0)
show('at-most-all-in-one-look', header(4, 3) + clause((4, {2})) + at_most(1, {2, 3}, 1, 2, 3, 4), 0)
show('at-most-not-rising', header(4, 3) + clause((4, {2})) + at_most(1, {2, 3}, 2, 4, 1), 0)
show('at-most-one-apart', header(3, 3) + clause((3, {3})) + start(1, {2}) + at_most(1, {1, 3}, 1, 2, 3), 0)
show('at-most-not-k-yet', header(3, 2) + clause((3, {1})) + at_most(2, {1}, 1, 2, 3), 0)
# More than k rooms inside: dead at the field, in the round in which it is looked at with them. A rule behind it may be
# dead because of what it cut.
show('at-most-dead', header(3, 2) + clause((1, {1})) + clause((3, {1})) + at_most(1, {1}, 1, 2, 3))
show('at-most-dead-behind-it', header(3, 2) + clause((1, {1})) + at_most(1, {1}, 1, 2, 3) + clause((3, {1})))
show('at-most-dead-in-round-two', header(3, 2) + at_most(1, {1}, 1, 3) + clause((1, {1})) + clause((3, {1})))
show('at-most-dead-by-wide-rooms', header(2, 3) + start(1, {1, 2}) + start(2, {2, 3}) + at_most(1, {1, 2, 3}, 1, 2))
# k 0, k as large as the number of positions, k 255, the empty set, no positions.
show('at-most-0', header(2, 3) + at_most(0, {1}, 1, 2), 0)
show('at-most-0-full-set', header(2, 2) + clause((1, {1})) + at_most(0, {1, 2}, 2))
show('at-most-2-of-2', header(2, 3) + at_most(2, {1}, 1, 2), 0)
show('at-most-255', header(2, 3) + at_most(255, {1, 2, 3}, 1, 2), 0)
show('at-most-0-empty-set', header(2, 3) + at_most(0, set(), 1, 2), 0)
show('at-most-0-no-positions', header(2, 3) + at_most(0, {1, 2, 3}), 0)
# Step 4: while the field is unsettled a room that meets the set is live, one inside it too, but a room of one value is not
# split; a room apart from the set is not live, and nor is any room of a settled field.
show('at-most-one-value', header(4, 3) + start(1, {3}) + at_most(2, {3}, 1, 2, 3, 4))
show('at-most-split-inside', header(3, 3) + start(1, {1, 2}) + start(2, {1, 3}) + start(3, {1, 3})
     + at_most(2, {1, 2}, 1, 2, 3))
show('at-most-not-live', header(3, 3) + start(1, {2, 3}) + at_most(1, {1}, 1, 2, 3))
show('at-most-not-named', header(3, 2) + at_most(1, {1}, 3, 2))
show('at-most-settled', header(2, 3) + start(2, {3}) + at_most(1, {1, 2}, 1, 2), 0)
# The lowest live position stands in the at-most rule: one split is no longer enough.
show('at-most-none', ONE_PAIR, 1)
show('at-most-undecided', ONE_PAIR_LONGER, 1)
# All 64 positions.
show('at-most-1-of-64', header(64, 2) + at_most(1, {1}, *range(1, 65)))
show('at-most-63-of-64', header(64, 2) + at_most(63, {1}, *range(1, 65)))
# The rounds: a round that cuts two rooms in one look is one, and so they are fewer than the most.
show('at-most-rounds', AT_MOST_ROUNDS, 0)
show_most('at-most-most', AT_MOST_ROUNDS)
show_most('at-most-most-36', header(2, 2) + at_most(1, {1}, 1, 1))

# A rule added at the end (02, R-14). A NONE can become UNDECIDED, where the lowest live position stands in the rule that
# was added, and is NONE again with enough splits.
show('added-none', ONE_PAIR, 1)
show('added-none-undecided', ONE_PAIR_LONGER, 1)
show('added-none-decided', ONE_PAIR_LONGER)
# Its place can move, also to a field in front.
show('added-place', ONE_POSITION)
show('added-place-moves', ONE_POSITION + start(1, {2}))
# A plan with no split allowed, with the one that it needs, and with the most.
show('added-plan-allowance-0', TO_ADD_TO, 0)
show('added-plan-allowance-1', TO_ADD_TO, 1)
show('added-plan', TO_ADD_TO)
# It stays, gives way to a later one, which has a lower value at position 2, or there is none: by a rule of each tag.
show('added-clause-stays', TO_ADD_TO + clause((2, {1, 3})))
show('added-clause-later', TO_ADD_TO + clause((2, {1, 2})))
show('added-clause-none', TO_ADD_TO + clause((1, {1})))
show('added-equality-stays', TO_ADD_TO + equality({2, 3}, 1, 2))
show('added-equality-later', TO_ADD_TO + equality({1, 3}, 1, 2))
show('added-equality-none', TO_ADD_TO + equality({1, 2}, 1, 2))
show('added-start-stays', TO_ADD_TO + start(2, {2, 3}))
show('added-start-later', TO_ADD_TO + start(1, {1, 3}))
show('added-start-none', TO_ADD_TO + start(1, {1}))
show('added-at-most-stays', TO_ADD_TO + at_most(1, {3}, 1, 2))
show('added-at-most-later', TO_ADD_TO + at_most(1, {2, 3}, 1, 2))
show('added-at-most-none', TO_ADD_TO + at_most(0, {2, 3}, 1, 2))

# What is refused in a file, and what is not.
show('empty-input', b'')
show('bytes-01-00', b'\x01\x00')
show('v-65', header(65, 32))
show('v-64-n-32', header(64, 32))
show('second-header', header(2, 2) + header(2, 2))
show('clause-length-4', header(2, 2) + field(2, b'\x01\x00\x00\x00'))
show('clause-set-4', header(2, 2) + clause((1, {3})))
show('equality-set-4', header(2, 2) + equality({3}, 1))
# What is refused in an at-most rule: 17, 13, 20, 19, 36 in this order. Tag 6 is not known.
show('at-most-17', header(2, 2) + field(5, b'\x01\x00\x00\x00'))
show('at-most-13', header(2, 2) + at_most(1, {3}, 1, 2)[:-1])
show('at-most-20', header(2, 2) + at_most(1, {3}, 3))
show('at-most-19', header(2, 2) + at_most(1, {1}, 3, 3))
show('at-most-36', header(2, 2) + at_most(1, {1}, 1, 1))
show('at-most-19-before-36', header(2, 2) + at_most(1, {1}, 1, 1, 3))
show('tag-6', header(2, 2) + field(6, b'\x01\x00\x00\x00\x01'))

# The ceilings, and the order of their refusals.
show('input-32769', LONGEST + b'\x01')
show('input-32768', LONGEST)
show('buffer-63', header(64, 32), lent=63)
show('buffer-0', header(64, 32), lent=0)
show('buffer-64', header(64, 32), lent=64)
show('allowance-1000001', CASE_E, 1000001)
show('10-before-11-12', bytes(32769), 1000001, 63)
show('10-before-11', bytes(32769), lent=63)
show('10-before-12', bytes(32769), 1000001)
show('11-before-12-14', b'', 1000001, 63)
show('11-before-12', header(2, 3), 1000001, 63)
show('11-before-14', b'', lent=63)
show('12-before-14', b'', 1000001)
show('12-before-13', b'\x01\x00', 1000001)
