# Makes the stored output of `deep`: the file whose search is nearly as deep as one can be, planned by the model.
import scope
from writing import clause, header

# v 64, n 32: [p{32} q{1}] and [p{32} q{2}] for each p from 1 to 63, where q is 64, and [q{1,2}] at the end.
file = header(64, 32)
for p in range(1, 64):
    file += clause((p, {32}), (64, {1})) + clause((p, {32}), (64, {2}))
file += clause((64, {1, 2}))

# The reply's five numbers, then the 64 bytes of the answer, which were 0 before.
number, place, splits, dead_ends, rounds, values = scope.reply(file, 64, 1000000)
print(number, place, splits, dead_ends, rounds, *values, *[0] * (64 - len(values)))
