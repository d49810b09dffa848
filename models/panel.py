# Makes the stored output of `panel`: the set arithmetic of the front panel (01, the ceilings), on Python's sets of
# the numbers 1 to 32. A set stands in a line as its mask, which repeated division takes apart.
from scope import MOST_VALUES, set_of
from writing import mask_of

# The sets and the numbers that `panel` tries.
MASKS = [
    0x00000000, 0xffffffff, 0x00000001, 0x00000002, 0x80000000, 0x40000000, 0x80000001, 0x00000003, 0x7fffffff,
    0x55555555, 0xaaaaaaaa, 0x0000f00f, 0xdeadbeef, 0x12345678, 0x00000005, 0x0000ffff, 0xffff0000, 0x00018000,
    0xfffffffe, 0xc0000000,
]
NUMBERS = [0, 1, 2, 3, 16, 31, 32, 33, 4294967295]


# {1..n}; empty where n is not 1..32.
def full(n):
    return set(range(1, n + 1)) if 1 <= n <= MOST_VALUES else set()


# The value x alone; empty where x is not 1..32.
def single(x):
    return {x} if 1 <= x <= MOST_VALUES else set()


# The complement within {1..n}; empty where n is not 1..32.
def complement(values, n):
    return full(n) - values


# The smallest value; 0 for an empty set.
def smallest(values):
    return min(values) if values else 0


# The lines of one number: as the size of a set, and as its only value.
def try_number(n):
    print('full', n, mask_of(full(n)))
    print('single', n, mask_of(single(n)))


# The lines of one set: alone, within each number, and with each set.
def try_set(mask):
    values = set_of(mask)
    print('count', mask, len(values))
    print('smallest', mask, smallest(values))
    for n in NUMBERS:
        print('complement', mask, n, mask_of(complement(values, n)))
    for other in MASKS:
        try_pair(mask, other)


# The lines of two sets: union, common part, inside or not.
def try_pair(a, b):
    first, second = set_of(a), set_of(b)
    print('union', a, b, mask_of(first | second))
    print('common', a, b, mask_of(first & second))
    print('inside', a, b, 'true' if first <= second else 'false')


for number in NUMBERS:
    try_number(number)
for mask in MASKS:
    try_set(mask)
