# Makes the stored output of `reading`: for each of its files SOUND with v and n, or the refusal. The bytes of the
# files are taken from the list that `reading` reads, but for the long files, which it makes in steps.
import pathlib

import scope
from writing import at_most, field, header, start

LIST = pathlib.Path(__file__).resolve().parent.parent / 'crates' / 'reading' / 'stdin'


# The files of the list, by their numbers: the bytes in decimal behind the last colon of each line that has one.
def short_files():
    lines = [line for line in LIST.read_text(encoding='utf-8').splitlines() if ':' in line]
    return {number: bytes(map(int, line.rpartition(':')[2].split())) for number, line in enumerate(lines, 1)}


# The long files, by their numbers: an equality of 64 positions, clauses of atoms whose five bytes are all 1, a starting
# set for each of 64 positions (02, R-6), and an at-most rule of 64 positions (02, R-12).
def long_files():
    equality = bytes([1] * 67)
    clause = header(1, 32) + field(2, bytes([1] * 260))
    longest = header(1, 32) + field(2, bytes([1] * 5 * 6552))
    started = header(64, 1) + b''.join(start(position, {1}) for position in range(1, 65))
    return {
        308: header(64, 32) + field(3, equality + bytes([64])),
        309: header(64, 32) + field(3, equality + bytes([64, 1])),
        310: header(64, 32) + field(3, equality + bytes([65])),
        311: clause,
        312: clause + bytes([1]),
        313: longest,
        314: longest[:-5] + bytes([2]) + longest[-4:],
        315: started,
        316: started + start(1, {1}),
        317: started + start(64, {1}),
        318: started + start(64, set()),
        319: header(64, 2) + at_most(1, {1}, *range(1, 65)),
        320: header(64, 2) + at_most(1, {1}, *range(1, 65), 1),
        321: header(64, 2) + at_most(1, {1}, *range(1, 64), 1),
        322: header(64, 2) + at_most(1, {1}, *range(1, 64), 63),
        323: header(64, 2) + at_most(1, {1}, *range(1, 63), 1, 65),
    }


# What is printed of a file after its number.
def verdict(file):
    try:
        header, rules = scope.read(file)
        return f'SOUND {header.v} {header.n}'
    except scope.Refused as refused:
        return f'REFUSED {refused.number} {refused.place}'


files = {**short_files(), **long_files()}
for number in sorted(files):
    print(number, verdict(files[number]))
