# Writes rule files from 01's section "The rule file" and 02's: `header(2, 2) + equality({1, 2}, 1, 2)` is
# case e.

# The number that stands for a set: the lowest bit stands for value 1.
def mask_of(values):
    return sum(2 ** (value - 1) for value in values)


# A four-byte set, high byte first.
def set_bytes(values):
    return mask_of(values).to_bytes(4, 'big')


# A field: a tag byte, a two-byte length, high byte first, then the content.
def field(tag, content):
    return bytes([tag]) + len(content).to_bytes(2, 'big') + content


# A header for v positions and n values.
def header(v, n):
    return field(1, bytes([v, n]))


# A clause of atoms, each a position and a set.
def clause(*atoms):
    return field(2, b''.join(bytes([position]) + set_bytes(values) for position, values in atoms))


# The equality of a set with the values of the named positions.
def equality(values, *positions):
    return field(3, set_bytes(values) + bytes(positions))


# The starting set of a position (02, R-6).
def start(position, values):
    return field(4, bytes([position]) + set_bytes(values))


# At most k of the named positions take a value in the set (02, R-12).
def at_most(k, values, *positions):
    return field(5, bytes([k]) + set_bytes(values) + bytes(positions))
