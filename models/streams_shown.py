# Makes the stored output of `streams_shown`: what becomes of each input in a buffer of so many bytes. An input that
# is shorter than the buffer is whole; one that fills it is too long; a folder, or a file that is open for writing alone, cannot be read.
import pathlib
import sys

DATA = pathlib.Path(__file__).resolve().parent.parent / 'crates' / 'streams_shown' / 'data'


# The line of one input: its name, and what becomes of it.
def show(name, given, room=16):
    print(name + ': ' + (f'whole {len(given)} <{given.decode()}>' if len(given) < room else 'too long'))


for name in ('short', 'one_less', 'as_long', 'longer', 'empty'):
    show(name, (DATA / name).read_bytes())
print('.: failed')
show('short, no room', (DATA / 'short').read_bytes(), 0)
show('empty, no room', (DATA / 'empty').read_bytes(), 0)
print('short, closed: failed')
show('standard input', sys.stdin.buffer.read())
