# Prints what the program prints for the rule file on standard input, and on standard error what it says of a NONE with
# a place.
import sys

import scope

reply = scope.program_reply(sys.stdin.buffer.read(scope.MOST_BYTES + 1))
sys.stdout.write(scope.text(reply))
if scope.why_none(reply):
    print('oarloom:', scope.why_none(reply), file=sys.stderr)
