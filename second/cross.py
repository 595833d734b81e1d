"""Runs both engines on seeded random calls of the second program's generator, all in one text, and holds what is printed to
as many calls as there are, all alike.

Usage: second/cross.py SEED COUNT COMMAND.., from anywhere, where COMMAND reads calls as `./bublastyr cross` does; out/second/second
must be built. The same seed gives the same calls.
"""

import random
import subprocess
import sys

from compare import generated_calls, text_of

if len(sys.argv) < 4:
    sys.exit("usage: second/cross.py SEED COUNT COMMAND..")
seed, count, command = int(sys.argv[1]), int(sys.argv[2]), sys.argv[3:]
chance = random.Random(seed)
calls = generated_calls(seed, count)
if len(calls) < count:
    sys.exit(f"cross: only {len(calls)} calls were generated")
text = b"\n".join(text_of(chance, call) for call in calls)
ran = subprocess.run(command, input=text, capture_output=True, check=False)
expected = f"calls {count} alike {count}\n".encode()
if ran.stdout != expected or ran.returncode != 0:
    sys.exit(f"cross: seed {seed}: printed {ran.stdout!r} {ran.stderr!r} and exited with {ran.returncode}, not {expected!r} and 0")
print(f"cross: {count} calls of seed {seed} came out alike by both engines")
