#!/usr/bin/env python3
"""Arrays through CSV and back, and scripts that end in their midst.

    examples/round_trips.py AFLSHELL CSV2AFL [COUNT [SEED]]

Makes so many random arrays (20), of one to three dimensions, with texts, numbers and truths, nulls of
every code among them, as csv+ spells them. Each is loaded, printed, loaded again and printed again; both
prints have just the cells that were made, in row-major order. Then a line that doesn't fit is put into
the midst, and the array has to stay as it was.
"""
import csv
import io
import os
import random
import subprocess
import sys
import tempfile

program, loader = map(os.path.realpath, sys.argv[1:3])
count = int(sys.argv[3]) if len(sys.argv) > 3 else 20
random.seed(int(sys.argv[4]) if len(sys.argv) > 4 else 1)
# Bytes are written and read as the characters of their numbers.
CODE = 'latin-1'
LETTERS = "abc,\"'\\ \n\r\t?-;[]()<>%" + ''.join(map(chr, range(128, 256)))


def null():
    return random.choice(['null', '?%d' % random.randint(1, 127)])


def text():
    letters = (random.choice(LETTERS) for _ in range(random.randint(0, random.choice([3, 12, 400]))))
    return "'" + ''.join(letters).replace('\\', '\\\\').replace("'", "\\'") + "'"


def number():
    return str(random.choice([0, 1, -1, 2**63 - 1, 1 - 2**63, random.randint(-10**9, 10**9)]))


KINDS = [('string', text), ('int64', number), ('bool', lambda: random.choice(['true', 'false']))]


def array():
    """The names of the columns, the schema, and the cells in row-major order."""
    dimensions, parts = [], []
    for name in 'xyz'[:random.randint(1, 3)]:
        low = random.randint(-50, 50)
        high = low + random.choice([30, 400, 10**6])
        dimensions.append((name, low, high))
        end = random.choice([str(high), '*'])
        parts.append('%s=%d:%s,%d,%d' % (name, low, end, random.choice([10, 50, 1000]), random.randint(0, 2)))
    attributes = [('a%d' % at, *random.choice(KINDS), random.random() < .3) for at in range(random.randint(1, 4))]
    schema = '<%s>[%s]' % (','.join(n + ':' + kind + (' not null' if full else '') for n, kind, _, full in attributes),
                           ','.join(parts))
    cells = {}
    for _ in range(random.choice([0, 1, 2, 50, 500, random.choice([3000, 12000])])):
        place = tuple(random.randint(low, high) for _, low, high in dimensions)
        cells[place] = [null() if not full and random.random() < .2 else make() for _, _, make, full in attributes]
    names = [name for name, _, _ in dimensions] + [name for name, _, _, _ in attributes]
    return names, schema, [list(map(str, place)) + cells[place] for place in sorted(cells)]


def spelled(records):
    out = io.StringIO(newline='')
    csv.writer(out).writerows(records)
    return out.getvalue().encode(CODE)


def run(database, script):
    return subprocess.run([program, 'run', database, '--format', 'csv+', '-'], input=script, capture_output=True)


def load(database, schema, data, *options):
    made = subprocess.run([loader, *options, 'a', schema], input=data, capture_output=True)
    return made, run(database, made.stdout)


def check(holds, *what):
    if not holds:
        print('round_trips:', *what, file=sys.stderr)
        sys.exit(1)


def go_round(database, schema, names, cells, data):
    subprocess.run([program, 'init', database], check=True)
    rows = random.choice(['100000', '3000', '700'])
    made, done = load(database, schema, data, '--create', '--rows', rows)
    check(made.returncode == 0 and done.returncode == 0, schema, made.stderr, done.stdout[-300:])
    answer = run(database, b'a;').stdout
    read = list(csv.reader(io.StringIO(answer.decode(CODE), newline='')))
    check(read == [names] + cells, schema, 'has other cells', len(read) - 1, len(cells))
    listed = run(database, b"list('arrays');").stdout
    check(listed.count(b'\n') == 2, 'more arrays than one stand', listed)
    return answer


def end_midway(database, schema, names, cells, answer):
    """A line that doesn't fit, behind many that do: the array stays as it was."""
    wrong = [['lost'] * len(names)]
    made, done = load(database, schema, spelled([names] + cells + wrong))
    check(made.returncode == 1 and b': line ' in made.stderr, 'no line is told', made.stderr)
    check(made.stdout == b'' or made.stdout.endswith(b';\n'), 'the script ends within a statement')
    check(done.returncode == 0, 'a part of a script is refused', done.stdout[-300:])
    check(run(database, b'a;').stdout == answer, 'a script that ended in its midst changed the array')
    check(run(database, b"list('arrays');").stdout.count(b'\n') == 2, 'a staging array is left')


total = 0
with tempfile.TemporaryDirectory() as room:
    os.chdir(room)
    for turn in range(count):
        names, schema, cells = array()
        shuffled = random.sample(cells, len(cells))
        data = spelled([names] + shuffled)
        first = go_round('first%d' % turn, schema, names, cells, data)
        again = go_round('again%d' % turn, schema, names, cells, first)
        check(again == first, schema, 'is printed otherwise')
        end_midway('first%d' % turn, schema, names, cells, first)
        os.remove('first%d' % turn)
        os.remove('again%d' % turn)
        total += len(cells)
print('round_trips: %d arrays of %d cells went through csv+ and came back' % (count, total))
