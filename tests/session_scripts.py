"""Scripts for sessions side by side, and what each of their replies has to be.

Each session has arrays of its own, over which the model tells each reply. All sessions change
two more: `log`, into which each inserts cells of its own, and `counter`, which each counts up.
Of these a reply tells a version, and no two replies may tell the same one.
"""
import re
from collections import namedtuple

from afl_model import Session
from afl_model.schemas import Schema
from file_reader import read_file
from generator import OPERATORS, Generator

LOG = Schema([('v', 'int64', True)], [('k', 0, 1999, 200, 0)])
COUNTER = Schema([('n', 'int64', True)], [('i', 0, 0, 1, 0)])
START = f'create array log {LOG};store(build({COUNTER}, 0), counter)'
MOST_SESSIONS = 16
OWN_PLACES = 125        # places of the log that a session inserts into
OWN_ARRAYS = 5
WEIGHTS = {'store': 28, 'insert': 17, 'query': 28, 'create': 3, 'remove': 3,
           'remove_versions': 3, 'versions': 3, 'show': 2, 'old_version': 2,
           'log': 5, 'count': 3, 'ask_counter': 1, 'ask_log': 2}

# A statement with its reply; or, where other sessions have a part in it, with the form of the
# reply and a test of its groups, which gives a complaint or None.
Step = namedtuple('Step', 'statement reply form test', defaults=(None, None))


class Shared:
    """What replies told of the arrays that all sessions change."""

    def __init__(self):
        self.log, self.counted = {}, {1}    # {version: (place, value)}, versions of the counter
        self.seen, self.asked = {}, []

    def sees(self, session, array, version):
        """A complaint where the session saw a later version of the array before."""
        before = self.seen.get((session, array), 0)
        self.seen[session, array] = max(before, version)
        if version < before:
            return f'version {version} of {array} was seen after {before}'
        return None


class Script:
    """The steps of one session; `model` has its arrays as they stood before, and is changed."""

    def __init__(self, number, rng, model, shared):
        self.number, self.rng, self.model, self.shared = number, rng, model, shared
        self.generator = Generator(rng, model.arrays)
        self.inserted = 0

    def steps(self, count):
        kinds = self.rng.choices(list(WEIGHTS), WEIGHTS.values(), k=count)
        return [self.step(kind) for kind in kinds]

    def step(self, kind):
        made = getattr(self, kind)()
        return made if isinstance(made, Step) else Step(made, self.model.answer(made))

    def any_name(self):
        return f'a{self.number}_{self.rng.randrange(OWN_ARRAYS)}'

    def old_name(self):
        names = sorted(self.model.arrays)
        return self.rng.choice(names) if names and self.rng.random() < .9 else self.any_name()

    def source_for(self, name):
        array = self.model.arrays.get(name)
        if array and self.rng.random() < .8:
            return self.generator.partner(array.schema)
        return self.query()

    def query(self):
        return self.generator.query(self.rng.choice(OPERATORS))

    def store(self):
        name = self.any_name()
        return f'store({self.source_for(name)}, {name})'

    def insert(self):
        name = self.old_name()
        return f'insert({self.source_for(name)}, {name})'

    def create(self):
        dimensions = self.generator.dimensions(self.rng.randint(1, 3))
        return f'create array {self.any_name()} {Schema([("v", "int64", True)], dimensions)}'

    def remove(self):
        return f'remove({self.old_name()})'

    def remove_versions(self):
        return f'remove_versions({self.old_name()}, {self.rng.randint(0, 12)})'

    def versions(self):
        return f'versions({self.old_name()})'

    def show(self):
        return f'show({self.old_name()})'

    def old_version(self):
        return f'{self.old_name()}@{self.rng.randint(1, 12)}'

    def log(self):
        place = self.number * OWN_PLACES + self.rng.randrange(OWN_PLACES)
        self.inserted += 1
        value = self.number * 100000 + self.inserted

        def test(version):
            if int(version) in self.shared.log:
                return 'the version was told before'
            self.shared.log[int(version)] = place, value
            return self.shared.sees(self.number, 'log', int(version))
        return Step(f'insert(filter(build({LOG}, {value}), k={place}), log)', None,
                    r'ok log@(\d+)\n', test)

    def count(self):
        def test(version):
            if int(version) in self.shared.counted:
                return 'the version was told before'
            self.shared.counted.add(int(version))
            return self.shared.sees(self.number, 'counter', int(version))
        return Step('store(project(apply(counter, m, n+1), m), counter)', None,
                    r'ok counter@(\d+)\n', test)

    def ask_counter(self):
        def test(number):
            return self.shared.sees(self.number, 'counter', int(number) + 1)
        return Step('counter', None, r'\{i\} n\n\{0\} (\d+)\n', test)

    def ask_log(self):
        def test(count, total):
            least = self.shared.seen.get((self.number, 'log'), 0)
            self.shared.asked.append((least, int(count), total))
        return Step('aggregate(log, count(*), sum(v))', None,
                    r'\{i\} count,v_sum\n\{0\} (\d+),(\d+|null)\n', test)


def new_models(count):
    return [Session() for _ in range(count)]


def script_text(steps):
    return ';'.join(step.statement for step in steps)


def check_replies(steps, text, cut=False):
    """How many replies the text has, and a complaint or None; the last may be cut off."""
    at = 0
    for answered, step in enumerate(steps):
        rest = text[at:at + len(step.reply)] if step.reply is not None else text[at:]
        match = None if step.reply is not None else re.match(step.form, rest)
        if rest == step.reply:
            at += len(rest)
        elif match:
            complaint = step.test(*match.groups())
            if complaint:
                return answered, f'{step.statement}: {complaint}'
            at += match.end()
        elif cut and (step.reply or '').startswith(rest) or cut and '\n' not in rest:
            return answered, None
        else:
            return answered, (f'{step.statement}\n  model   {(step.reply or step.form)[:300]!r}'
                              f'\n  program {text[at:at + 300]!r}')
    return len(steps), None if at == len(text) else f'more: {text[at:at + 300]!r}'


def own_differences(model, number, database):
    """What differs between a session's arrays by the model and those in the file."""
    prefix = f'a{number}_'
    found = {name: a for name, a in database.arrays.items() if name.startswith(prefix)}
    if found.keys() != model.arrays.keys():
        return [f'session {number} has the arrays {sorted(found)}, not {sorted(model.arrays)}']
    return [f'{name} differs' for name, array in model.arrays.items()
            if (str(array.schema), array.next, array.versions)
            != (str(found[name].schema), found[name].next, found[name].versions)]


def shared_differences(shared, database):
    """What differs between the shared arrays in the file and what replies told of them."""
    counter, log = database.arrays['counter'], database.arrays['log']
    if sorted(counter.versions) != list(range(1, counter.next)):
        yield f'the counter has the versions {sorted(counter.versions)}'
    for version, cells in counter.versions.items():
        if cells != {(0,): [version - 1]}:
            yield f'counter@{version} is {cells}'
    if sorted(log.versions) != list(range(1, log.next)):
        yield f'the log has the versions {sorted(log.versions)}'
    for version, (place, value) in shared.log.items():
        expected = {**log.versions.get(version - 1, {}), (place,): [value]}
        if log.versions.get(version) != expected:
            yield f'log@{version} is not the version before with {value} at {place}'
    if not shared.counted <= counter.versions.keys():
        yield 'the file has not each version of the counter that was told'


def unseen_totals(shared, database):
    """The answers over the log that are those of no version that the session could see."""
    totals = {(0, 'null'): 0}       # to the last version that has these totals
    for version, cells in sorted(database.arrays['log'].versions.items()):
        totals[len(cells), str(sum(cell[0] for cell in cells.values()))] = version
    for least, count, total in shared.asked:
        if totals.get((count, total), -1) < least:
            yield f'no version of the log from {least} on has {count} cells of sum {total}'
    shared.asked.clear()


def read_database(program):
    return read_file(program.file('DB'))
