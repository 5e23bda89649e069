"""Statements: what they answer, and what they change in the stored arrays."""
from . import cellwise, groups, orders, pairs  # noqa: F401 (their operators register themselves)
from .arguments import is_name, is_number, is_text, number_of, want_sort
from .expressions import CHANGES
from .parsing import parse, split_script
from .plans import coordinates, fit_nulls, is_hollow, meet, plan, refuse_faults
from .schemas import written_schema
from .values import Refusal, TypeRefusal, quote, show, show_coordinate

COUNTS = {'store': 2, 'insert': 2, 'remove_versions': 2}


class StoredArray:
    """An array that is stored: its schema, its versions, and the number of the next one."""

    def __init__(self, schema):
        self.schema, self.next, self.versions = schema, 1, {}

    @property
    def newest(self):
        return max(self.versions, default=0)

    def add(self, cells):
        self.versions[self.next] = cells
        self.next += 1
        return self.next - 1


class Session:
    """Answers statements; `arrays` has what they store, by name."""

    def __init__(self, trace=False):
        self.arrays, self.trace = {}, trace

    def answer(self, statement):
        """The reply to a statement: one or more lines, each with its line feed."""
        try:
            tree = parse(statement)
            if tree.kind == 'create':
                return self.create(tree)
            if tree.kind == 'call' and tree.name in CHANGES:
                if len(tree.arguments) != COUNTS.get(tree.name, 1):
                    raise TypeRefusal(tree.span, 'wrong count')
                return getattr(self, tree.name)(tree, *tree.arguments)
            return self.query(tree)
        except Refusal as refusal:
            return refusal.line

    def plan(self, tree):
        return plan(tree, self.arrays)

    def query(self, tree):
        asked = self.plan(tree)
        reads = asked.needs_all()
        cells = asked.cells()
        refuse_faults(cells)
        schema = asked.schema
        names = ','.join(schema.dimension_names), ','.join(schema.attribute_names)
        lines = ['{%s} %s\n' % names]
        lines += (f'{show_coordinate(at)} {",".join(map(show, cells[at]))}\n'
                  for at in sorted(cells))
        return ''.join(lines) + self.traced(reads)

    def traced(self, reads, *more):
        if not self.trace:
            return ''
        return ''.join(read_line(version, box) for version, box in reads) + ''.join(more)

    def create(self, tree):
        schema = written_schema(tree.schema)
        if tree.name.value in self.arrays:
            raise TypeRefusal(tree.name.span, 'array exists')
        self.arrays[tree.name.value] = StoredArray(schema)
        return 'ok\n'

    def list(self, _tree, what):
        want_sort(what, is_text)
        if what.value != 'arrays':
            raise TypeRefusal(what.span, 'unknown name')
        return '{No} name,schema\n' + ''.join(
            f'{{{number}}} {quote(name)},{quote(str(self.arrays[name].schema))}\n'
            for number, name in enumerate(sorted(self.arrays)))

    def changed_cells(self, tree, query, name):
        """The plan and the cells of a store or an insert, which fit the array if it stands."""
        asked = self.plan(query)
        want_sort(name, is_name)
        array = self.arrays.get(name.name)
        if array is None and tree.name == 'insert':
            raise TypeRefusal(name.span, 'unknown array')
        schema = array.schema if array else asked.schema
        if schema.types != asked.schema.types or schema.bounds != asked.schema.bounds:
            raise TypeRefusal(tree.span, 'schema differs')
        cells = fit_nulls(schema, asked.cells())
        refuse_faults(cells)
        return asked, cells

    def store(self, tree, query, name):
        asked, cells = self.changed_cells(tree, query, name)
        array = self.arrays.setdefault(name.name, StoredArray(asked.schema))
        version = array.add(cells)
        return f'ok {name.name}@{version}\n' + self.traced(asked.needs_all())

    def insert(self, tree, query, name):
        asked, cells = self.changed_cells(tree, query, name)
        array = self.arrays[name.name]
        newest = array.newest
        old = array.versions.get(newest, {})
        line = target_line(name.name, newest, array.schema, old, cells)
        version = array.add({**old, **cells})
        return f'ok {name.name}@{version}\n' + self.traced(asked.needs_all(), line)

    def stored(self, name):
        if name.name not in self.arrays:
            raise TypeRefusal(name.span, 'unknown array')
        return self.arrays[name.name]

    def remove(self, _tree, name):
        want_sort(name, is_name)
        self.stored(name)
        del self.arrays[name.name]
        return 'ok\n'

    def show(self, _tree, name):
        want_sort(name, is_name)
        return f'{name.name}{self.stored(name).schema}\n'

    def versions(self, _tree, name):
        want_sort(name, is_name)
        numbers = sorted(self.stored(name).versions)
        return '{VersionNo} version_id\n' + ''.join(
            f'{{{place}}} {number}\n' for place, number in enumerate(numbers, 1))

    def remove_versions(self, _tree, name, bound):
        want_sort(name, is_name)
        want_sort(bound, is_number)
        array = self.stored(name)
        if not 1 <= number_of(bound) <= array.newest:
            raise TypeRefusal(bound.span, 'unknown version')
        for number in [n for n in array.versions if n < number_of(bound)]:
            del array.versions[number]
        return 'ok\n'


def answer(script, trace=False):
    """The replies to the statements of a script, over no arrays."""
    session = Session(trace)
    return [session.answer(statement) for statement in split_script(script)]


# Traces: how many of the chunks of a version are asked for.

def chunk_of(at, schema):
    return tuple((x - d.low) // d.chunk for x, d in zip(at, schema.dimensions))


def core_of(chunk, schema):
    starts = [d.low + number * d.chunk for number, d in zip(chunk, schema.dimensions)]
    return [(start, min(d.high, start + d.chunk - 1))
            for start, d in zip(starts, schema.dimensions)]


def frame_of(chunk, schema):
    starts = [d.low + number * d.chunk for number, d in zip(chunk, schema.dimensions)]
    return [(start - d.overlap, start + d.chunk - 1 + d.overlap)
            for start, d in zip(starts, schema.dimensions)]


def read_line(version, box):
    chunks = {chunk_of(at, version.schema) for at in version.cells}
    asked = sum(not is_hollow(meet(core_of(chunk, version.schema), box)) for chunk in chunks)
    return f'trace: {version.name}@{version.number} asked {asked} of {len(chunks)}\n'


def target_line(name, number, schema, old, new):
    """The line of the array that is inserted into: the chunks that touched frames meet."""
    frames = [frame_of(chunk, schema) for chunk in touched_chunks(new, schema)]
    chunks = {chunk_of(at, schema) for at in old}
    asked = sum(any(not is_hollow(meet(core_of(chunk, schema), frame)) for frame in frames)
                for chunk in chunks)
    return f'trace: {name}@{number} asked {asked} of {len(chunks)}\n'


def touched_chunks(cells, schema):
    """The chunks whose frames hold one of the cells."""
    touched = set()
    for at in cells:
        touched.update(coordinates([
            (max(0, (x - d.overlap - d.low) // d.chunk),
             min((d.high - d.low) // d.chunk, (x + d.overlap - d.low) // d.chunk))
            for x, d in zip(at, schema.dimensions)]))
    return touched
