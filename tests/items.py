"""The items that database files and backups spell, from docs/FORMAT.md alone."""
import re
import struct
from itertools import islice
from math import prod

from afl_model.schemas import Attribute, Dimension, Schema
from afl_model.values import Null

RESERVED = 'and or not null true false as create array'.split()
TYPES = {1: 'int64', 2: 'string', 3: 'bool'}
MAX_BOUND = 4611686018427387903
MAX_NEXT = 65536
MAX_ARRAYS = 1024


class WrongItem(Exception):
    """Bytes that spell nothing: the offset of the first wrong item."""

    def __init__(self, offset):
        super().__init__(f'byte {offset}')
        self.offset = offset


class Items:
    """Reads items one behind the other; each read names the test of its item."""

    def __init__(self, data, at=0):
        self.data, self.at, self.item = data, at, at

    def require(self, holds):
        """The item that was read last is wrong unless this holds."""
        if not holds:
            raise WrongItem(self.item)

    def start_item(self):
        self.item = self.at

    def take(self, length):
        self.require(self.at + length <= len(self.data))
        self.at += length
        return self.data[self.at - length:self.at]

    def raw(self, form):
        return struct.unpack('<' + form, self.take(struct.calcsize('<' + form)))[0]

    def number(self, form, least=0, most=None):
        """A number as an item: B, H, I and Q have 1, 2, 4 and 8 bytes, and q has a sign."""
        self.start_item()
        value = self.raw(form)
        self.require((form == 'q' or value >= least) and (most is None or value <= most))
        return value

    def name(self):
        self.start_item()
        word = self.take(self.raw('B')).decode('latin-1')
        fits = re.fullmatch('[A-Za-z_][A-Za-z_0-9]{0,63}', word, re.A)
        self.require(fits and word not in RESERVED)
        return word

    def pages(self, length):
        """The pages of a blob of this length."""
        count = self.number('I')
        self.require(count == -(-length // 4096))
        return [self.number('I') for _ in range(count)]

    def schema(self):
        taken, attributes, dimensions = set(), [], []
        for _ in range(self.number('B', 1, 64)):
            name = self.new_name(taken)
            kind = TYPES[self.number('B', 1, 3)]
            attributes.append(Attribute(name, kind, bool(self.number('B', 0, 1))))
        for place in reversed(range(self.number('B', 1, 6))):
            dimensions.append(self.dimension(taken))
            frame = prod(d.chunk + 2 * d.overlap for d in dimensions)
            self.require(place or frame <= 1 << 48)
        return Schema(attributes, dimensions)

    def new_name(self, taken):
        name = self.name()
        self.require(name not in taken)
        taken.add(name)
        return name

    def dimension(self, taken):
        name = self.new_name(taken)
        low = self.number('q')
        self.require(abs(low) <= MAX_BOUND)
        high = self.number('q')
        self.require(low <= high <= MAX_BOUND)
        chunk = self.number('Q', 1)
        return Dimension(name, low, high, chunk, self.number('Q', 0, chunk))

    def array_head(self, before):
        """Name, schema and next number of an array behind the one that is named."""
        name = self.name()
        self.require(before is None or before < name)
        schema = self.schema()
        return name, schema, self.number('I', 1, MAX_NEXT)

    def version(self, before, following):
        """The number of a version behind the one before, and before the next number."""
        return self.number('I', before + 1, following - 1)

    def chunk(self, schema, before):
        """The numbers of a chunk, which come behind those before in row-major order."""
        numbers = []
        for place, _ in enumerate(schema.dimensions):
            number = self.number('Q')
            if before is not None and tuple(numbers) == before[:place]:
                last = place == len(schema.dimensions) - 1
                self.require(number > before[place] if last else number >= before[place])
            numbers.append(number)
        return tuple(numbers)

    def end(self):
        self.start_item()
        self.require(self.at == len(self.data))

    def value(self, attribute):
        """A value with its tag: one item."""
        self.start_item()
        tag = self.raw('B')
        if tag in (0, 5):
            code = self.raw('B') if tag else 0
            self.require(attribute.nullable and (not tag or 1 <= code <= 127))
            return Null(code)
        kinds = {1: 'int64', 2: 'string', 3: 'bool', 4: 'bool'}
        self.require(kinds.get(tag) == attribute.type)
        if tag == 1:
            return self.raw('q')
        return self.take(self.raw('H')).decode('latin-1') if tag == 2 else tag == 4


class Payload:
    """Reads the cells of one chunk: those of its core, by coordinate."""

    def __init__(self, items, schema, chunk):
        self.items, self.schema = items, schema
        starts = [d.low + number * d.chunk for d, number in zip(schema.dimensions, chunk)]
        self.sides = [range(start - d.overlap, start + d.chunk + d.overlap)
                      for start, d in zip(starts, schema.dimensions)]
        self.core = [(start, min(d.high, start + d.chunk - 1))
                     for start, d in zip(starts, schema.dimensions)]

    def coordinate(self, position):
        at = []
        for side in reversed(self.sides):
            position, place = divmod(position, len(side))
            at.append(side[place])
        return tuple(reversed(at))

    def is_in_frame(self, at):
        return all(x in side for x, side in zip(at, self.sides))

    def is_in_core(self, at):
        return all(low <= x <= high for x, (low, high) in zip(at, self.core))

    def cells(self):
        """{coordinate: values} of all cells of the frame."""
        items, positions, end = self.items, [], -1
        volume = prod(map(len, self.sides))
        runs = items.number('Q', 1)
        for run in range(runs):
            start = items.number('Q', end + 1, volume - 1)
            length = items.number('Q', 1, volume - start)
            end = start + length
            positions += map(self.coordinate, range(start, end))
            items.require(all(self.is_in_bounds(at) for at in positions[-length:]))
            items.require(run < runs - 1 or any(map(self.is_in_core, positions)))
        columns = [self.column(a, len(positions)) for a in self.schema.attributes]
        return dict(zip(positions, map(list, zip(*columns))))

    def is_in_bounds(self, at):
        return all(low <= x <= high for x, (low, high) in zip(at, self.schema.bounds))

    def column(self, attribute, count):
        values, before = [], None
        runs = self.items.number('Q', 1, count)
        for run in range(runs):
            due = count - len(values)
            last = run == runs - 1
            length = self.items.number('Q', due if last else 1, due if last else due - 1)
            value = self.items.value(attribute)
            self.items.require(not run or (type(value), value) != (type(before), before))
            values += [value] * length
            before = value
        return values

    def core_cells(self):
        return {at: cell for at, cell in self.cells().items() if self.is_in_core(at)}


def is_core_empty(schema, chunk):
    return any(number > (d.high - d.low) // d.chunk
               for number, d in zip(chunk, schema.dimensions))


def print_arrays(arrays, show, limit):
    """Prints arrays with their versions and, of each, so many cells at most."""
    for name in sorted(arrays):
        array = arrays[name]
        print(f'{name}{array.schema} next version {array.next}')
        for number in sorted(array.versions):
            cells = array.versions[number]
            print(f'  {name}@{number}: {len(cells)} cells')
            for at in islice(sorted(cells), limit):
                print('    {' + ','.join(map(str, at)) + '} ' + ','.join(map(show, cells[at])))
