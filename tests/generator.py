"""Random schemas, expressions and queries, as texts of the language."""
from math import prod

from afl_model.parsing import parse
from afl_model.plans import plan, refuse_faults
from afl_model.schemas import UNBOUNDED, Dimension, Schema
from afl_model.values import CellRefusal, Refusal, TypeRefusal, is_fault

TYPES = ('int64', 'int64', 'int64', 'string', 'bool')
ATTRIBUTES = ('v', 'w', 'u', 't', 'p', 'k')
DIMENSIONS = ('x', 'y', 'z', 'i', 'n', 'm')
TEXTS = ('', 'a', 'b', 'ab', 'B', "it\\'s", '\\\\', 'z')
NUMBERS = (0, 1, 2, 3, -1, -2, 5, 7)
LARGE = (9223372036854775807, -9223372036854775807)
CELLWISE = ('filter', 'apply', 'project', 'between', 'subarray', 'slice')
GROUPED = ('aggregate', 'regrid', 'window', 'cumulate', 'redimension')
PAIRED = ('merge', 'concat', 'join', 'cross_join')
ORDERED = ('sort', 'rank', 'transpose', 'reverse', 'unpack', 'xgrid')
OPERATORS = CELLWISE + GROUPED + PAIRED + ORDERED
MOST_BYTES = 900
MOST_CELLS = 250
MOST_PARTNERED = 100     # places of an array in all dimensions but the first


class Generator:
    """Makes queries over the arrays of a session of the model."""

    def __init__(self, rng, arrays):
        self.rng, self.arrays = rng, arrays

    def chance(self, share):
        return self.rng.random() < share

    def some(self, items, most=None):
        """One or more different items, in any order."""
        return self.rng.sample(items, self.rng.randint(1, min(len(items), most or len(items))))

    def schema_of(self, query):
        return plan(parse(query), self.arrays).schema

    # Values and expressions

    def literal(self, kind):
        luck = self.rng.random()
        if luck < .2:
            return 'null' if luck < .12 else f'?{self.rng.choice((1, 7, 127))}'
        if kind == 'int64':
            return str(self.rng.choice(LARGE if self.chance(.05) else NUMBERS))
        if kind == 'string':
            return f"'{self.rng.choice(TEXTS)}'"
        return self.rng.choice(('true', 'false'))

    def expression(self, names, kind, depth=2):
        """An expression of this type over names: [(name, type)]."""
        if depth == 0 or self.chance(.35):
            fitting = [name for name, other in names if other == kind]
            if fitting and self.chance(.8):
                return self.rng.choice(fitting)
            return self.literal(kind)
        return getattr(self, kind + '_expression')(names, depth - 1)

    def int64_expression(self, names, depth):
        luck = self.rng.random()
        if luck < .6:
            left, right = (self.expression(names, 'int64', depth) for _ in range(2))
            return f'{left} {self.rng.choice("+-*/%+-*")} ({right})'
        if luck < .76:
            truth = self.expression(names, 'bool', depth)
            left, right = (self.expression(names, 'int64', depth) for _ in range(2))
            return f'iif({truth}, {left}, {right})'
        if luck < .9:
            kind = self.rng.choice(('int64', 'string'))
            return f'missing_reason({self.expression(names, kind, depth)})'
        return f'strlen({self.expression(names, "string", depth)})'

    def string_expression(self, names, depth):
        if self.chance(.4):
            return f'string({self.expression(names, "int64", depth)})'
        left, right = (self.expression(names, 'string', depth) for _ in range(2))
        return f'{left} + ({right})'

    def bool_expression(self, names, depth):
        luck = self.rng.random()
        if luck < .55:
            kind = self.rng.choice(('int64', 'int64', 'string'))
            left, right = (self.expression(names, kind, depth) for _ in range(2))
            return f'({left}) {self.rng.choice(("=", "<>", "<", "<=", ">", ">="))} ({right})'
        if luck < .7:
            left, right = (self.expression(names, 'bool', depth) for _ in range(2))
            return f'({left}) {self.rng.choice(("and", "or"))} ({right})'
        if luck < .85:
            return f'is_null({self.expression(names, "int64", depth)})'
        return f'not ({self.expression(names, "bool", depth)})'

    # Sources

    def dimensions(self, count):
        made = []
        for name in self.rng.sample(DIMENSIONS, count):
            low, length = self.rng.choice((0, 0, 0, -2, 3, 1)), self.rng.randint(1, 6 - count)
            chunk = self.rng.randint(1, length + 2)
            overlap = self.rng.choice((0, 0, 0, min(1, chunk), chunk))
            made.append(Dimension(name, low, low + length - 1, chunk, overlap))
        return made

    def source(self):
        """A stored array, or one of its versions, or a built array."""
        if not self.arrays or self.chance(.45):
            kinds = [self.rng.choice(TYPES) for _ in range(self.rng.choice((1, 1, 2, 3)))]
            return self.built(self.dimensions(self.rng.choice((1, 1, 2, 2, 3))), kinds)
        name = self.rng.choice(sorted(self.arrays))
        versions = sorted(self.arrays[name].versions)
        if versions and self.chance(.3):
            return f'{name}@{self.rng.choice(versions)}'
        return name

    def built(self, dimensions, kinds):
        """An array with these dimensions and types, some of its cells left out."""
        taken = [d.name for d in dimensions]
        names = [name for name in ATTRIBUTES if name not in taken]
        attributes = list(zip(names, kinds))
        length = dimensions[0].high - dimensions[0].low + 1
        if len(dimensions) == 1 and (self.chance(.5) or length > MOST_CELLS):
            return self.written_out(attributes, dimensions[0])
        axes = [(name, 'int64') for name in taken]
        first = Schema([(*attributes[0], True)], dimensions)
        query = f'build({first}, {self.expression(axes, kinds[0])})'
        for name, kind in attributes[1:]:
            query = f'apply({query}, {name}, {self.expression(attributes[:1] + axes, kind)})'
        if self.chance(.5):
            query = f'filter({query}, {self.expression(attributes + axes, "bool")})'
        return query

    def written_out(self, attributes, dimension):
        length = self.rng.randint(0, min(dimension.high - dimension.low + 1, 6))
        cells = ','.join(
            '()' if self.chance(.25) else
            '(' + ','.join(self.literal(kind) for _, kind in attributes) + ')'
            for _ in range(length))
        text = f'[{cells}]'.replace('\\', '\\\\').replace("'", "\\'")
        schema = Schema([(*attribute, True) for attribute in attributes], [dimension])
        return f"build({schema}, '{text}', true)"

    def partner(self, schema, first=None):
        """An array with the types and bounds of a schema, but for the first dimension."""
        volume = prod(high - low + 1 for low, high in schema.bounds[1:])
        if self.chance(.15) or volume > MOST_PARTNERED:
            return self.source()
        dimensions = []
        for place, old in enumerate(schema.dimensions):
            chunk = self.rng.randint(1, 4)
            overlap = self.rng.choice((0, 0, 1, chunk))
            new = first if first and place == 0 else old
            name = old.name + self.rng.choice(('', '_'))
            dimensions.append(Dimension(name, new.low, new.high, chunk, overlap))
        return self.built(dimensions, schema.types)

    # Operators: each method is named after one, and puts it over a query with this schema.

    def filter(self, query, schema):
        return f'filter({query}, {self.expression(names_of(schema), "bool")})'

    def apply(self, query, schema):
        kind, name = self.rng.choice(TYPES), self.rng.choice(('e', 'f', 'n'))
        return f'apply({query}, {name}, {self.expression(names_of(schema), kind)})'

    def project(self, query, schema):
        return f'project({query}, {", ".join(self.some(schema.attribute_names))})'

    def box(self, schema):
        lows, highs = [], []
        for low, high in schema.bounds:
            ends = sorted(self.rng.randint(low - 1, min(high, low + 8) + 1) for _ in range(2))
            lows.append('null' if self.chance(.2) else str(ends[0]))
            highs.append('null' if self.chance(.2) else str(ends[1]))
        return ', '.join(lows + highs)

    def between(self, query, schema):
        return f'between({query}, {self.box(schema)})'

    def subarray(self, query, schema):
        return f'subarray({query}, {self.box(schema)})'

    def slice(self, query, schema):
        fixed = self.rng.choice(schema.dimensions)
        place = self.rng.randint(fixed.low, min(fixed.high, fixed.low + 4))
        return f'slice({query}, {fixed.name}, {place})'

    def total(self, schema):
        function = self.rng.choice(('sum', 'min', 'max', 'count', 'count'))
        if function == 'count' and self.chance(.5):
            return 'count(*)' + self.rng.choice((' as c', ''))
        name = self.rng.choice((' as g', ' as h')) if self.chance(.3) else ''
        return f'{function}({self.rng.choice(schema.attribute_names)}){name}'

    def aggregate(self, query, schema):
        axes = self.some(schema.dimension_names) if self.chance(.7) else []
        return f'aggregate({", ".join([query, self.total(schema)] + axes)})'

    def regrid(self, query, schema):
        sizes = ', '.join(str(self.rng.randint(1, 3)) for _ in schema.dimensions)
        return f'regrid({query}, {sizes}, {self.total(schema)})'

    def window(self, query, schema):
        sizes = ', '.join(str(self.rng.randint(0, 2)) for _ in schema.dimensions * 2)
        return f'window({query}, {sizes}, {self.total(schema)})'

    def cumulate(self, query, schema):
        totals = [self.total(schema) for _ in range(self.rng.choice((1, 1, 2, 3)))]
        axis = self.some(schema.dimension_names, 1) if self.chance(.6) else []
        return f'cumulate({", ".join([query] + totals + axis)})'

    def redimension(self, query, schema):
        """Some numbers and coordinates become dimensions, and others attributes."""
        numbers = [name for name, kind in names_of(schema) if kind == 'int64']
        axes = self.some(numbers, 2) + (['synthetic'] if self.chance(.3) else [])
        dimensions = [Dimension(name, -20, 40, self.rng.randint(1, 30), self.rng.randint(0, 1))
                      for name in axes]
        if self.chance(.4):
            new = Schema([('count', 'int64', True)], dimensions)
            return f'redimension({query}, {new}, count(*))'
        rest = [(name, kind) for name, kind in names_of(schema) if name not in axes]
        kept = self.some(rest or [('v', 'int64')])
        new = Schema([(*pair, self.chance(.8)) for pair in kept], dimensions)
        return f'redimension({query}, {new})'

    def merge(self, query, schema):
        other = self.partner(schema)
        return f'merge({other}, {query})' if self.chance(.3) else f'merge({query}, {other})'

    def join(self, query, schema):
        return f'join({query}, {self.partner(schema)})'

    def cross_join(self, query, schema):
        other = self.source()
        axes = self.schema_of(other).dimension_names
        pair = f'{self.rng.choice(schema.dimension_names)}, {self.rng.choice(axes)}'
        return f'cross_join({query}, {other}, {pair})'

    def concat(self, query, schema):
        low = max(schema.dimensions[0].low, -5) + self.rng.randint(-2, 2)
        first = Dimension('x', low, low + self.rng.randint(0, 4), 1, 0)
        other = self.partner(schema, first)
        if schema.dimensions[0].high != UNBOUNDED and self.chance(.7):
            return f'concat({query}, {other})'
        return f'concat({other}, {query})'

    def sort(self, query, schema):
        return f'sort({query}, {", ".join(self.some(schema.attribute_names, 3))})'

    def rank(self, query, schema):
        axes = self.some(schema.dimension_names) if self.chance(.6) else []
        return f'rank({", ".join([query, self.rng.choice(schema.attribute_names)] + axes)})'

    def transpose(self, query, _schema):
        return f'transpose({query})'

    def reverse(self, query, _schema):
        return f'reverse({query})'

    def unpack(self, query, schema):
        name = self.rng.choice(['r', 'q', 'o'] + schema.dimension_names[:1])
        return f'unpack({query}, {name})'

    def xgrid(self, query, schema):
        sizes = (0, 2, 70000) if self.chance(.04) else (1, 1, 2, 2, 3)
        factors = ', '.join(str(self.rng.choice(sizes)) for _ in schema.dimensions)
        return f'xgrid({query}, {factors})'

    # Queries

    def query(self, operator):
        """A query with this operator and up to three others, worth to be answered."""
        while True:
            others = [self.rng.choice(OPERATORS) for _ in range(self.rng.randint(0, 3))]
            others.insert(self.rng.randint(0, len(others)), operator)
            try:
                query = self.source()
                for name in others:
                    query = getattr(self, name)(query, self.schema_of(query))
                    if self.is_large(query):
                        break
                else:
                    name = None
            except TypeRefusal:
                continue
            if name is None and len(query) <= MOST_BYTES and self.is_worth(query):
                return query

    def is_large(self, query):
        """Whether the model would be slow over the query's cells."""
        try:
            return len(plan(parse(query), self.arrays).cells()) > 4 * MOST_CELLS
        except Refusal:
            return False

    def is_worth(self, query):
        """Whether the reply is small, and seldom a refusal or without cells."""
        try:
            cells = plan(parse(query), self.arrays).cells()
            if len(cells) > MOST_CELLS or not cells and self.chance(.6):
                return False
            if cells and all(map(is_fault, cells.values())) and self.chance(.6):
                return False
            refuse_faults(cells)
        except CellRefusal:
            return self.chance(.6)
        except Refusal:
            return self.chance(.25)
        return True


def names_of(schema):
    """The names that expressions over a schema may have: [(name, type)]."""
    return ([(a.name, a.type) for a in schema.attributes]
            + [(name, 'int64') for name in schema.dimension_names])
