"""Plans: what checking makes of a query. And the sources: stored arrays, `scan` and `build`.

`QUERIES` has for each operator a test of its number of arguments and a function from the call,
its arguments and the stored arrays to a plan. Modules of operators add theirs by `@operator`.
"""
from itertools import product
from math import prod

from .arguments import is_expression, is_schema, want_sort
from .expressions import CHANGES, check_expression
from .literals import literal_cells
from .schemas import UNBOUNDED, written_schema
from .values import CellRefusal, Fault, TypeRefusal, is_fault, is_null

MAX_BUILT = 1 << 24
QUERIES = {}


class Plan:
    """A checked query.

    schema   that of its result
    cells    computes the result: {coordinate: list of values, or a Fault}
    needs    from a box of the result to [(stored version, box of it)]: what is read for it
    direct   whether it is a stored version under operators that keep each cell in its place
    """

    def __init__(self, schema, cells, needs, direct=False):
        self.schema, self.cells, self.needs, self.direct = schema, cells, needs, direct

    def needs_all(self):
        return self.needs(self.schema.bounds)

    def needs_nothing(self):
        return self.needs([(0, -1)] * len(self.schema.dimensions))


class StoredVersion:
    """A version of a stored array, as a query reads it."""

    def __init__(self, name, number, schema, cells):
        self.name, self.number, self.schema, self.cells = name, number, schema, cells


def operator(name, fits_count):
    def register(function):
        QUERIES[name] = (fits_count, function)
        return function
    return register


def plan(node, stored):
    """The plan of a query over the stored arrays, or the refusal of its first wrong part."""
    if node.kind == 'group':
        return plan(node.content, stored)
    if node.kind in ('reference', 'version'):
        return read_array(node, stored)
    if node.kind != 'call' or node.name in CHANGES:
        raise TypeRefusal(node.span, 'wrong type')
    if node.name not in QUERIES:
        raise TypeRefusal(node.name_span, 'unknown name')
    fits_count, function = QUERIES[node.name]
    if not fits_count(len(node.arguments)):
        raise TypeRefusal(node.span, 'wrong count')
    return function(node, node.arguments, stored)


# Boxes are lists of (low, high), one for each dimension; a high below its low is no coordinate.

def meet(left, right):
    return [(max(a[0], b[0]), min(a[1], b[1])) for a, b in zip(left, right)]


def is_hollow(box):
    return any(low > high for low, high in box)


def is_inside(at, box):
    return all(low <= x <= high for x, (low, high) in zip(at, box))


def coordinates(box):
    return product(*(range(low, high + 1) for low, high in box))


def needs_unless_hollow(source, box_of):
    """For a box it needs box_of(box) of the source, and nothing for a hollow one."""
    def needs(box):
        return source.needs_nothing() if is_hollow(box) else source.needs(box_of(box))
    return needs


# Cells

def refuse_faults(cells, deep=True):
    """Refuses the first cell that is a fault or, if deep, that has one."""
    for at in sorted(cells):
        cell = cells[at]
        if is_fault(cell):
            raise CellRefusal(at, cell.kind)
        fault = next((value for value in cell if is_fault(value)), None) if deep else None
        if fault:
            raise CellRefusal(at, fault.kind)


def fit_nulls(schema, cells):
    """The cells with a fault in place of each null of an attribute that is `not null`."""
    def fit(value, attribute):
        if is_null(value) and not attribute.nullable:
            return Fault('null in not null')
        return value
    return {at: cell if is_fault(cell) else list(map(fit, cell, schema.attributes))
            for at, cell in cells.items()}


# Sources

def read_array(node, stored):
    array = stored.get(node.name)
    if array is None:
        raise TypeRefusal(node.span, 'unknown array')
    number = array.newest if node.kind == 'reference' else node.number
    if node.kind == 'version' and number not in array.versions:
        raise TypeRefusal(node.span, 'unknown version')
    cells = array.versions.get(number, {})
    version = StoredVersion(node.name, number, array.schema, cells)
    return Plan(array.schema, lambda: dict(cells), lambda box: [(version, box)], direct=True)


@operator('scan', lambda count: count == 1)
def scan(_call, arguments, stored):
    want_sort(arguments[0], lambda node: node.kind in ('reference', 'version'))
    return read_array(arguments[0], stored)


@operator('build', lambda count: count in (2, 3))
def build(_call, arguments, _stored):
    written, content = arguments[:2]
    want_sort(written, is_schema)
    want_sort(content, is_expression)
    literal = False
    if len(arguments) == 3:
        want_sort(arguments[2], lambda node: node.kind == 'truth' and (
            not node.value or content.kind == 'text'))
        literal = arguments[2].value
    schema = written_schema(written)
    if not literal:
        return build_by_expression(schema, written, content)
    if len(schema.dimensions) != 1:
        raise TypeRefusal(written.span, 'wrong count')
    cells = literal_cells(content, schema)
    return Plan(schema, lambda: dict(cells), lambda box: [])


def build_by_expression(schema, written, content):
    if any(d.high == UNBOUNDED for d in schema.dimensions):
        raise TypeRefusal(written.span, 'not bounded')
    if len(schema.attributes) != 1:
        raise TypeRefusal(written.span, 'wrong count')
    if prod(high - low + 1 for low, high in schema.bounds) > MAX_BUILT:
        raise TypeRefusal(written.span, 'too many cells')
    kind, function = check_expression(content, schema, dimensions_only=True)
    if kind not in (None, schema.types[0]):
        raise TypeRefusal(content.span, 'wrong type')

    def cells():
        made = {at: [function(at, ())] for at in coordinates(schema.bounds)}
        return fit_nulls(schema, made)
    return Plan(schema, cells, lambda box: [])
