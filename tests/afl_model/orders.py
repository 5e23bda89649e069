"""The operators that order, list, turn or spread the cells of one source."""
from math import prod

from .arguments import (is_name, is_number, made_name, places_of, want_at_least,
                        want_sort, want_sorts, without_brackets)
from .plans import (Plan, coordinates, needs_unless_hollow, operator, plan, refuse_faults)
from .schemas import UNBOUNDED, Schema, within_limits
from .values import NULL, CellRefusal, TypeRefusal, is_fault, is_null

LISTED_CHUNK = 1000
MAX_SPREAD = 1 << 16


def sort_key(value):
    """Nulls first, by their codes; then numbers, truths and texts in their order."""
    if is_null(value):
        return 0, value.code, ''
    return (1, 0, value) if isinstance(value, str) else (1, int(value), '')


@operator('sort', lambda count: count >= 2)
def sort(call, arguments, stored):
    source = plan(arguments[0], stored)
    want_sorts(arguments[1:], is_name)
    names = source.schema.attribute_names
    places = places_of(arguments[1:], names)
    name, number = 'n', 2
    while name in names:
        name, number = f'n_{number}', number + 1
    schema = Schema(source.schema.attributes, [(name, 0, UNBOUNDED, LISTED_CHUNK, 0)])

    def cells():
        made = source.cells()
        order = sorted(made)
        for at in order:
            for value in [made[at]] if is_fault(made[at]) else [made[at][p] for p in places]:
                if is_fault(value):
                    raise CellRefusal(at, value.kind)
        order.sort(key=lambda at: [sort_key(made[at][p]) for p in places])
        return {(number,): made[at] for number, at in enumerate(order)}
    return Plan(within_limits(schema, call.span), cells, lambda box: source.needs_all())


@operator('rank', lambda count: count >= 2)
def rank(call, arguments, stored):
    source = plan(arguments[0], stored)
    want_sorts(arguments[1:], is_name)
    ranked, schema = arguments[1], source.schema
    if ranked.name not in schema.attribute_names:
        raise TypeRefusal(ranked.span, 'unknown name')
    place = schema.attribute_names.index(ranked.name)
    if schema.types[place] == 'bool':
        raise TypeRefusal(ranked.span, 'wrong type')
    axes = places_of(arguments[2:], schema.dimension_names)
    name = made_name(ranked.name, '_rank', call.span)
    if name in schema.dimension_names:
        raise TypeRefusal(ranked.span, 'repeated name')
    new = Schema([schema.attributes[place], (name, 'int64', True)], schema.dimensions)

    def cells():
        made, groups = source.cells(), {}
        for at in sorted(made):
            cell = made[at]
            values = groups.setdefault(tuple(at[axis] for axis in axes), [])
            values.append(cell if is_fault(cell) else cell[place])
        return {at: cell if is_fault(cell) else
                [cell[place], rank_in(cell[place], groups[tuple(at[axis] for axis in axes)])]
                for at, cell in made.items()}

    def box_of(box):
        return [side if axis in axes else schema.bounds[axis] for axis, side in enumerate(box)]
    return Plan(within_limits(new, call.span), cells, needs_unless_hollow(source, box_of))


def rank_in(value, group):
    """1 and the number of lesser values in the group, or the first fault of it."""
    fault = next(filter(is_fault, group), None)
    if fault or is_null(value):
        return fault or NULL
    return 1 + sum(1 for other in group if not is_null(other) and other < value)


@operator('transpose', lambda count: count == 1)
def transpose(_call, arguments, stored):
    source = plan(arguments[0], stored)
    schema = Schema(source.schema.attributes, source.schema.dimensions[::-1])

    def cells():
        return {at[::-1]: cell for at, cell in source.cells().items()}
    return Plan(schema, cells, lambda box: source.needs(box[::-1]))


@operator('reverse', lambda count: count == 1)
def reverse(_call, arguments, stored):
    source = plan(arguments[0], stored)
    if any(d.high == UNBOUNDED for d in source.schema.dimensions):
        raise TypeRefusal(without_brackets(arguments[0]).span, 'not bounded')
    sums = [low + high for low, high in source.schema.bounds]

    def cells():
        return {tuple(s - x for s, x in zip(sums, at)): cell
                for at, cell in source.cells().items()}
    return Plan(source.schema, cells, lambda box: source.needs(
        [(s - high, s - low) for s, (low, high) in zip(sums, box)]))


@operator('unpack', lambda count: count == 2)
def unpack(call, arguments, stored):
    source = plan(arguments[0], stored)
    want_sort(arguments[1], is_name)
    name, old = arguments[1].name, source.schema
    if name in old.attribute_names + old.dimension_names:
        raise TypeRefusal(arguments[1].span, 'repeated name')
    attributes = [(d, 'int64', False) for d in old.dimension_names] + old.attributes
    schema = Schema(attributes, [(name, 0, UNBOUNDED, LISTED_CHUNK, 0)])

    def cells():
        made = source.cells()
        refuse_faults(made, deep=False)
        return {(number,): list(at) + made[at] for number, at in enumerate(sorted(made))}
    return Plan(within_limits(schema, call.span), cells, lambda box: source.needs_all())


@operator('xgrid', lambda count: count >= 1)
def xgrid(call, arguments, stored):
    source = plan(arguments[0], stored)
    sizes, old = arguments[1:], source.schema.dimensions
    want_sorts(sizes, is_number)
    if len(sizes) != len(old):
        raise TypeRefusal(call.span, 'wrong count')
    factors = want_at_least(sizes, 1)
    new = [d._replace(high=d.low + (d.high - d.low + 1) * factor - 1)
           for d, factor in zip(old, factors)]
    for node, dimension in zip(sizes, new):
        if dimension.high > UNBOUNDED:
            raise TypeRefusal(node.span, 'bounds range')
    if prod(factors) > MAX_SPREAD:
        raise TypeRefusal(call.span, 'out of range')
    schema = within_limits(Schema(source.schema.attributes, new), call.span)
    lows = [d.low for d in old]

    def spread(at):
        starts = [low + (x - low) * factor for x, low, factor in zip(at, lows, factors)]
        return coordinates([(start, start + f - 1) for start, f in zip(starts, factors)])

    def cells():
        return {to: cell for at, cell in source.cells().items() for to in spread(at)}

    def box_of(box):
        return [(low + (a - low) // factor, low + (b - low) // factor)
                for (a, b), low, factor in zip(box, lows, factors)]
    return Plan(schema, cells, needs_unless_hollow(source, box_of))
