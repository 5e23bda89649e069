"""The operators that change, choose or move cells one by one."""
from .arguments import (is_bound, is_expression, is_name, is_number, number_of, places_of,
                        want_sort, want_sorts)
from .expressions import check_expression
from .plans import Plan, is_hollow, is_inside, meet, operator, plan
from .schemas import UNBOUNDED, Schema, within_limits
from .values import TypeRefusal, is_fault


def each_cell(source, change):
    """The cells of the source, each without fault changed by change(coordinate, values)."""
    return {at: cell if is_fault(cell) else change(at, cell)
            for at, cell in source.cells().items()}


@operator('filter', lambda count: count == 2)
def filter_cells(_call, arguments, stored):
    source = plan(arguments[0], stored)
    want_sort(arguments[1], is_expression)
    kind, test = check_expression(arguments[1], source.schema)
    if kind not in ('bool', None):
        raise TypeRefusal(arguments[1].span, 'wrong type')

    def cells():
        kept = {}
        for at, cell in source.cells().items():
            truth = cell if is_fault(cell) else test(at, cell)
            if is_fault(truth):
                kept[at] = truth
            elif truth is True:
                kept[at] = cell
        return kept
    return Plan(source.schema, cells, source.needs, source.direct)


@operator('apply', lambda count: count >= 3 and count % 2 == 1)
def apply(call, arguments, stored):
    source = plan(arguments[0], stored)
    want_sorts(arguments[1:], is_name, is_expression)
    names = source.schema.attribute_names + source.schema.dimension_names
    attributes, functions = [], []
    for name, expression in zip(arguments[1::2], arguments[2::2]):
        if name.name in names:
            raise TypeRefusal(name.span, 'repeated name')
        names.append(name.name)
        kind, function = check_expression(expression, source.schema)
        if kind is None:
            raise TypeRefusal(expression.span, 'wrong type')
        attributes.append((name.name, kind, True))
        functions.append(function)
    schema = Schema(source.schema.attributes + attributes, source.schema.dimensions)

    def cells():
        return each_cell(source, lambda at, cell: cell + [f(at, cell) for f in functions])
    return Plan(within_limits(schema, call.span), cells, source.needs, source.direct)


@operator('project', lambda count: count >= 2)
def project(_call, arguments, stored):
    source = plan(arguments[0], stored)
    want_sorts(arguments[1:], is_name)
    places = places_of(arguments[1:], source.schema.attribute_names)
    schema = Schema([source.schema.attributes[p] for p in places], source.schema.dimensions)

    def cells():
        return each_cell(source, lambda at, cell: [cell[p] for p in places])
    return Plan(schema, cells, source.needs, source.direct)


def written_box(call, arguments, source):
    """The box that the arguments tell: all low bounds, then all high ones, null as its own."""
    want_sorts(arguments, is_bound)
    bounds = source.schema.bounds
    if len(arguments) != 2 * len(bounds):
        raise TypeRefusal(call.span, 'wrong count')
    ends = [low for low, _ in bounds] + [high for _, high in bounds]
    ends = [end if node.kind == 'null' else number_of(node) for node, end in zip(arguments, ends)]
    return list(zip(ends[:len(bounds)], ends[len(bounds):]))


@operator('between', lambda count: count >= 1)
def between(call, arguments, stored):
    source = plan(arguments[0], stored)
    box = written_box(call, arguments[1:], source)

    def cells():
        return {at: cell for at, cell in source.cells().items() if is_inside(at, box)}
    return Plan(source.schema, cells, lambda b: source.needs(meet(b, box)), source.direct)


@operator('subarray', lambda count: count >= 1)
def subarray(call, arguments, stored):
    source = plan(arguments[0], stored)
    box = meet(written_box(call, arguments[1:], source), source.schema.bounds)
    if is_hollow(box):
        raise TypeRefusal(call.span, 'empty box')
    if any(high - low > UNBOUNDED for low, high in box):
        raise TypeRefusal(call.span, 'bounds range')
    lows = [low for low, _ in box]
    dimensions = [d._replace(low=0, high=high - low)
                  for d, (low, high) in zip(source.schema.dimensions, box)]
    schema = Schema(source.schema.attributes, dimensions)

    def cells():
        return {tuple(x - low for x, low in zip(at, lows)): cell
                for at, cell in source.cells().items() if is_inside(at, box)}

    def needs(part):
        return source.needs([(a + low, b + low) for (a, b), low in zip(part, lows)])
    return Plan(schema, cells, needs)


@operator('slice', lambda count: count >= 3 and count % 2 == 1)
def slice_array(call, arguments, stored):
    source = plan(arguments[0], stored)
    want_sorts(arguments[1:], is_name, is_number)
    dimensions = source.schema.dimensions
    axes = places_of(arguments[1::2], source.schema.dimension_names)
    fixed = dict(zip(axes, map(number_of, arguments[2::2])))
    kept = [axis for axis in range(len(dimensions)) if axis not in fixed]
    if not kept:
        raise TypeRefusal(call.span, 'wrong count')
    schema = Schema(source.schema.attributes, [dimensions[axis] for axis in kept])

    def cells():
        return {tuple(at[axis] for axis in kept): cell for at, cell in source.cells().items()
                if all(at[axis] == value for axis, value in fixed.items())}

    def needs(box):
        if any(not dimensions[a].low <= v <= dimensions[a].high for a, v in fixed.items()):
            return source.needs_nothing()
        sides = iter(box)
        return source.needs([(fixed[axis], fixed[axis]) if axis in fixed else next(sides)
                             for axis in range(len(dimensions))])
    return Plan(schema, cells, needs)
