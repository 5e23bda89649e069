"""The operators over two sources: join, cross_join, merge and concat."""
from .arguments import is_name, want_sorts, without_brackets
from .parsing import MAX_NAME
from .plans import Plan, meet, operator, plan
from .schemas import UNBOUNDED, Schema, within_limits
from .values import TypeRefusal, is_fault


def joined_schema(dimensions, attributes, span):
    """The schema of both sides' parts, where a repeated name gets _2, _3 and so on."""
    names = []
    for part in dimensions + attributes:
        name, number = part.name, 2
        while name in names:
            name, number = f'{part.name}_{number}', number + 1
        if len(name) > MAX_NAME:
            raise TypeRefusal(span, 'name too long')
        names.append(name)
    new_names = iter(names)
    dimensions = [d._replace(name=next(new_names)) for d in dimensions]
    attributes = [a._replace(name=next(new_names)) for a in attributes]
    return within_limits(Schema(attributes, dimensions), span)


def beside(left, right):
    return left if is_fault(left) else right if is_fault(right) else left + right


@operator('join', lambda count: count == 2)
def join(call, arguments, stored):
    left, right = (plan(node, stored) for node in arguments)
    if left.schema.bounds != right.schema.bounds:
        raise TypeRefusal(call.span, 'bounds differ')
    attributes = left.schema.attributes + right.schema.attributes
    schema = joined_schema(left.schema.dimensions, attributes, call.span)

    def cells():
        lefts, rights = left.cells(), right.cells()
        return {at: beside(lefts[at], rights[at]) for at in lefts if at in rights}
    return Plan(schema, cells, lambda box: left.needs(box) + right.needs(box))


def paired_axes(nodes, left, right):
    """The axes that `cross_join` pairs: those of the left, and those of the right."""
    axes = ([], [])
    for place, node in enumerate(nodes):
        names = (left, right)[place % 2].schema.dimension_names
        if node.name not in names:
            raise TypeRefusal(node.span, 'unknown name')
        if names.index(node.name) in axes[place % 2]:
            raise TypeRefusal(node.span, 'repeated name')
        axes[place % 2].append(names.index(node.name))
    return axes


@operator('cross_join', lambda count: count >= 4 and count % 2 == 0)
def cross_join(call, arguments, stored):
    left, right = (plan(node, stored) for node in arguments[:2])
    want_sorts(arguments[2:], is_name)
    left_axes, right_axes = paired_axes(arguments[2:], left, right)
    rank = len(right.schema.dimensions)
    kept = [axis for axis in range(rank) if axis not in right_axes]
    dimensions = left.schema.dimensions + [right.schema.dimensions[axis] for axis in kept]
    attributes = left.schema.attributes + right.schema.attributes
    schema = joined_schema(dimensions, attributes, call.span)

    def cells():
        lefts, rights = left.cells(), right.cells()
        return {i + tuple(j[axis] for axis in kept): beside(lefts[i], rights[j])
                for i in lefts for j in rights
                if all(i[a] == j[b] for a, b in zip(left_axes, right_axes))}

    def needs(box):
        left_box, rest = box[:len(left.schema.dimensions)], iter(box[len(left.schema.dimensions):])
        right_box = [left_box[left_axes[right_axes.index(axis)]] if axis in right_axes
                     else next(rest) for axis in range(rank)]
        return left.needs(left_box) + right.needs(meet(right_box, right.schema.bounds))
    return Plan(schema, cells, needs)


def either_nullable(left, right):
    return [a._replace(nullable=a.nullable or b.nullable)
            for a, b in zip(left.schema.attributes, right.schema.attributes)]


@operator('merge', lambda count: count == 2)
def merge(call, arguments, stored):
    left, right = (plan(node, stored) for node in arguments)
    if left.schema.bounds != right.schema.bounds:
        raise TypeRefusal(call.span, 'bounds differ')
    if left.schema.types != right.schema.types:
        raise TypeRefusal(call.span, 'schema differs')
    schema = Schema(either_nullable(left, right), left.schema.dimensions)

    def cells():
        lefts, rights = left.cells(), right.cells()
        return {**rights, **lefts}
    return Plan(within_limits(schema, call.span), cells,
                lambda box: left.needs(box) + right.needs(box))


@operator('concat', lambda count: count == 2)
def concat(call, arguments, stored):
    left, right = (plan(node, stored) for node in arguments)
    first, second = left.schema.dimensions[0], right.schema.dimensions[0]
    if first.high == UNBOUNDED:
        raise TypeRefusal(without_brackets(arguments[0]).span, 'not bounded')
    if (len(left.schema.bounds) != len(right.schema.bounds)
            or left.schema.bounds[1:] != right.schema.bounds[1:]):
        raise TypeRefusal(call.span, 'bounds differ')
    if left.schema.types != right.schema.types:
        raise TypeRefusal(call.span, 'schema differs')
    high = first.high + second.high - second.low + 1
    if high > UNBOUNDED:
        raise TypeRefusal(call.span, 'bounds range')
    dimensions = [first._replace(high=high)] + left.schema.dimensions[1:]
    schema = within_limits(Schema(either_nullable(left, right), dimensions), call.span)
    shift = first.high + 1 - second.low

    def cells():
        lefts, rights = left.cells(), right.cells()
        return {**lefts, **{(at[0] + shift,) + at[1:]: cell for at, cell in rights.items()}}

    def needs(box):
        behind = [(box[0][0] - shift, box[0][1] - shift)] + box[1:]
        return (left.needs(meet(box, left.schema.bounds))
                + right.needs(meet(behind, right.schema.bounds)))
    return Plan(schema, cells, needs)
