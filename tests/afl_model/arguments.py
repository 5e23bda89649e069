"""The sorts of arguments that calls take, and aggregates."""
from collections import namedtuple

from .parsing import MAX_NAME
from .values import NULL, TypeRefusal, in_range, is_fault, is_null

SUMMED = {'sum': ('int64',), 'min': ('int64', 'string'), 'max': ('int64', 'string'),
          'count': ('int64', 'string', 'bool')}

# place is that of the attribute, or None for count(*)
Aggregate = namedtuple('Aggregate', 'function place name type')


def is_number(node):
    return node.kind == 'number' or node.kind == 'minus' and node.operand.kind == 'number'


def number_of(node):
    return node.value if node.kind == 'number' else -node.operand.value


def is_bound(node):
    return node.kind == 'null' and node.code == 0 or is_number(node)


def is_name(node):
    return node.kind == 'reference'


def is_schema(node):
    return node.kind == 'schema'


def is_text(node):
    return node.kind == 'text'


def is_expression(node):
    return node.kind not in ('schema', 'star', 'as')


def is_aggregate(node):
    call = node.content if node.kind == 'as' else node
    if call.kind != 'call' or call.name not in SUMMED or len(call.arguments) != 1:
        return False
    kind = call.arguments[0].kind
    return kind == 'reference' or kind == 'star' and call.name == 'count'


def want_sort(node, test):
    if not test(node):
        raise TypeRefusal(node.span, 'wrong type')


def want_sorts(nodes, *tests):
    """The nodes are of these sorts in turn, which come again and again."""
    for place, node in enumerate(nodes):
        want_sort(node, tests[place % len(tests)])


def count_while(nodes, test):
    """How many of the first nodes meet the test."""
    return next((place for place, node in enumerate(nodes) if not test(node)), len(nodes))


def without_brackets(node):
    while node.kind == 'group':
        node = node.content
    return node


def want_at_least(nodes, least):
    for node in nodes:
        if number_of(node) < least:
            raise TypeRefusal(node.span, 'out of range')
    return [number_of(node) for node in nodes]


def places_of(nodes, names):
    """The places of references in a list of names, each at most once."""
    places = []
    for node in nodes:
        if node.name not in names:
            raise TypeRefusal(node.span, 'unknown name')
        place = names.index(node.name)
        if place in places:
            raise TypeRefusal(node.span, 'repeated name')
        places.append(place)
    return places


def made_name(base, end, span):
    if len(base + end) > MAX_NAME:
        raise TypeRefusal(span, 'name too long')
    return base + end


def aggregates_of(nodes, schema, dimension_names, span):
    """The aggregates of arguments, over cells of this schema, for a result of these dimensions."""
    found = []
    for node in nodes:
        call = node.content if node.kind == 'as' else node
        made = aggregate_of(call, schema, node.name if node.kind == 'as' else None, span)
        if made.name in dimension_names or made.name in [other.name for other in found]:
            raise TypeRefusal(node.span, 'repeated name')
        found.append(made)
    return found


def aggregate_of(call, schema, name, span):
    function, argument = call.name, call.arguments[0]
    if argument.kind == 'star':
        return Aggregate(function, None, name or 'count', 'int64')
    if argument.name not in schema.attribute_names:
        raise TypeRefusal(argument.span, 'unknown name')
    place = schema.attribute_names.index(argument.name)
    kind = schema.types[place]
    if kind not in SUMMED[function]:
        raise TypeRefusal(argument.span, 'wrong type')
    name = name or made_name(argument.name, '_' + function, span)
    return Aggregate(function, place, name, kind if function in ('min', 'max') else 'int64')


def aggregate_attributes(aggregates):
    return [(a.name, a.type, True) for a in aggregates]


def total(aggregate, cells):
    """The aggregate of cells in row-major order: the first fault of them, or a value."""
    values = []
    for cell in cells:
        if is_fault(cell):
            return cell
        if aggregate.place is not None:
            if is_fault(cell[aggregate.place]):
                return cell[aggregate.place]
            values.append(cell[aggregate.place])
    if aggregate.place is None:
        return len(cells)
    values = [value for value in values if not is_null(value)]
    if aggregate.function == 'count':
        return len(values)
    if not values:
        return NULL
    if aggregate.function == 'sum':
        return in_range(sum(values))
    return min(values) if aggregate.function == 'min' else max(values)


def totals(aggregates, groups):
    """The cells of groups: {coordinate: cells} to {coordinate: values}."""
    return {at: [total(a, cells) for a in aggregates] for at, cells in groups.items()}
