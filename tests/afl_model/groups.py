"""The operators that take cells together: aggregates over groups, and redimension."""
from math import prod

from .arguments import (aggregate_attributes, aggregates_of, count_while, is_aggregate, is_name,
                        is_number, is_schema, places_of, total, totals, want_at_least, want_sort,
                        want_sorts)
from .plans import (Plan, coordinates, fit_nulls, is_inside, meet, needs_unless_hollow, operator,
                    plan)
from .schemas import MAX_FRAME, Schema, within_limits, written_schema
from .values import CellRefusal, TypeRefusal, is_fault, is_null

MAX_WINDOW = 1 << 24


def grouped(source, group_of):
    """The cells of the source by group_of(coordinate), each group in row-major order."""
    groups, cells = {}, source.cells()
    for at in sorted(cells):
        groups.setdefault(group_of(at), []).append(cells[at])
    return groups


def aggregated_schema(aggregates, dimensions, span):
    return within_limits(Schema(aggregate_attributes(aggregates), dimensions), span)


@operator('aggregate', lambda count: count >= 1)
def aggregate(call, arguments, stored):
    source = plan(arguments[0], stored)
    asked = count_while(arguments[1:], is_aggregate) + 1
    want_sorts(arguments[asked:], is_name)
    if asked == 1:
        raise TypeRefusal(call.span, 'wrong count')
    axes = places_of(arguments[asked:], source.schema.dimension_names)
    dimensions = [source.schema.dimensions[axis]._replace(overlap=0) for axis in axes]
    dimensions = dimensions or [('i', 0, 0, 1, 0)]
    found = aggregates_of(arguments[1:asked], source.schema, [d[0] for d in dimensions], call.span)
    schema = aggregated_schema(found, dimensions, call.span)

    def cells():
        groups = grouped(source, lambda at: tuple(at[axis] for axis in axes) if axes else (0,))
        return totals(found, groups if axes else groups or {(0,): []})

    def box_of(box):
        sides = list(source.schema.bounds)
        for side, axis in zip(box, axes):
            sides[axis] = meet([side], [sides[axis]])[0]
        return sides
    return Plan(schema, cells, needs_unless_hollow(source, box_of))


@operator('regrid', lambda count: count >= 1)
def regrid(call, arguments, stored):
    source = plan(arguments[0], stored)
    sizes, found = sizes_and_aggregates(call, arguments, source, 1)
    blocks = want_at_least(sizes, 1)
    old = source.schema.dimensions
    new = [d._replace(high=d.low + (d.high - d.low) // block, overlap=0)
           for d, block in zip(old, blocks)]
    found = aggregates_of(found, source.schema, source.schema.dimension_names, call.span)
    schema = aggregated_schema(found, new, call.span)

    def cells():
        return totals(found, grouped(source, lambda at: tuple(
            d.low + (x - d.low) // block for x, d, block in zip(at, old, blocks))))

    def box_of(box):
        spread = [(d.low + (low - d.low) * block, d.low + (high - d.low) * block + block - 1)
                  for (low, high), d, block in zip(box, old, blocks)]
        return meet(spread, source.schema.bounds)
    return Plan(schema, cells, needs_unless_hollow(source, box_of))


def sizes_and_aggregates(call, arguments, source, per_dimension):
    """The numbers behind the source, so many for each dimension, and the aggregates behind."""
    first = count_while(arguments[1:], is_number) + 1
    want_sorts(arguments[first:], is_aggregate)
    if first - 1 != per_dimension * len(source.schema.dimensions) or first == len(arguments):
        raise TypeRefusal(call.span, 'wrong count')
    return arguments[1:first], arguments[first:]


@operator('window', lambda count: count >= 1)
def window(call, arguments, stored):
    source = plan(arguments[0], stored)
    sizes, found = sizes_and_aggregates(call, arguments, source, 2)
    sizes = want_at_least(sizes, 0)
    reaches = list(zip(sizes[::2], sizes[1::2]))
    dimensions = source.schema.dimensions
    places = prod(back + ahead + 1 for back, ahead in reaches)
    frame = prod(d.chunk + 2 * max(d.overlap, *r) for r, d in zip(reaches, dimensions))
    if places > MAX_WINDOW or frame > MAX_FRAME:
        raise TypeRefusal(call.span, 'window too large')
    found = aggregates_of(found, source.schema, source.schema.dimension_names, call.span)
    schema = aggregated_schema(found, dimensions, call.span)
    overlapped = source.direct and all(max(r) <= d.overlap for r, d in zip(reaches, dimensions))

    def cells():
        made = source.cells()
        order = sorted(made)

        def near(at):
            box = [(x - back, x + ahead) for x, (back, ahead) in zip(at, reaches)]
            if places <= len(order):
                return [made[other] for other in coordinates(box) if other in made]
            return [made[other] for other in order if is_inside(other, box)]
        return {at: made[at] if is_fault(made[at]) else [total(a, near(at)) for a in found]
                for at in order}

    def box_of(box):
        if overlapped:
            return box
        spread = [(low - back, high + ahead) for (low, high), (back, ahead) in zip(box, reaches)]
        return meet(spread, source.schema.bounds)
    return Plan(schema, cells, needs_unless_hollow(source, box_of))


@operator('cumulate', lambda count: count >= 1)
def cumulate(call, arguments, stored):
    source = plan(arguments[0], stored)
    asked = count_while(arguments[1:], is_aggregate) + 1
    if asked < len(arguments) - 1:
        raise TypeRefusal(arguments[asked].span, 'wrong type')
    want_sorts(arguments[asked:], is_name)
    if asked == 1:
        raise TypeRefusal(call.span, 'wrong count')
    names = source.schema.dimension_names
    axis = (places_of(arguments[asked:], names) or [0])[0]
    found = aggregates_of(arguments[1:asked], source.schema, names, call.span)
    schema = aggregated_schema(found, source.schema.dimensions, call.span)

    def cells():
        made, lines, totalled = source.cells(), {}, {}
        for at in sorted(made):
            line = lines.setdefault(at[:axis] + at[axis + 1:], [])
            line.append(made[at])
            totalled[at] = made[at] if is_fault(made[at]) else [total(a, line) for a in found]
        return totalled

    def box_of(box):
        return [(source.schema.bounds[a][0], high) if a == axis else (low, high)
                for a, (low, high) in enumerate(box)]
    return Plan(schema, cells, needs_unless_hollow(source, box_of))


@operator('redimension', lambda count: count >= 2)
def redimension(call, arguments, stored):
    source = plan(arguments[0], stored)
    want_sort(arguments[1], is_schema)
    want_sorts(arguments[2:], is_aggregate)
    move = Redimension(call, arguments[1], arguments[2:], source)
    return Plan(move.schema, move.cells, lambda box: source.needs_all())


class Redimension:
    """The new coordinates and values of a redimension: each a part of the old cell.

    A part is ('axis', number), ('attribute', place) or, of one dimension at most,
    ('counted', low bound): the cells that share their other coordinates are counted along it.
    """

    def __init__(self, call, written, aggregates, source):
        self.source, self.span = source, written.span
        self.schema = written_schema(written)
        self.axes = self.parts_of_dimensions(bool(aggregates))
        self.aggregates = None
        names = self.schema.dimension_names
        found = aggregates_of(aggregates, source.schema, names, call.span)
        if aggregates:
            self.aggregates = self.ordered_aggregates(found)
        else:
            self.values = [self.part_of_attribute(a) for a in self.schema.attributes]

    def parts_of_dimensions(self, aggregated):
        parts, old = [], self.source.schema
        for name, low in ((d.name, d.low) for d in self.schema.dimensions):
            if name in old.dimension_names:
                parts.append(('axis', old.dimension_names.index(name)))
            elif (name, 'int64') in zip(old.attribute_names, old.types):
                parts.append(('attribute', old.attribute_names.index(name)))
            else:
                if aggregated or 'counted' in [kind for kind, _ in parts]:
                    raise TypeRefusal(self.span, 'unknown name')
                parts.append(('counted', low))
        return parts

    def part_of_attribute(self, attribute):
        old = self.source.schema
        if attribute.name in old.attribute_names:
            place = old.attribute_names.index(attribute.name)
            part, kind = ('attribute', place), old.types[place]
        elif attribute.name in old.dimension_names:
            part, kind = ('axis', old.dimension_names.index(attribute.name)), 'int64'
        else:
            raise TypeRefusal(self.span, 'unknown name')
        if attribute.type != kind:
            raise TypeRefusal(self.span, 'wrong type')
        return part

    def ordered_aggregates(self, found):
        by_name, ordered = {a.name: a for a in found}, []
        for attribute in self.schema.attributes:
            if attribute.name not in by_name:
                raise TypeRefusal(self.span, 'unknown name')
            if by_name[attribute.name].type != attribute.type:
                raise TypeRefusal(self.span, 'wrong type')
            ordered.append(by_name[attribute.name])
        if any(a.name not in self.schema.attribute_names for a in found):
            raise TypeRefusal(self.span, 'unknown name')
        return ordered

    def cells(self):
        groups, counts, old = {}, {}, self.source.cells()
        for at in sorted(old):
            if is_fault(old[at]):
                raise CellRefusal(at, old[at].kind)
            target = self.target(at, old[at], counts)
            if target is None:
                continue
            group = groups.setdefault(target, [])
            if group and self.aggregates is None:
                raise CellRefusal(at, 'collision')
            group.append(old[at] if self.aggregates is not None else
                         [taken(part, at, old[at]) for part in self.values])
        if self.aggregates is not None:
            return fit_nulls(self.schema, totals(self.aggregates, groups))
        return fit_nulls(self.schema, {target: group[0] for target, group in groups.items()})

    def target(self, at, cell, counts):
        """The new coordinate of a cell, or None where a null leaves it out."""
        target = [taken(part, at, cell) for part in self.axes]
        for x in target:
            if is_fault(x):
                raise CellRefusal(at, x.kind)
        if any(map(is_null, target)):
            return None
        counted = next((k for k, part in enumerate(self.axes) if part[0] == 'counted'), None)
        if counted is not None:
            others = tuple(target[:counted] + target[counted + 1:])
            target[counted] += counts.get(others, 0)
            counts[others] = counts.get(others, 0) + 1
        if not is_inside(target, self.schema.bounds):
            raise CellRefusal(at, 'out of bounds')
        return tuple(target)


def taken(part, at, cell):
    kind, number = part
    return at[number] if kind == 'axis' else cell[number] if kind == 'attribute' else number
