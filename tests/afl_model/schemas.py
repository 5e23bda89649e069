"""Schemas of arrays, and the rules that a schema keeps."""
from collections import namedtuple
from math import prod

from .values import TypeRefusal

UNBOUNDED = 4611686018427387903     # the high bound that `*` stands for
MAX_DIMENSIONS = 6
MAX_ATTRIBUTES = 64
MAX_FRAME = 1 << 48                 # places of a chunk with its overlaps

Attribute = namedtuple('Attribute', 'name type nullable')
Dimension = namedtuple('Dimension', 'name low high chunk overlap')


class Schema:
    """The attributes and dimensions of an array."""

    def __init__(self, attributes, dimensions):
        self.attributes = [Attribute(*a) for a in attributes]
        self.dimensions = [Dimension(*d) for d in dimensions]

    @property
    def attribute_names(self):
        return [a.name for a in self.attributes]

    @property
    def dimension_names(self):
        return [d.name for d in self.dimensions]

    @property
    def types(self):
        return [a.type for a in self.attributes]

    @property
    def bounds(self):
        return [(d.low, d.high) for d in self.dimensions]

    def __str__(self):
        attributes = (f'{a.name}:{a.type}' + ('' if a.nullable else ' not null')
                      for a in self.attributes)
        dimensions = (f'{d.name}={d.low}:{"*" if d.high == UNBOUNDED else d.high}'
                      f',{d.chunk},{d.overlap}' for d in self.dimensions)
        return f'<{",".join(attributes)}>[{",".join(dimensions)}]'


def frame_volume(dimensions):
    return prod(d.chunk + 2 * d.overlap for d in dimensions)


def within_limits(schema, span):
    """The schema that an operator makes, or the refusal of its statement's part."""
    if len(schema.dimensions) > MAX_DIMENSIONS:
        raise TypeRefusal(span, 'too many dimensions')
    if len(schema.attributes) > MAX_ATTRIBUTES:
        raise TypeRefusal(span, 'too many attributes')
    if frame_volume(schema.dimensions) > MAX_FRAME:
        raise TypeRefusal(span, 'chunk too large')
    return schema


def written_schema(node):
    """The schema of a schema's tree, or the refusal of its first wrong part."""
    taken, attributes, dimensions = set(), [], []
    for number, (name, kind, nullable) in enumerate(node.attributes):
        if number == MAX_ATTRIBUTES:
            raise TypeRefusal(name.span, 'too many attributes')
        if kind.value not in ('int64', 'string', 'bool'):
            raise TypeRefusal(kind.span, 'unknown type')
        take_name(name, taken)
        attributes.append(Attribute(name.value, kind.value, nullable))
    for number, parts in enumerate(node.dimensions):
        if number == MAX_DIMENSIONS:
            raise TypeRefusal(parts[0].span, 'too many dimensions')
        dimensions.append(written_dimension(*parts, taken))
    if frame_volume(dimensions) > MAX_FRAME:
        raise TypeRefusal(node.brackets, 'chunk too large')
    return Schema(attributes, dimensions)


def take_name(name, taken):
    if name.value in taken:
        raise TypeRefusal(name.span, 'repeated name')
    taken.add(name.value)


def written_dimension(name, low, high, chunk, overlap, taken):
    take_name(name, taken)
    for bound in (low, high):
        if abs(bound.value) > UNBOUNDED:
            raise TypeRefusal(bound.span, 'bounds range')
    if high.value < low.value:
        raise TypeRefusal(high.span, 'bounds order')
    if chunk.value == 0:
        raise TypeRefusal(chunk.span, 'zero chunk')
    if overlap.value > chunk.value:
        raise TypeRefusal(overlap.span, 'overlap too large')
    return Dimension(name.value, low.value, high.value, chunk.value, overlap.value)
