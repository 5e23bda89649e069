"""Expressions over the cells of an array: their types, and what they give for a cell.

An expression is checked to a pair of its type (None for a null, which fits all types) and a
function from a coordinate and the values of the cell there to a value or a Fault.
"""
import operator

from .values import (MAX_TEXT, Fault, Null, TypeRefusal, in_range, is_fault, is_null, strict)

# The calls that make or change arrays: none is part of an expression.
CHANGES = frozenset(('store', 'insert', 'remove', 'remove_versions', 'versions', 'show', 'list'))
QUERIES = frozenset((
    'scan', 'build', 'filter', 'apply', 'project', 'between', 'subarray', 'slice', 'join',
    'cross_join', 'aggregate', 'regrid', 'window', 'redimension', 'sort', 'rank', 'cumulate',
    'transpose', 'reverse', 'unpack', 'xgrid', 'merge', 'concat'))

COUNTS = {'is_null': 1, 'strlen': 1, 'string': 1, 'missing': 1, 'missing_reason': 1, 'iif': 3}


def quotient(left, right):
    if right == 0:
        return Fault('divide by zero')
    size = abs(left) // abs(right)
    return in_range(size if (left < 0) == (right < 0) else -size)


def remainder(left, right):
    if right == 0:
        return Fault('divide by zero')
    size = abs(left) % abs(right)
    return -size if left < 0 else size


def plus(left, right):
    if isinstance(left, int):
        return in_range(left + right)
    return left + right if len(left + right) <= MAX_TEXT else Fault('overflow')


OPERATORS = {
    '+': plus,
    '-': lambda left, right: in_range(left - right),
    '*': lambda left, right: in_range(left * right),
    '/': quotient, '%': remainder,
    '=': operator.eq, '<>': operator.ne, '<': operator.lt, '<=': operator.le,
    '>': operator.gt, '>=': operator.ge,
}


def check_expression(node, schema, dimensions_only=False):
    """The type and the function of an expression over cells of this schema."""
    return Checker(schema, dimensions_only).check(node)


def want(node, found, *allowed):
    if found is not None and found not in allowed:
        raise TypeRefusal(node.span, 'wrong type')


class Checker:
    """Checks expressions over one schema; a method for each kind of node."""

    def __init__(self, schema, dimensions_only):
        self.schema, self.dimensions_only = schema, dimensions_only

    def check(self, node):
        method = getattr(self, 'check_' + node.kind, None)
        if method is None:
            raise TypeRefusal(node.span, 'wrong type')
        return method(node)

    def check_number(self, node):
        return 'int64', lambda at, cell: node.value

    def check_text(self, node):
        return 'string', lambda at, cell: node.value

    def check_truth(self, node):
        return 'bool', lambda at, cell: node.value

    def check_null(self, node):
        null = Null(node.code)
        return None, lambda at, cell: null

    def check_group(self, node):
        return self.check(node.content)

    def check_reference(self, node):
        schema = self.schema
        if not self.dimensions_only and node.name in schema.attribute_names:
            place = schema.attribute_names.index(node.name)
            return schema.types[place], lambda at, cell: cell[place]
        if node.name in schema.dimension_names:
            axis = schema.dimension_names.index(node.name)
            return 'int64', lambda at, cell: at[axis]
        raise TypeRefusal(node.span, 'unknown name')

    def unary(self, node, wanted, function):
        found, operand = self.check(node)
        want(node, found, wanted)
        return lambda at, cell: function(operand(at, cell))

    def check_not(self, node):
        return 'bool', self.unary(node.operand, 'bool', strict(operator.not_))

    def check_minus(self, node):
        return 'int64', self.unary(node.operand, 'int64', strict(lambda n: in_range(-n)))

    def check_binary(self, node):
        left_type, left = self.check(node.left)
        right_type, right = self.check(node.right)
        word = node.operator
        if word in ('and', 'or'):
            want(node.left, left_type, 'bool')
            want(node.right, right_type, 'bool')
            return 'bool', connective(left, right, word == 'or')
        if word == '+':
            kind = 'string' if 'string' in (left_type, right_type) else 'int64'
            allowed = (kind,)
        elif word in '-*/%':
            kind, allowed = 'int64', ('int64',)
        else:
            kind, allowed = 'bool', ('int64', 'string')
            if word in ('=', '<>'):
                allowed += ('bool',)
        want(node.left, left_type, *allowed)
        if kind == 'bool' and left_type:
            allowed = (left_type,)
        want(node.right, right_type, *allowed)
        function = strict(OPERATORS[word])
        return kind, lambda at, cell: function(left(at, cell), right(at, cell))

    def check_call(self, node):
        if node.name in QUERIES or node.name in CHANGES:
            raise TypeRefusal(node.span, 'wrong type')
        if node.name not in COUNTS:
            raise TypeRefusal(node.name_span, 'unknown name')
        if len(node.arguments) != COUNTS[node.name]:
            raise TypeRefusal(node.span, 'wrong count')
        return getattr(self, 'call_' + node.name)(*node.arguments)

    def call_iif(self, *nodes):
        (test_type, test), (then_type, then), (else_type, other) = map(self.check, nodes)
        want(nodes[0], test_type, 'bool')
        if then_type is not None:
            want(nodes[2], else_type, then_type)

        def choose(at, cell):
            truth = test(at, cell)
            if is_fault(truth) or is_null(truth):
                return truth
            return then(at, cell) if truth else other(at, cell)
        return then_type or else_type, choose

    def call_is_null(self, node):
        operand = self.check(node)[1]

        def missing(at, cell):
            value = operand(at, cell)
            return value if is_fault(value) else is_null(value)
        return 'bool', missing

    def call_missing_reason(self, node):
        operand = self.check(node)[1]

        def reason(at, cell):
            value = operand(at, cell)
            if is_fault(value):
                return value
            return value.code if is_null(value) else -1
        return 'int64', reason

    def call_strlen(self, node):
        return 'int64', self.unary(node, 'string', strict(len))

    def call_string(self, node):
        return 'string', self.unary(node, 'int64', strict(str))

    def call_missing(self, node):
        def null(code):
            return Null(code) if 0 <= code <= 127 else Fault('out of bounds')
        return None, self.unary(node, 'int64', strict(null))


def connective(left, right, decisive):
    """`and` (False decides) or `or` (True decides): a null stays where neither side decides."""
    def both(at, cell):
        first = left(at, cell)
        if is_fault(first) or first is decisive:
            return first
        second = right(at, cell)
        if is_fault(second) or second is decisive:
            return second
        return first if is_null(first) else second
    return both
