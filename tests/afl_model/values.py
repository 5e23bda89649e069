"""Values, faults and refusals, and how they are printed.

A value is an int, a bool, a str or a Null. In place of a value, or of a whole cell, a Fault
stands where computing it failed: the statement is refused only if the fault reaches its reply.
"""
MIN_INT, MAX_INT = -(1 << 63), (1 << 63) - 1
MAX_TEXT = 65535


class Null:
    """A missing value; code 0 is plain `null`, code n is `?n`."""

    def __init__(self, code):
        self.code = code

    def __eq__(self, other):
        return isinstance(other, Null) and other.code == self.code

    def __hash__(self):
        return hash(('null', self.code))

    def __repr__(self):
        return f'?{self.code}'


NULL = Null(0)


class Fault:
    """What an expression gives in place of a value where it fails, as `overflow`."""

    def __init__(self, kind):
        self.kind = kind


def is_null(value):
    return isinstance(value, Null)


def is_fault(value):
    return isinstance(value, Fault)


class Refusal(Exception):
    """A statement is refused; `line` is its reply."""

    line = ''


class ParseRefusal(Refusal):
    def __init__(self, place, kind):
        self.line = f'error: parse at {place}: {kind}\n'


class TypeRefusal(Refusal):
    def __init__(self, span, kind):
        self.line = f'error: type at {span[0]}..{span[1]}: {kind}\n'


class CellRefusal(Refusal):
    def __init__(self, coordinate, kind):
        self.line = f'error: cell {show_coordinate(coordinate)}: {kind}\n'


def show_coordinate(coordinate):
    return '{' + ','.join(map(str, coordinate)) + '}'


def show(value):
    """A value as replies print it."""
    if is_null(value):
        return 'null' if value.code == 0 else f'?{value.code}'
    if isinstance(value, bool):
        return 'true' if value else 'false'
    if isinstance(value, int):
        return str(value)
    return quote(value)


def quote(text):
    return "'" + text.replace('\\', '\\\\').replace("'", "\\'") + "'"


def strict(function):
    """The function on values: the first fault of its arguments wins, then the first null."""
    def lifted(*values):
        for value in values:
            if is_fault(value):
                return value
        for value in values:
            if is_null(value):
                return value
        return function(*values)
    return lifted


def in_range(number):
    return number if MIN_INT <= number <= MAX_INT else Fault('overflow')
