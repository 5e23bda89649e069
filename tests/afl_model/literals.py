"""The cells that are written out: `build` with `true` as its third argument."""
from .parsing import tokenize
from .values import Null, ParseRefusal, TypeRefusal


class BadLiteral(Exception):
    """The text is no list of cells of the schema."""


def literal_cells(node, schema):
    """The cells of a text as `[(1,'a'),(),(2,null)]`, from the low bound on."""
    try:
        return LiteralReader(tokenize(node.value), schema).cells()
    except (ParseRefusal, BadLiteral):
        raise TypeRefusal(node.span, 'bad literal') from None


class LiteralReader:
    def __init__(self, tokens, schema):
        self.tokens, self.at, self.schema = tokens, 0, schema

    def take_if(self, symbol):
        if self.at == len(self.tokens) or self.tokens[self.at][:2] != ('symbol', symbol):
            return False
        self.at += 1
        return True

    def take(self, symbol):
        if not self.take_if(symbol):
            raise BadLiteral

    def cells(self):
        (at, high), cells = self.schema.bounds[0], {}
        self.take('[')
        if not self.take_if(']'):
            while True:
                cell = self.cell()
                if at > high:
                    raise BadLiteral
                if cell is not None:
                    cells[(at,)] = cell
                at += 1
                if self.take_if(','):
                    continue
                self.take(']')
                break
        if self.at < len(self.tokens):
            raise BadLiteral
        return cells

    def cell(self):
        """The values of a cell, or None where `()` leaves it out."""
        attributes = self.schema.attributes
        if not self.take_if('('):
            if len(attributes) != 1:
                raise BadLiteral
            return [self.value(attributes[0])]
        if self.take_if(')'):
            return None
        values = []
        for place, attribute in enumerate(attributes):
            if place:
                self.take(',')
            values.append(self.value(attribute))
        self.take(')')
        return values

    def value(self, attribute):
        minus = self.take_if('-')
        if self.at == len(self.tokens):
            raise BadLiteral
        kind, word = self.tokens[self.at][:2]
        self.at += 1
        if kind == 'number' and attribute.type == 'int64':
            return -word if minus else word
        if not minus:
            if kind == 'text' and attribute.type == 'string':
                return word
            if word in ('true', 'false') and kind == 'word' and attribute.type == 'bool':
                return word == 'true'
            if attribute.nullable and (kind == 'code' or (kind, word) == ('word', 'null')):
                return Null(word if kind == 'code' else 0)
        raise BadLiteral
