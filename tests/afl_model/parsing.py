"""Texts to trees: tokens with their places, statements, and the pieces of a script."""
import re
from collections import namedtuple

from .schemas import UNBOUNDED
from .values import MAX_INT, ParseRefusal

RESERVED = {'and', 'or', 'not', 'null', 'true', 'false', 'as', 'create', 'array'}
COMPARISONS = ('=', '<>', '!=', '<', '<=', '>', '>=')
MAX_NAME = 64
MAX_CODE = 127

TOKEN = re.compile(
    r"(?P<blank>[ \t\r\n]+|--[^\n]*)|(?P<name>[A-Za-z_][A-Za-z_0-9]*)|(?P<number>[0-9]+)"
    r"|(?P<code>\?[0-9]+)|(?P<text>'(?:[^'\\]|\\.)*')"
    r"|(?P<symbol><=|>=|<>|!=|[()\[\]<>=,:*+\-/%@])", re.S)


class Token(namedtuple('Token', 'kind value start end')):
    """A token: kind is name, word, number, code, text or symbol."""

    @property
    def span(self):
        return (self.start, self.end)


class Node:
    """A part of a tree: its kind, its first byte and the one behind it, and what it has."""

    def __init__(self, kind, start, end, **parts):
        self.kind, self.start, self.end = kind, start, end
        self.__dict__.update(parts)

    @property
    def span(self):
        return (self.start, self.end)


def tokenize(text):
    tokens, place = [], 0
    while place < len(text):
        match = TOKEN.match(text, place)
        if not match:
            kind = 'open text' if text[place] == "'" else 'unknown character'
            raise ParseRefusal(place, kind)
        if match.lastgroup != 'blank':
            kind, value = read_token(match.lastgroup, match.group(), place)
            tokens.append(Token(kind, value, place, match.end()))
        place = match.end()
    return tokens


def read_token(kind, word, place):
    """The kind and the value of a token."""
    if kind == 'number':
        if int(word) > MAX_INT:
            raise ParseRefusal(place, 'literal too large')
        return kind, int(word)
    if kind == 'code':
        if int(word[1:]) > MAX_CODE:
            raise ParseRefusal(place, 'literal too large')
        return kind, int(word[1:])
    if kind == 'text':
        for escape in re.finditer(r'\\(.)', word[1:-1], re.S):
            if escape[1] not in "'\\":
                raise ParseRefusal(place + 1 + escape.start(), 'bad escape')
        return kind, re.sub(r'\\(.)', r'\1', word[1:-1], flags=re.S)
    if kind == 'name' and len(word) > MAX_NAME:
        raise ParseRefusal(place, 'name too long')
    return 'word' if word in RESERVED else kind, word


class Parser:
    """Reads one statement by descent; each method reads what it is named after."""

    def __init__(self, text):
        self.tokens, self.at, self.length = tokenize(text), 0, len(text)

    def refuse(self):
        more = self.at < len(self.tokens)
        raise ParseRefusal(self.tokens[self.at].start if more else self.length, 'unexpected')

    def sees(self, *words):
        if self.at == len(self.tokens):
            return False
        token = self.tokens[self.at]
        return token.kind in ('symbol', 'word') and token.value in words

    def take(self, *words):
        if not self.sees(*words):
            self.refuse()
        self.at += 1
        return self.tokens[self.at - 1]

    def take_if(self, *words):
        return self.take(*words) if self.sees(*words) else None

    def take_kind(self, kind):
        if self.at == len(self.tokens) or self.tokens[self.at].kind != kind:
            self.refuse()
        self.at += 1
        return self.tokens[self.at - 1]

    def statement(self):
        if self.sees('create'):
            first = self.take('create')
            self.take('array')
            name = self.take_kind('name')
            schema = self.schema()
            tree = Node('create', first.start, schema.end, name=name, schema=schema)
        else:
            tree = self.expression()
        if self.at < len(self.tokens):
            self.refuse()
        return tree

    def binary(self, operand, operators, repeats=True):
        left = operand()
        while self.sees(*operators):
            word = self.take(*operators).value
            right = operand()
            left = Node('binary', left.start, right.end, left=left, right=right,
                        operator='<>' if word == '!=' else word)
            if not repeats:
                break
        return left

    def expression(self):
        return self.binary(self.conjunction, ('or',))

    def conjunction(self):
        return self.binary(self.negation, ('and',))

    def negation(self):
        if not self.sees('not'):
            return self.binary(self.sum, COMPARISONS, repeats=False)
        first = self.take('not')
        operand = self.negation()
        return Node('not', first.start, operand.end, operand=operand)

    def sum(self):
        return self.binary(self.product, ('+', '-'))

    def product(self):
        return self.binary(self.factor, ('*', '/', '%'))

    def factor(self):
        if not self.sees('-'):
            return self.primary()
        first = self.take('-')
        operand = self.factor()
        return Node('minus', first.start, operand.end, operand=operand)

    def primary(self):
        if self.sees('('):
            first = self.take('(')
            content = self.expression()
            return Node('group', first.start, self.take(')').end, content=content)
        word = self.take_if('true', 'false', 'null')
        if word:
            if word.value == 'null':
                return Node('null', *word.span, code=0)
            return Node('truth', *word.span, value=word.value == 'true')
        if self.at == len(self.tokens) or self.tokens[self.at].kind in ('symbol', 'word'):
            self.refuse()
        token = self.tokens[self.at]
        self.at += 1
        if token.kind == 'name':
            return self.named(token)
        if token.kind == 'code':
            return Node('null', *token.span, code=token.value)
        return Node(token.kind, *token.span, value=token.value)

    def named(self, name):
        """A version, a call or a reference, whose name was read."""
        if self.take_if('@'):
            number = self.take_kind('number')
            return Node('version', name.start, number.end, name=name.value, number=number.value)
        if not self.take_if('('):
            return Node('reference', *name.span, name=name.value)
        arguments = []
        if not self.sees(')'):
            arguments.append(self.argument())
            while self.take_if(','):
                arguments.append(self.argument())
        end = self.take(')').end
        return Node('call', name.start, end, name=name.value, name_span=name.span,
                    arguments=arguments)

    def argument(self):
        if self.sees('<'):
            return self.schema()
        star = self.take_if('*')
        if star:
            return Node('star', *star.span)
        content = self.expression()
        if self.take_if('as'):
            name = self.take_kind('name')
            return Node('as', content.start, name.end, content=content, name=name.value)
        return content

    def schema(self):
        first = self.take('<')
        attributes = [self.attribute()]
        while self.take_if(','):
            attributes.append(self.attribute())
        self.take('>')
        bracket = self.take('[')
        dimensions = [self.dimension()]
        while self.take_if(','):
            dimensions.append(self.dimension())
        end = self.take(']').end
        return Node('schema', first.start, end, attributes=attributes, dimensions=dimensions,
                    brackets=(bracket.start, end))

    def attribute(self):
        name = self.take_kind('name')
        self.take(':')
        kind = self.take_kind('name')
        if self.take_if('not'):
            self.take('null')
            return name, kind, False
        self.take_if('null')
        return name, kind, True

    def dimension(self):
        name = self.take_kind('name')
        self.take('=')
        low = self.signed_number()
        self.take(':')
        star = self.take_if('*')
        high = star._replace(value=UNBOUNDED) if star else self.signed_number()
        self.take(',')
        chunk = self.take_kind('number')
        self.take(',')
        return name, low, high, chunk, self.take_kind('number')

    def signed_number(self):
        minus = self.take_if('-')
        number = self.take_kind('number')
        if minus:
            return number._replace(value=-number.value, start=minus.start)
        return number


def parse(text):
    return Parser(text).statement()


def split_script(script):
    """The statements of a script: the pieces between its `;` that have tokens."""
    pieces, begin, place, within = [], 0, 0, ''
    while place < len(script):
        character = script[place]
        if within == "'":
            if character == '\\':
                place += 1
            elif character == "'":
                within = ''
        elif within == '-':
            if character == '\n':
                within = ''
        elif character == "'":
            within = "'"
        elif script.startswith('--', place):
            within = '-'
        elif character == ';':
            pieces.append(script[begin:place])
            begin = place + 1
        place += 1
    pieces.append(script[begin:])
    return [p for p in pieces if re.sub(r'--[^\n]*', '', p).strip(' \t\r\n')]
