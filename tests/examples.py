"""Runs the examples of a page, docs/AFL.md, and compares the replies with the printed ones.

An example is an indented block of statements with one of replies close behind, or a line
"- `STATEMENT` is answered `REPLY`". Where the words between say "under `--trace`" it is run so.
The status is 1 where a reply is otherwise.
"""
import argparse
import re
import sys
from collections import namedtuple

from program import program_in_folder

INDENT = '    '
NEAR = 4        # lines at most from the end of a script to its replies
REPLY = re.compile(r'\{\w|ok$|ok \w+@\d|error: ')

Block = namedtuple('Block', 'first last lines')
Example = namedtuple('Example', 'line script reply trace')


def blocks_of(lines):
    """The indented blocks of a page: numbers of lines from 0, the last one excluded."""
    blocks, first = [], None
    for number, line in enumerate(lines + ['']):
        if line.startswith(INDENT):
            first = number if first is None else first
        elif first is not None:
            text = [line[len(INDENT):] for line in lines[first:number]]
            blocks.append(Block(first, number, text))
            first = None
    return blocks


def is_reply(block):
    return REPLY.match(block.lines[0]) is not None


def examples_of(page):
    """The examples of a page, and how many of its blocks are in none."""
    lines = page.split('\n')
    found, script, blocks = [], None, blocks_of(lines)
    for block in blocks:
        if script and is_reply(block) and block.first - script.last < NEAR:
            between = ' '.join(lines[script.last:block.first])
            found.append(Example(script.first + 1, '\n'.join(script.lines) + '\n',
                                 '\n'.join(block.lines) + '\n', 'under `--trace`' in between))
            script = None
        else:
            script = None if is_reply(block) else block
    others = len(blocks) - 2 * len(found)
    for number, line in enumerate(lines, 1):
        match = re.match(r'- `(.*)` is answered `(.*)`$', line)
        if match:
            found.append(Example(number, match[1], match[2] + '\n', False))
    return found, others


def outcome(program, example):
    """What the program replies to an example, and its status."""
    if not example.trace:
        done = program.call('try', script=example.script)
    else:
        database = f'DB{example.line}'
        program.init(database)
        done = program.call('run', database, '--trace', '-', script=example.script)
    return done.stdout.decode('latin-1'), done.returncode


def run(program, page):
    """How many examples are answered otherwise."""
    examples, others = examples_of(page)
    wrong = 0
    for example in examples:
        expected = example.reply, int(bool(re.search('^error: ', example.reply, re.M)))
        found = outcome(program, example)
        if found != expected:
            wrong += 1
            print(f'line {example.line}: {example.script}')
            print(f'  page    {expected}\n  program {found}')
    print(f'{len(examples)} examples, {wrong} answered otherwise; {others} other blocks')
    return wrong


def main():
    parser = argparse.ArgumentParser(description=__doc__.split('\n', maxsplit=1)[0])
    parser.add_argument('program')
    parser.add_argument('page', help='docs/AFL.md')
    words = parser.parse_args()
    with open(words.page, encoding='latin-1') as file:
        page = file.read()
    with program_in_folder(words.program) as program:
        return int(run(program, page) > 0)


if __name__ == '__main__':
    sys.exit(main())
