"""Runs random statements over stored arrays, and compares the replies with the model's.

Each script stores up to four arrays and answers fifty statements over them: queries with each
operator in turn under up to three others, and some stores and inserts. Replies are compared
byte by byte, with what --trace tells. The status is 1 where one differs.
"""
import argparse
import random
import sys

from afl_model import Session
from generator import OPERATORS, Generator
from program import program_in_folder

STATEMENTS = 50
SHOWN = 400


def make_script(rng, number, count):
    """The statements of a script, and what the model replies to each."""
    session = Session(trace=True)
    generator = Generator(rng, session.arrays)
    statements, replies = [], []

    def say(statement):
        statements.append(statement)
        replies.append(session.answer(statement))
    for name in 'ABCD'[:rng.randint(1, 4)]:
        source = generator.query(rng.choice(OPERATORS)) if rng.random() < .35 else (
            generator.source())
        say(f'store({source}, {name})')
    for place in range(count):
        query = generator.query(OPERATORS[(number * STATEMENTS + place) % len(OPERATORS)])
        if rng.random() < .08:
            query = f'{rng.choice(("store", "insert"))}({query}, {rng.choice("ABCDEF")})'
        say(query)
    return statements, replies


def first_difference(statements, replies, output):
    """The first statement that is answered otherwise, its reply and what came, or None."""
    place = 0
    for statement, reply in zip(statements, replies):
        if not output.startswith(reply, place):
            return statement, reply, output[place:place + len(reply) + 1]
        place += len(reply)
    return None if place == len(output) else ('behind the script', '', output[place:])


def run(program, seed, count, options):
    """How many scripts have a difference."""
    rng, wrong, refused = random.Random(seed), 0, 0
    for number in range(-(-count // STATEMENTS)):
        size = min(STATEMENTS, count - number * STATEMENTS)
        statements, replies = make_script(rng, number, size)
        refused += sum(reply.startswith('error: ') for reply in replies)
        database = f'DB{number}'
        program.init(database)
        done = program.call('run', database, '--trace', *options, '-', script=';'.join(statements))
        different = first_difference(statements, replies, done.stdout.decode('latin-1'))
        if different:
            wrong += 1
            print(f'script {number}: {different[0]}')
            print(f'  model   {different[1][:SHOWN]!r}\n  program {different[2][:SHOWN]!r}')
    print(f'{count} statements, {refused} replies of them and of stores before are refusals; '
          f'{wrong} scripts differ')
    return wrong


def main():
    parser = argparse.ArgumentParser(description=__doc__.split('\n', maxsplit=1)[0])
    parser.add_argument('program')
    parser.add_argument('seed', type=int)
    parser.add_argument('count', type=int, help='how many statements')
    parser.add_argument('--workers', default='4', help='given to the program')
    words = parser.parse_args()
    with program_in_folder(words.program) as program:
        return int(run(program, words.seed, words.count, ['--workers', words.workers]) > 0)


if __name__ == '__main__':
    sys.exit(main())
