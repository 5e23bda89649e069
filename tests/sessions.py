"""Runs scripts side by side over one file, and checks each reply and each cell of the file.

The same file is opened again for each run. Behind a run it is read from docs/FORMAT.md alone:
each cell of each version of each array is as the model and the replies say. The status is 1
where something is otherwise.
"""
import argparse
import random
import sys
import time

from file_reader import WrongPage
from program import program_in_folder
from session_scripts import (MOST_SESSIONS, START, Script, Shared, check_replies, new_models,
                             own_differences, read_database, script_text, shared_differences,
                             unseen_totals)


def check_file(program, models, shared):
    try:
        database = read_database(program)
    except WrongPage as wrong:
        return [f'the file is wrong at {wrong}']
    wrong = [line for number, model in enumerate(models)
             for line in own_differences(model, number, database)]
    wrong += shared_differences(shared, database)
    wrong += unseen_totals(shared, database)
    print(f'  {len(database.arrays)} arrays, {database.pages} pages in use, '
          f'sequence {database.sequence}')
    return wrong


def run_once(program, label, models, shared, count):
    """Runs a script of each session; what is wrong."""
    scripts, names = [], []
    for number, model in enumerate(models):
        script = Script(number, random.Random(f'{label}/{number}'), model, shared)
        scripts.append(script.steps(count))
        names.append(f's{number}')
        program.write(names[-1], script_text(scripts[-1]))
    begin = time.time()
    done = program.call('run', 'DB', *names)
    print(f'run {label}: {len(models)} sessions of {count} statements, '
          f'status {done.returncode}, {time.time() - begin:.1f} s')
    wrong = [] if done.returncode in (0, 1) else [f'status {done.returncode}: {done.stderr!r}']
    for name, steps in zip(names, scripts):
        complaint = check_replies(steps, program.read(name + '.out').decode('latin-1'))[1]
        if complaint:
            wrong.append(f'{name}: {complaint}')
    return wrong or check_file(program, models, shared)


def main():
    parser = argparse.ArgumentParser(description=__doc__.split('\n', maxsplit=1)[0])
    parser.add_argument('program')
    parser.add_argument('--sessions', type=int, default=4, choices=range(1, MOST_SESSIONS + 1),
                        metavar='N', help=f'at most {MOST_SESSIONS} (4)')
    parser.add_argument('--statements', type=int, default=200, help='of each session (200)')
    parser.add_argument('--runs', type=int, default=2, help='over the same file (2)')
    parser.add_argument('--seed', type=int, default=1)
    words = parser.parse_args()
    models, shared = new_models(words.sessions), Shared()
    with program_in_folder(words.program) as program:
        program.init()
        program.call('run', 'DB', '-', script=START).check_returncode()
        for run in range(words.runs):
            label = f'{words.seed}/{run}'
            wrong = run_once(program, label, models, shared, words.statements)
            for line in wrong:
                print('  wrong:', line)
            if wrong:
                return 1
    return 0


if __name__ == '__main__':
    sys.exit(main())
