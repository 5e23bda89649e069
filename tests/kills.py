"""Kills runs in the midst, and checks that the file has each change that was answered.

Behind each kill (SIGKILL) the file is read from docs/FORMAT.md alone: it has every change that
was answered and, of each session, at most one more, whole. The program then opens it again.
The status is 1 where something is otherwise.
"""
import argparse
import copy
import random
import sys
import time

from file_reader import WrongPage
from program import program_in_folder
from session_scripts import (MOST_SESSIONS, START, Script, Shared, check_replies, new_models,
                             own_differences, read_database, script_text, shared_differences)

LONGEST = 0.5       # seconds until a kill


def run_until_killed(program, rng, names):
    """Whether the run was killed before its end."""
    process = program.start('run', 'DB', *names)
    time.sleep(rng.uniform(0.02, LONGEST))
    killed = process.poll() is None
    process.kill()
    process.wait()
    return killed


def replayed(model, steps):
    """The model behind these steps."""
    after = copy.deepcopy(model)
    for step in steps:
        if step.reply is not None:
            after.answer(step.statement)
    return after


class Kills:
    """Runs over one file, one after another; models tells what stands before a run."""

    def __init__(self, program, sessions, statements, seed):
        self.program, self.statements, self.seed = program, statements, seed
        self.models, self.shared = new_models(sessions), Shared()
        self.known = {'log': set(), 'counter': {1}}     # versions of the file before
        self.rng = random.Random(seed)
        self.killed = self.answered = self.unanswered = 0

    def run_once(self, run):
        """What is wrong behind one more run."""
        scripts, names = [], []
        for number, model in enumerate(self.models):
            rng = random.Random(f'{self.seed}/{run}/{number}')
            script = Script(number, rng, copy.deepcopy(model), self.shared)
            scripts.append(script.steps(self.statements))
            names.append(f's{number}')
            self.program.write(names[-1], script_text(scripts[-1]))
            self.program.write(names[-1] + '.out', '')
        self.killed += run_until_killed(self.program, self.rng, names)
        try:
            database = read_database(self.program)
        except WrongPage as wrong:
            return [f'the file is wrong at {wrong}']
        wrong = []
        for number, steps in enumerate(scripts):
            wrong += self.check_session(number, steps, database)
        return wrong + self.check_shared(database)

    def check_session(self, number, steps, database):
        replies = self.program.read(f's{number}.out').decode('latin-1')
        answered, complaint = check_replies(steps, replies, cut=True)
        if complaint:
            return [complaint]
        self.answered += answered
        model = replayed(self.models[number], steps[:answered])
        wrong = own_differences(model, number, database)
        if wrong and answered < len(steps):
            self.unanswered += 1
            model = replayed(model, steps[answered:answered + 1])
            wrong = own_differences(model, number, database)
        self.models[number] = model
        return wrong

    def check_shared(self, database):
        """The shared arrays; and that no session made more than one change without a reply."""
        shared = self.shared
        wrong = list(shared_differences(shared, database))
        for name, told in (('log', shared.log), ('counter', shared.counted)):
            versions = database.arrays[name].versions.keys()
            more = versions - set(told) - self.known[name]
            if len(more) > len(self.models):
                wrong.append(f'{name} has {len(more)} versions more than were told')
            self.known[name] |= versions
        done = self.program.call('run', 'DB', '-', script='aggregate(counter, sum(n))')
        newest = database.arrays['counter'].next - 2
        if done.stdout.decode() != f'{{i}} n_sum\n{{0}} {newest}\n':
            wrong.append(f'opened again, it answers {done.stdout!r}')
        return wrong


def main():
    parser = argparse.ArgumentParser(description=__doc__.split('\n', maxsplit=1)[0])
    parser.add_argument('program')
    parser.add_argument('--runs', type=int, default=10)
    parser.add_argument('--sessions', type=int, default=4, choices=range(1, MOST_SESSIONS + 1),
                        metavar='N', help=f'at most {MOST_SESSIONS} (4)')
    parser.add_argument('--statements', type=int, default=100, help='of each session (100)')
    parser.add_argument('--seed', type=int, default=1)
    words = parser.parse_args()
    with program_in_folder(words.program) as program:
        program.init()
        program.call('run', 'DB', '-', script=START).check_returncode()
        kills = Kills(program, words.sessions, words.statements, words.seed)
        wrong = []
        for run in range(words.runs):
            wrong = kills.run_once(run)
            for line in wrong:
                print(f'run {run}: {line}')
            if wrong:
                break
        print(f'{kills.killed} runs killed, {kills.answered} statements answered, '
              f'{kills.unanswered} changes made without a reply')
        return int(bool(wrong))


if __name__ == '__main__':
    sys.exit(main())
