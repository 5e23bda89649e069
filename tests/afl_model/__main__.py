"""python3 -m afl_model [--trace] < SCRIPT: prints what the model answers to a script."""
import argparse
import sys

from . import answer


def main():
    parser = argparse.ArgumentParser(prog='afl_model', description=__doc__)
    parser.add_argument('--trace', action='store_true', help='tell which chunks are asked for')
    trace = parser.parse_args().trace
    script = sys.stdin.buffer.read().decode('latin-1')
    replies = answer(script, trace)
    sys.stdout.buffer.write(''.join(replies).encode('latin-1'))
    return int(any(reply.startswith('error: ') for reply in replies))


if __name__ == '__main__':
    sys.exit(main())
