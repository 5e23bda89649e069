"""Reads a backup: prints it, or compares it with a database file.

A backup is `AFLDUMP1`; the number of arrays, u32; of each array by name its name, schema and
next number as in a catalogue, the number of its versions, u32, and of each version its number,
u32, the number of its chunks, u64, and of each chunk, in the order of a directory, its numbers,
the length of its payload and the payload, the numbers u64; and last the SHA-256 of all bytes
before.

Prints each array with its versions and their cells, or the first wrong byte, with status 1.
With --file the backup's arrays, versions and cells are compared with the file's; the status is
1 where they differ.
"""
import argparse
import hashlib
import sys

from afl_model.values import show
from file_reader import Array, WrongPage, read_file
from items import MAX_ARRAYS, Items, Payload, WrongItem, is_core_empty, print_arrays

MARK = b'AFLDUMP1'


def read_backup(data):
    """The arrays of a backup, by name; raises WrongItem at its first wrong item."""
    items = Items(data)
    items.require(items.take(len(MARK)) == MARK)
    arrays, name = {}, None
    for _ in range(items.number('I', 0, MAX_ARRAYS)):
        name, schema, following = items.array_head(name)
        array = arrays[name] = Array(schema, following)
        number = 0
        for _ in range(items.number('I')):
            number = items.version(number, following)
            array.versions[number] = read_version(items, schema)
    digest = hashlib.sha256(data[:items.at]).digest()
    items.start_item()
    items.require(items.take(len(digest)) == digest)
    items.end()
    return arrays


def read_version(items, schema):
    """The cells of a version; its overlaps are compared with the neighbours' cells."""
    cells, chunk, payloads = {}, None, []
    for _ in range(items.number('Q')):
        chunk = items.chunk(schema, chunk)
        items.require(not is_core_empty(schema, chunk))
        length = items.number('Q', 1)
        start = items.at
        items.require(start + length <= len(items.data))
        inner = Items(items.data[:start + length], start)
        payload = Payload(inner, schema, chunk)
        frame = payload.cells()
        inner.end()
        items.at = start + length
        cells.update((at, cell) for at, cell in frame.items() if payload.is_in_core(at))
        payloads.append((start, payload, frame))
    for start, payload, frame in payloads:
        if frame != {at: cell for at, cell in cells.items() if payload.is_in_frame(at)}:
            raise WrongItem(start)
    return cells


def differences(backup, stored):
    """What differs between the arrays of a backup and those of a file."""
    for name in sorted(backup.keys() | stored.keys()):
        if name not in backup or name not in stored:
            yield f'{name} is in the {"backup" if name in backup else "file"} alone'
            continue
        left, right = backup[name], stored[name]
        if str(left.schema) != str(right.schema) or left.next != right.next:
            yield f'{name}: schema or next version'
        if left.versions.keys() != right.versions.keys():
            yield f'{name}: versions {sorted(left.versions)} and {sorted(right.versions)}'
        for number in sorted(left.versions.keys() & right.versions.keys()):
            if left.versions[number] != right.versions[number]:
                yield f'{name}@{number}: cells'


def compare(arrays, path):
    try:
        found = list(differences(arrays, read_file(path).arrays))
    except WrongPage as wrong:
        found = [f'{path} is wrong at {wrong}']
    for line in found:
        print(line)
    print(f'{len(arrays)} arrays in the backup, {len(found)} differences')
    return int(bool(found))


def main():
    parser = argparse.ArgumentParser(description=__doc__.split('\n', maxsplit=1)[0])
    parser.add_argument('backup')
    parser.add_argument('--file', help='a database file to compare with')
    parser.add_argument('--cells', type=int, help='print so many cells a version (all)')
    words = parser.parse_args()
    try:
        with open(words.backup, 'rb') as file:
            arrays = read_backup(file.read())
    except WrongItem as wrong:
        print(f'{words.backup} is wrong at {wrong}')
        return 1
    if words.file:
        return compare(arrays, words.file)
    print_arrays(arrays, show, words.cells)
    return 0


if __name__ == '__main__':
    sys.exit(main())
