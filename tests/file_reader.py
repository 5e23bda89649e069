"""Reads a database file that nobody writes to, from docs/FORMAT.md alone, and prints it.

Prints each array with its versions and their cells; or the page at which the file is wrong,
with status 1. All cells are held in memory.
"""
import argparse
import struct
import sys
from collections import namedtuple

from afl_model.values import show
from items import (MAX_ARRAYS, MAX_NEXT, Items, Payload, WrongItem, is_core_empty, print_arrays)

PAGE = 4096
LINKED = PAGE - 4       # bytes of content of a page of a chain
GATES = (512, 1024)
ENTRIES, ENTRY = 64, 64

Slot = namedtuple('Slot', 'sequence length first log')
# What a file has: its arrays, the database's sequence, and how many pages are in use.
Database = namedtuple('Database', 'arrays sequence pages')


class WrongPage(Exception):
    """The file is no database, or a payload is damaged, at this page."""

    def __init__(self, page):
        super().__init__(f'page {page}')
        self.page = page


class Array:
    """An array: versions has {number: (length, pages) of its directory}, and then cells."""

    def __init__(self, schema, following=1):
        self.schema, self.next, self.versions = schema, following, {}

    def add(self, directory):
        self.versions[self.next] = directory
        self.next += 1


class FileReader:
    """Reads a file in the order of the refusals that FORMAT lists."""

    def __init__(self, data):
        self.data = data
        self.owners = {}        # of each page of a blob what it belongs to
        self.chained = {0}      # page 0, the log page and the pages of chains

    def read(self):
        slot = self.current_slot()
        records = [] if slot.log is None else self.log(slot.log)
        catalogue = self.chain(slot.first, slot.length, 0)
        arrays = self.spelled(catalogue, slot.first, self.catalogue)
        for length, first in records:
            record = self.chain(first, length, slot.log)
            self.spelled(record, first, lambda items: self.apply(items, arrays, first))
        sequence = slot.sequence + len(records)
        for name in sorted(arrays):
            array = arrays[name]
            for number in sorted(array.versions):
                array.versions[number] = self.version(name, number, array, slot.first, sequence)
        return Database(arrays, sequence, len(self.owners) + len(self.chained))

    def is_page(self, number):
        return 0 < number and (number + 1) * PAGE <= len(self.data)

    def page(self, number):
        return self.data[number * PAGE:(number + 1) * PAGE]

    def current_slot(self):
        first = self.page(0)
        if len(first) < PAGE or first[:8] != b'AFLSTORE' or first[8:12] not in (
                b'\1\0\0\0', b'\2\0\0\0'):
            raise WrongPage(0)
        slots = []
        for gate in GATES:
            if first[gate] in (1, 2):
                slot = Slot(*struct.unpack('<QQII', first[gate + 8:gate + 32]))
                slots.append(slot if first[gate] == 2 else slot._replace(log=None))
        if len({slot.sequence for slot in slots}) != len(slots) or not slots:
            raise WrongPage(0)
        current = max(slots, key=lambda slot: slot.sequence)
        if current.log is not None and not self.is_page(current.log):
            raise WrongPage(0)
        return current

    def log(self, number):
        """The records of a log page: (length, first page)."""
        self.chained.add(number)
        page = self.page(number)
        entries = [page[k * ENTRY:(k + 1) * ENTRY] for k in range(ENTRIES)]
        closed = next((k for k, entry in enumerate(entries) if entry[0] != 1), ENTRIES)
        if any(entry[0] == 1 for entry in entries[closed:]):
            raise WrongPage(number)
        return [struct.unpack('<QI', entry[8:20]) for entry in entries[:closed]]

    def chain(self, link, length, holder):
        content = []
        if length == 0:
            raise WrongPage(holder)
        for _ in range(-(-length // LINKED)):
            if not self.is_page(link) or link in self.chained:
                raise WrongPage(holder)
            self.chained.add(link)
            content.append(self.page(link)[4:])
            holder, link = link, struct.unpack('<I', self.page(link)[:4])[0]
        if link:
            raise WrongPage(holder)
        return b''.join(content)[:length]

    @staticmethod
    def spelled(data, page, read):
        """What the bytes spell; they are wrong at this page."""
        items = Items(data)
        try:
            result = read(items)
            items.end()
        except WrongItem:
            raise WrongPage(page) from None
        return result

    @staticmethod
    def directory(items):
        length = items.number('Q', 1)
        return length, items.pages(length)

    def catalogue(self, items):
        arrays, name = {}, None
        for _ in range(items.number('I', 0, MAX_ARRAYS)):
            name, schema, following = items.array_head(name)
            array = arrays[name] = Array(schema, following)
            number = 0
            for _ in range(items.number('I')):
                number = items.version(number, following)
                array.versions[number] = self.directory(items)
        return arrays

    def apply(self, items, arrays, page):
        """Changes the arrays as a record tells."""
        kind, name = items.number('B', 1, 5), items.name()
        schema = items.schema() if kind in (1, 2) else None
        directory = self.directory(items) if kind in (2, 3) else None
        bound = items.number('I') if kind == 5 else None
        array = arrays.get(name)
        if kind in (1, 2):
            allowed = array is None and len(arrays) < MAX_ARRAYS
            array = arrays[name] = Array(schema)
        else:
            allowed = array is not None
        if allowed and kind == 3:
            allowed = array.next < MAX_NEXT
        if allowed and kind == 5:
            allowed = 1 <= bound <= max(array.versions, default=0)
        if not allowed:
            raise WrongPage(page)
        if directory:
            array.add(directory)
        if kind == 4:
            del arrays[name]
        if kind == 5:
            array.versions = {n: d for n, d in array.versions.items() if n >= bound}

    def blob(self, owner, length, pages, holder):
        """The bytes of a blob; its pages belong to it alone, and versions may share it."""
        if self.owners.get(pages[0]) != owner:
            for number in pages:
                taken = number in self.chained or number in self.owners
                if taken or not self.is_page(number):
                    raise WrongPage(holder)
                self.owners[number] = owner
        return b''.join(map(self.page, pages))[:length]

    def version(self, name, number, array, catalogue_page, sequence):
        """The cells of a version."""
        length, pages = array.versions[number]
        data = self.blob(('directory', name, number), length, pages, catalogue_page)

        def read(items):
            cells, chunk = {}, None
            for _ in range(items.number('Q')):
                chunk = items.chunk(array.schema, chunk)
                size = items.number('Q', 1)
                commit = items.number('Q', 1, sequence)
                found = items.pages(size)
                items.require(not is_core_empty(array.schema, chunk))
                owner = ('payload', name, chunk, size, commit, tuple(found))
                payload = self.blob(owner, size, found, pages[0])
                cells.update(self.spelled(payload, found[0], lambda inner: Payload(
                    inner, array.schema, chunk).core_cells()))
            return cells
        return self.spelled(data, pages[0], read)


def read_file(path):
    with open(path, 'rb') as file:
        return FileReader(file.read()).read()


def main():
    parser = argparse.ArgumentParser(description=__doc__.split('\n', maxsplit=1)[0])
    parser.add_argument('file')
    parser.add_argument('--cells', type=int, help='print so many cells a version (all)')
    words = parser.parse_args()
    try:
        database = read_file(words.file)
    except WrongPage as wrong:
        print(f'{words.file} is wrong at {wrong}')
        return 1
    print_arrays(database.arrays, show, words.cells)
    print(f'{len(database.arrays)} arrays, {database.pages} pages in use, '
          f'sequence {database.sequence}')
    return 0


if __name__ == '__main__':
    sys.exit(main())
