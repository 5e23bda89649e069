"""The program under test: databases are made, scripts run, and running scripts started."""
import os
import shutil
import subprocess
import tempfile
from contextlib import contextmanager

TIMEOUT = 600


class Program:
    """The program in a file, run in a folder of its own."""

    def __init__(self, path, folder):
        self.path, self.folder = os.path.abspath(path), folder

    def call(self, *words, script=''):
        return subprocess.run([self.path, *words], input=script.encode('latin-1'),
                              capture_output=True, cwd=self.folder, timeout=TIMEOUT, check=False)

    def init(self, name='DB'):
        self.call('init', name).check_returncode()

    def start(self, *words):
        return subprocess.Popen([self.path, *words], cwd=self.folder,
                                stderr=subprocess.DEVNULL)

    def file(self, name):
        return os.path.join(self.folder, name)

    def write(self, name, script):
        with open(self.file(name), 'w', encoding='latin-1') as file:
            file.write(script)

    def read(self, name):
        with open(self.file(name), 'rb') as file:
            return file.read()


@contextmanager
def program_in_folder(path):
    """The program in a new folder, which goes at the end unless something was wrong."""
    folder = tempfile.mkdtemp(prefix='afl-tests-')
    try:
        yield Program(path, folder)
    except BaseException:
        print('the files are left in', folder)
        raise
    shutil.rmtree(folder)
