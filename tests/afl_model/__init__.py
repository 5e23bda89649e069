"""A model of the language AFL: an interpreter written from docs/AFL.md, apart from the program.

`answer` answers the statements of a script; `Session` answers them one by one and keeps what
they store. A text is a str of one character a byte (latin-1), as the language counts bytes.
"""
from .statements import Session, answer, split_script

__all__ = ['Session', 'answer', 'split_script']
