"""options.py: the words that the tools which read a plant have in common."""
import argparse
import os
import re
import sys

from reading import WAIT
from version import version_text

LENGTH = re.compile(r"-\d+[a-z]+([+-].*)?")
STATUSES = """
Exit status: 0 done; 2 wrong words; 3 to 16 the program's own (docs/TOUR.md); 20 another process writes to the plant; 21 a device is not as
the last turn left it; 22 a name, a text, a time or a file is wrong; 127 no program; above that, the program was killed. Nothing is ever
changed in the plant."""


def parser_of(doc, usage=None):
    """A parser with the options that each tool has which reads a plant."""
    parser = argparse.ArgumentParser(description=doc + STATUSES, usage=usage, formatter_class=argparse.RawDescriptionHelpFormatter)
    parser.add_argument("--plant", default=".", metavar="FOLDER", help="the plant's folder (default: this one)")
    parser.add_argument("--program", default="historian", metavar="PATH", help="the historian (default: on the path)")
    parser.add_argument("--wait", type=float, default=WAIT, metavar="SECONDS", help="for the feeder's turn to end (60)")
    parser.add_argument("--version", action="version", version=version_text(os.path.basename(sys.argv[0])))
    return parser


def plain_words(words=None):
    """The words of the command. One such as -8h is a time and no option: a blank before it says so to argparse, and is taken off again."""
    words = sys.argv[1:] if words is None else words
    return [" " + word if LENGTH.fullmatch(word) else word for word in words]


def parsed(parser, words=None):
    """The options, and the words between them."""
    return parser.parse_intermixed_args(plain_words(words))
