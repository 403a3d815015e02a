"""Checks, catalogues and replays a collection of web archives: many WARC files, on one machine or on many.

The program `warc` reads each file; GNU parallel spreads the files over cores and machines; SQLite keeps what was found.
This package only puts them together. It has no rule of the format: what a record is, what is wrong with it and what a
capture gives, the program says. docs/COLLECTIONS.md, CATALOGUE.md and ROOM.md describe the commands.
"""
import os

# How members of gzip follow each other, and what is in a package, is read by modules of the Python package. The one
# file that is made of this package has them beside the others; in a checkout they are where they belong.
PYTHON_PACKAGE = os.path.join(os.path.dirname(os.path.abspath(__file__)), "..", "..", "python", "src", "zogwedu")
if os.path.isdir(PYTHON_PACKAGE):
    __path__.append(PYTHON_PACKAGE)
