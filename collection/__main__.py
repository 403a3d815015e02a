"""Runs the package from this folder, or from the one file that is made of it."""
import sys

from zogwedu_collection.command_line import main

sys.exit(main())
