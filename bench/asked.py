"""Answers --help, as each script here does, with the text at the script's head."""
import sys


def answer_help(name, text):
    """Prints the text and ends, where the module of this name is the script that runs and --help is among its words."""
    if name == "__main__" and not {"--help", "-h"}.isdisjoint(sys.argv[1:]):
        print(text.strip())
        sys.exit(0)
