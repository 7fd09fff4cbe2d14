"""The words of a script: a parser that shows the text at the script's head, and numbers that have a least one."""
import argparse
import sys


def parser(text):
    """A parser of words. Words that it doesn't know end the script with status 2 and its usage."""
    return argparse.ArgumentParser(prog=sys.argv[0], description=text, formatter_class=argparse.RawDescriptionHelpFormatter)


def natural(text):
    number = int(text)
    if number < 0:
        raise argparse.ArgumentTypeError(f"{text} is below 0")
    return number


def positive(text):
    number = int(text)
    if number < 1:
        raise argparse.ArgumentTypeError(f"{text} is below 1")
    return number
