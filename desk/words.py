"""Numbers on the command line of a tool."""
import argparse
import os

from quantities import read_number


def decimal(text):
    """A decimal number that is not negative, exactly."""
    number = read_number(os.fsencode(text))
    if number is None or number.digits < 0:
        raise argparse.ArgumentTypeError(f"{text} is no decimal number from 0")
    return number.fraction()


def count(text):
    if not (text.isascii() and text.isdigit()):
        raise argparse.ArgumentTypeError(f"{text} is no whole number from 0")
    return int(text)
