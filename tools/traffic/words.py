"""What the tools that stand at ports have in common: numbers among their words, and the limit of descriptors."""
import argparse
import resource

HOST = "127.0.0.1"


def port(word):
    """What reads a word as a port."""
    if not (word.isascii() and word.isdigit() and len(word) <= 10 and 1 <= int(word) <= 65_535):
        raise argparse.ArgumentTypeError("%s is no port, 1 to 65,535" % word)
    return int(word)


def count(word):
    """What reads a word as a number of connections."""
    if not (word.isascii() and word.isdigit() and len(word) <= 10 and 1 <= int(word) <= 1_000_000):
        raise argparse.ArgumentTypeError("%s is no number from 1 to 1,000,000" % word)
    return int(word)


def seconds(word):
    """What reads a word as a number of seconds."""
    try:
        value = float(word)
    except ValueError:
        value = -1.0
    if not 0 < value <= 1_000_000:
        raise argparse.ArgumentTypeError("%s is no number of seconds, above 0 and up to 1,000,000" % word)
    return value


def counted(number, one, several=None):
    """A number and what it counts: 1 connection, 2 connections."""
    return "%s %s" % (format(number, ","), one if number == 1 else several or one + "s")


def allow_descriptors():
    """Lets this process have as many descriptors as the system lets it."""
    _, most = resource.getrlimit(resource.RLIMIT_NOFILE)
    resource.setrlimit(resource.RLIMIT_NOFILE, (most, most))
