"""Which columns are read where a person has not chosen them."""
import itertools
import re

from .learning import MOST_READ

LONGEST_READ = 1000  # characters that an example may have to read


def nearest(region):
    """The other columns, those nearest to the one to fill first, the left ones before the right ones."""
    return sorted((it for it in range(region.width) if it != region.to), key=lambda it: (it > region.to, abs(it - region.to)))


def usual(region, header, given, has_tables, tick):
    """The columns that are read by default, at most eight, in their order: none with more empty cells than others or too much
    text beside an example, and none of numbers where no example has a digit, if there are no tables to look a number up in."""
    has_digit = has_tables or any(re.search(r"\d", it) for it in given.values())
    chosen = []
    for column in nearest(region):
        if len(chosen) == MOST_READ:
            break
        texts = region.texts(column, tick)
        held = sum(1 for it in texts[header:] if it)
        is_number = len(region.has_values(column)) * 2 > held
        is_long = any(len(texts[row]) > LONGEST_READ for row in given)
        if held * 2 > len(texts) - header and not is_long and (has_digit or not is_number):
            chosen.append(column)
    return sorted(chosen)


def all_held(region, header, tick):
    """The nearest eight columns that hold anything."""
    held = (it for it in nearest(region) if any(region.texts(it, tick)[header:]))
    return sorted(itertools.islice(held, MOST_READ))
