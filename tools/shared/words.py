"""Counts and lists in words."""


def many(count, word):
    """A count of something, as in `1 place` and `2,000 places`."""
    return f'{count:,} {word}{"" if count == 1 else "s"}'


def one_or(count, one, more):
    """The form of a word that a count wants."""
    return one if count == 1 else more


def all_of(parts):
    """A list, with `and` before the last one."""
    return ' and '.join([', '.join(parts[:-1]), parts[-1]] if len(parts) > 1 else parts)
