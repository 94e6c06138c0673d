#!/usr/bin/env python3
"""Writes a booking text of one of ten shapes of day, or of four whose load does not grow with the count, 2026-01-05 in UTC.

    bench/days.py SHAPE [COUNT]      COUNT rows, 4,000 if not given; the same rows each time
    bench/days.py                    names the ten shapes
    bench/days.py loads              names the four

Of those whose load is fixed a day of more rows has shorter calls, so that as many run at once on the mean.
"""
import random
import sys

DAY = 86_400


def short_calls(count):
    """Calls of up to ten minutes over the whole day."""
    for _ in range(count):
        start = random.randrange(DAY - 600)
        yield start, start + random.randrange(1, 601), random.randrange(1, 1000)


def office_hours(count):
    """The same within some three hours, so that most are refused."""
    for _ in range(count):
        start = random.randrange(30_000, 42_000)
        yield start, start + random.randrange(1, 601), random.randrange(1, 1000)


def two_peaks(count):
    """The same around ten and fifteen o'clock."""
    for row in range(count):
        middle = 36_000 if row % 2 else 54_000
        start = min(max(int(random.gauss(middle, 4_000)), 0), DAY - 600)
        yield start, start + random.randrange(1, 601), random.randrange(1, 1000)


def long_calls(count):
    """Calls of ten minutes to two hours."""
    for _ in range(count):
        start = random.randrange(DAY - 7_200)
        yield start, start + random.randrange(600, 7_201), random.randrange(1, 100_000)


def by_the_second(count):
    """Calls that pay by the second, at a rate of their own."""
    for _ in range(count):
        start, length = random.randrange(DAY - 3_600), random.randrange(60, 3_601)
        yield start, start + length, length * random.randrange(1, 100)


def all_at_noon(count):
    """Calls that all run at noon."""
    for _ in range(count):
        yield random.randrange(1, 43_200), random.randrange(43_201, DAY), random.randrange(1, 1_000_000)


def nested(count):
    """Each call within the one before it."""
    for row in range(count):
        yield row, 2 * count - row, random.randrange(1, 1_000)


def staircase(count):
    """Calls of one length, each a step after the one before it."""
    for row in range(count):
        yield row * 20, row * 20 + 1_200, random.randrange(1, 1_000)


def equal_pay(count):
    """Short calls that all pay the same."""
    for start, end, _ in short_calls(count):
        yield start, end, 5


def chains(count):
    """Three calls of which the second overlaps the others, again and again."""
    for row in range(count):
        start = row // 3 * 20 + row % 3 * 5
        yield start, start + 10, 6 if row % 3 == 1 else 4


def spread(count, longest, opening, closing):
    """Calls of up to so many seconds that start within these."""
    for _ in range(count):
        start = random.randrange(opening, closing)
        yield start, start + random.randrange(1, longest + 1), random.randrange(1, 1000)


def within_day(count, load):
    """Calls of such a length that so many run at once on the mean of the day."""
    longest = 2 * load * DAY // count
    return spread(count, longest, 0, DAY - longest)


def load_8(count):
    """8 calls at once on the mean of the day, so that 30 channels carry all."""
    return within_day(count, 8)


def load_25(count):
    """25 calls at once: 30 channels are too few now and then."""
    return within_day(count, 25)


def load_50(count):
    """50 calls at once: 30 channels are too few nearly always."""
    return within_day(count, 50)


def load_office(count):
    """100 calls at once within some three hours; of 4,000 rows the same as office_hours."""
    return spread(count, 2 * 100 * 12_000 // count, 30_000, 42_000)


SHAPES = [short_calls, office_hours, two_peaks, long_calls, by_the_second, all_at_noon, nested, staircase, equal_pay, chains]
LOADS = [load_8, load_25, load_50, load_office]


def stamp(second):
    return f"2026-01-05T{second // 3600:02}:{second // 60 % 60:02}:{second % 60:02}Z"


def main():
    if len(sys.argv) < 2:
        print("\n".join(shape.__name__ for shape in SHAPES))
        return
    if sys.argv[1] == "loads":
        print("\n".join(shape.__name__ for shape in LOADS))
        return
    shape = next(it for it in SHAPES + LOADS if it.__name__ == sys.argv[1])
    random.seed(1995)
    print("start,end,number,pay")
    for row, (start, end, pay) in enumerate(shape(int(sys.argv[2]) if len(sys.argv) > 2 else 4_000)):
        print(f"{stamp(start)},{stamp(end)},4930{row:07},{pay}")


main()
