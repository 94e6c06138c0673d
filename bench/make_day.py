#!/usr/bin/env python3
"""Writes a booking text of 4,000 rows over office hours of 2026-01-05 in UTC: calls of up to ten minutes."""
import random

random.seed(1995)


def stamp(second):
    return f"2026-01-05T{second // 3600:02}:{second // 60 % 60:02}:{second % 60:02}Z"


print("start,end,number,pay,must,direction")
for row in range(4000):
    start = random.randrange(30_000, 42_000)
    end = start + random.randrange(1, 600)
    print(f"{stamp(start)},{stamp(end)},4930{row:07},{random.randrange(1, 1000)},no,out")
