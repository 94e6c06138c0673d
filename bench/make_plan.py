#!/usr/bin/env python3
"""Writes a proved plan text of 4,000 bookings, 8,000 prices and 30 channels, a large one: of a day there may be four times as many.

133 slots of 1,000 seconds, or of as many as the word says (at least 80), have 30 bookings each, one a channel, and 60 moments with a price of 1 (the first slot 80);
the last 10 bookings stand in a slot of their own without prices. Every priced moment has all channels busy, and no
booking costs more than it pays, so the prices prove the plan.
"""
import sys

CHANNELS = [n for n in range(1, 32) if n != 16]
SLOTS, PAY = 133, 100_000
LENGTH = int(sys.argv[1]) if len(sys.argv) > 1 else 1000
STEP = LENGTH // 80

rows = []
for slot in range(SLOTS + 1):
    for channel in CHANNELS if slot < SLOTS else CHANNELS[:10]:
        start = slot * LENGTH
        rows.append(f"{start} {start + LENGTH} {PAY} 5550{channel:03} {channel} free out")

prices = []
for slot in range(SLOTS):
    for k in range(80 if slot == 0 else 60):
        prices.append(f"{slot * LENGTH + STEP * k} 1")

lines = ["bx-plan 3", "channels " + " ".join(map(str, CHANNELS)), f"bookings {len(rows)}", *rows]
lines += [f"prices {len(prices)}", *prices, f"total {PAY * len(rows)}", "end"]
print("\n".join(lines))
