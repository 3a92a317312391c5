#!/usr/bin/env python3
"""Writes a long capture to standard output, the same bytes at each run: 200,000 packets in order,
each with 1 to 6 messages that add, change, execute and delete orders, 40 to 180 of them live."""
import random
import sys

from feed import add, delete, executed, packet, record, update

DIGITS = b"0123456789ABCDEFGHIJKLMNOPQRSTUVWXYZ"
PACKETS = 200_000


def order(k):
    text = bytearray()
    for _ in range(12):
        text.append(DIGITS[k % 36])
        k //= 36
    return bytes(reversed(text)) + b"SN"


def one(k, live):
    """A message numbered k, and the live orders behind it."""
    if len(live) < 180 and (len(live) < 40 or random.random() < 0.5):
        live.append((order(k), 300))
        return add(k, order(k), random.choice([b"B", b"S"]), 300, 1250000 + random.randint(0, 99))
    place = random.randrange(len(live))
    name, shares = live[place]
    chance = random.random()
    if chance < 0.3:
        live[place] = (name, 300)
        return update(k, name, 300, 1250000)
    if chance < 0.6 and shares > 100:
        live[place] = (name, shares - 100)
        return executed(k, name, 100, shares - 100)
    live.pop(place)
    return delete(k, name)


def main():
    random.seed(7)
    live = []
    k = 1
    for _ in range(PACKETS):
        messages = [one(k + j, live) for j in range(random.randint(1, 6))]
        sys.stdout.buffer.write(record(packet(k, *messages)))
        k += len(messages)


if __name__ == "__main__":
    main()
