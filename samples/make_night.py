#!/usr/bin/env python3
"""Writes the captures of this folder, the same bytes at each run.

example.capture is document 01's: one Add numbered 10, then a heartbeat that says 12 comes next.
night.capture goes on from there: two lines that each lose packets, a retransmission, a fault, a
refused packet, numbers that neither line brought, and a last record that is cut short.
crates/capture/stdin is a copy of it.
"""
from pathlib import Path

from feed import FIRST, SECOND, THIRD
from feed import add, delete, executed, heartbeat, message, packet, priced, record, session, top, trade, update

HERE = Path(__file__).resolve().parent

# Packets by the number of their first message.
P10 = packet(10, add(1, FIRST, b"B", 300, 1250000))
P11 = packet(11, session(1), add(2, SECOND, b"B", 200, 1250000))
P13 = packet(13, add(3, THIRD, b"S", 900, 1260000), top(4, 1260000, 900, 1250000, 500))
P15 = packet(15, executed(5, FIRST, 100, 200))
# 16 states 99 where 100 are left: fault 7
P16 = packet(16, priced(6, FIRST, 100, 99, 1249000), update(7, THIRD, 700, 1259000))
P18 = packet(18, delete(8, SECOND), trade(9, 50, 1250000), message(28))
P23 = packet(23, executed(10, FIRST, 200, 0))
# 11 and 12 sent again by the venue, with 13 behind them
AGAIN = packet(11, session(1), add(2, SECOND, b"B", 200, 1250000), add(3, THIRD, b"S", 900, 1260000))
# a reserved bit: refused
SPOILT = packet(21, message(28), flag=0x80)

NIGHT = [
    P10,
    heartbeat(12),
    P13,  # line A, which lost 11 and 12
    P15,  # line A
    P13,  # line B
    AGAIN,  # what waits is applied
    P11,  # line B, late: all old
    P18,  # line B, which lost 16 and 17
    SPOILT,
    P16,  # line A
    P18,  # line A
    P23,  # line A; both lost 21 and 22
    P23,  # line B
    heartbeat(26),  # 24 and 25 are missing too
]


def main():
    example = record(P10) + record(heartbeat(12))
    cut = record(P23)[:-1]
    night = b"".join(record(p) for p in NIGHT) + cut
    (HERE / "example.capture").write_bytes(example)
    (HERE / "night.capture").write_bytes(night)
    (HERE.parent / "crates" / "capture" / "stdin").write_bytes(night)


if __name__ == "__main__":
    main()
