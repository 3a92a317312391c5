"""The bytes of the feed and of a capture, for the scripts of this folder."""

SYMBOL = b"JNGSB".ljust(14)
FIRST = b"7A400CY528L9SN"
SECOND = b"7A400CY528LASN"
THIRD = b"7A400CY528LBSN"


def number(n, size):
    return n.to_bytes(size, "big")


def message(kind, *fields):
    payload = b"".join(fields)
    return number(3 + len(payload), 2) + number(kind, 1) + payload


def packet(seq, *messages, flag=0):
    body = b"".join(messages)
    return number(12 + len(body), 2) + number(seq, 4) + bytes([flag, len(messages)]) + number(72000000, 4) + body


def heartbeat(seq):
    return packet(seq, flag=1)


def record(packet):
    return b"\xa5\x5a" + number(len(packet), 2) + packet


def time(milli):
    return number(milli, 4)


def session(code):
    return message(20, number(72000001, 8), bytes([code]))


def add(milli, order, side, quantity, price, symbol=SYMBOL):
    return message(21, time(milli), order, side, number(quantity, 4), symbol, number(price, 8), b"MKR1", b"N", bytes(2))


def update(milli, order, quantity, price):
    return message(22, time(milli), order, number(quantity, 4), number(price, 8), bytes(2))


def delete(milli, order):
    return message(23, time(milli), order)


def executed(milli, order, quantity, remaining):
    return message(24, time(milli), order, number(quantity, 4), number(remaining, 4), number(9001, 8))


def priced(milli, order, quantity, remaining, price):
    return message(25, time(milli), order, number(quantity, 4), number(remaining, 4), number(9002, 8), number(price, 8))


def top(milli, ask, asked, bid, wanted, symbol=SYMBOL):
    return message(26, time(milli), symbol, number(ask, 8), number(asked, 4), number(bid, 8), number(wanted, 4), b"N")


def trade(milli, quantity, price):
    return message(27, time(milli), b"B", number(quantity, 4), SYMBOL, number(price, 8), number(9003, 8), number(7, 8))
