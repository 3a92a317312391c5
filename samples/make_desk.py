#!/usr/bin/env python3
"""Writes crates/desk/stdin and crates/desk/stdout: commands, and the answers that are owed to them.

The answers are worked out by hand from document 01 and from the table of commands; no program made
them.
"""
from pathlib import Path

from feed import FIRST, SECOND, SYMBOL, THIRD
from feed import add, delete, executed, heartbeat, message, number, packet, priced, session, top, trade, update

HERE = Path(__file__).resolve().parent
LINES = []
ANSWERS = []


def case(line, answer):
    LINES.append(line)
    ANSWERS.append(answer)


def given(command, data, answer, *words):
    case(" ".join([command, data.hex() or "-", *words]), answer)


def every(lines, answer):
    for line in lines:
        case(line, answer)


ID = FIRST.hex()
VALUE = "958319779308913917"
SHARE = SYMBOL.hex()
FIRM = b"MKR1".hex()
EE = "ee"


def no_commands():
    every(["", " ", "status", "STATE", "bad", "state\r", "\tstate"], "bad")
    every([" state", "state ", "open  1", "open 1 "], "bad")
    every(["state 1", "open", "open 1 2", "take", "take - -", "order", "inside", "value", "walk"], "bad")
    every(["unlisted 1", "unlisted -", "unlisted ", "Unlisted", "rule 1", "rule default", "rules", "RULE", "strict"], "bad")
    every(["requests", "header", "message", "best " + SHARE, "rewrite - 0", "rehead 12 0 1 0 0"], "bad")
    every(["best " + SHARE + " 66 66", "rewrite - 0 0 0", "rehead 12 0 1 0 0 12 12"], "bad")


def numbers():
    every(["open -1", "open +1", "open 1a", "open 0x1", "open 1.", "open -", "open 4294967296"], "bad")
    every(["open 18446744073709551615", "open 18446744073709551616", "open 99999999999999999999"], "bad")
    every(["open 4294967295", "open 0004294967295", "open 0", "open 00"], "ok")
    # 8,192 bytes are a line, one more are not
    case("open " + "7".rjust(8187, "0"), "ok")
    case("state", "7 7 0 0")
    case("open " + "8".rjust(8188, "0"), "bad")
    case("state", "7 7 0 0")
    case("x" * 40000, "bad")


# A bad line changes nothing, whichever the rule.
def rules():
    others = ["open 6 STRICT", "open 6 default", "open 6 stric", "open 6 strictly", "open 6 strict x", "open 6 strict "]
    others += ["open x strict", "open - strict", "open -1 strict", "open 4294967296 strict", "open strict 6", "open strict"]
    case("open 5 strict", "ok")
    case("state", "5 5 0 0")
    case("rule", "rule strict")
    case("unlisted", "unlisted 0")
    every(others + ["strict 6"], "bad")
    case("state", "5 5 0 0")
    case("rule", "rule strict")
    case("open 5", "ok")
    case("rule", "rule default")
    every(others, "bad")
    case("state", "5 5 0 0")
    case("rule", "rule default")
    case("open 004294967295 strict", "ok")
    case("state", "4294967295 4294967295 0 0")
    case("rule", "rule strict")


def hex_digits():
    every(["take 0", "take 000", "take 0g", "take g0", "take 0x00", "take --", "take -0", "take 00-"], "bad")
    case("value " + ID.upper(), "value " + VALUE)
    case("value " + ID, "value " + VALUE)


def ids():
    given("value", b"000000000010ZZ", "value 36")
    given("value", b"ZZZZZZZZZZZZ00", "value 4738381338321616895")
    given("value", b"7A400CY528L9aa", "value " + VALUE)
    given("value", b"7A400CY528LaSN", "refused 12")
    every(["value -", "value " + ID[2:], "value " + ID + "00", "order -", "order " + ID[2:], "inside -"], "bad")


def headers():
    given("header", heartbeat(7), "header 12 7 1 0 72000000")
    given("header", packet(4294967295, message(28)), "header 15 4294967295 0 1 72000000")
    given("header", b"", "refused 1")
    given("header", bytes(11), "refused 1")
    given("header", bytes(1473), "refused 2")
    given("header", bytes(4090), "refused 2")
    given("header", heartbeat(7) + b"\0", "refused 3")
    given("header", packet(7, message(28), flag=2), "refused 4")
    given("header", packet(7, message(28), flag=1), "refused 5")
    given("header", packet(7), "refused 6")


def messages():
    texts = " ".join([ID, "66 300", SHARE, "1250000", FIRM, "78 0"])
    given("message", add(1, FIRST, b"B", 300, 1250000), "message 21 1 " + texts)
    given("message", update(2, FIRST, 5, 6), "message 22 2 " + ID + " 5 6 0")
    given("message", delete(3, FIRST), "message 23 3 " + ID)
    given("message", executed(4, FIRST, 5, 6), "message 24 4 " + ID + " 5 6 9001")
    given("message", priced(5, FIRST, 6, 7, 8), "message 25 5 " + ID + " 6 7 9002 8")
    given("message", top(6, 0, 1, 2, 3), "message 26 6 " + SHARE + " 0 1 2 3 78")
    given("message", trade(7, 8, 9), "message 27 7 66 8 " + SHARE + " 9 9003 7")
    given("message", session(6), "message 20 72000001 6")
    given("message", message(28), "message 28")
    given("message", message(28, b"more"), "message 28")
    given("message", message(0), "message 0")
    given("message", message(255, bytes(125)), "message 255")
    listed = message(9, SYMBOL, number(1, 8), b"\2\3", number(4, 4), number(5, 2), b"\6\7\x08")
    given("message", listed, "message 9 " + SHARE + " 1 2 3 4 5 6 7 8")
    given("message", message(11, b"\1", number(2, 8), number(3, 4)), "message 11 1 2 3")
    given("message", message(12, b"\1", number(2, 4), number(3, 8), number(4, 4)), "message 12 1 2 3 4")
    largest = message(27, b"\xff" * 4, b"B", b"\xff" * 4, SYMBOL, b"\x7f" + b"\xff" * 7, b"\xff" * 16)
    wide = "18446744073709551615"
    words = ["message 27 4294967295 66 4294967295", SHARE, "9223372036854775807", wide, wide]
    given("message", largest, " ".join(words))


def unread():
    given("message", b"", "refused 7")
    given("message", b"\0\2", "refused 7")
    given("message", b"\0\4\x1c", "refused 7")
    given("message", message(0, bytes(126)), "refused 7")
    short = add(1, FIRST, b"B", 300, 1250000)
    given("message", number(54, 2) + short[2:54], "refused 7")
    long = number(56, 2) + short[2:] + b"\xff"
    given("message", long, "message 21 1 " + " ".join([ID, "66 300", SHARE, "1250000", FIRM, "78 0"]))
    given("message", add(1, FIRST, b"X", 300, 1250000), "refused 14")
    given("message", session(2), "refused 14")


def rewrites():
    gone = delete(3, FIRST)
    given("rewrite", gone, "wrote 21 " + EE + gone.hex() + EE, "1", "23")
    given("rewrite", gone, "wrote 21 " + gone.hex(), "0", "21")
    given("rewrite", gone, "refused 11 " + EE * 21, "1", "21")
    given("rewrite", gone, "refused 11 " + EE * 21, "18446744073709551615", "21")
    given("rewrite", gone, "refused 11 -", "0", "0")
    given("rewrite", gone, "wrote 21 " + EE * 2027 + gone.hex(), "2027", "2048")
    given("rewrite", number(23, 2) + gone[2:] + b"xy", "wrote 21 " + gone.hex() + EE * 2, "0", "23")
    given("rewrite", message(28), "refused 14 " + EE * 3, "0", "3")
    given("rewrite", message(99), "refused 14 -", "0", "0")
    given("rewrite", b"", "refused 7", "0", "4")
    given("rewrite", session(2), "refused 14", "0", "4")
    every(["rewrite - 0 2049", "rewrite - 18446744073709551616 0", "rewrite - x 0", "rewrite 0 0 0"], "bad")


def reheads():
    case("rehead 12 7 1 0 5 14", "wrote 12 000c00000007010000000005" + EE * 2)
    case("rehead 1472 4294967295 0 255 4294967295 12", "wrote 12 05c0ffffffff00ffffffffff")
    case("rehead 12 7 1 0 5 11", "refused 11 " + EE * 11)
    case("rehead 11 7 1 0 5 12", "refused 14 " + EE * 12)
    case("rehead 1473 7 0 1 5 12", "refused 14 " + EE * 12)
    case("rehead 15 7 2 1 5 12", "refused 14 " + EE * 12)
    case("rehead 13 7 1 0 5 12", "refused 14 " + EE * 12)
    case("rehead 12 7 1 1 5 12", "refused 14 " + EE * 12)
    case("rehead 15 7 0 0 5 0", "refused 14 -")
    every(["rehead 65536 7 0 1 5 12", "rehead 15 4294967296 0 1 5 12", "rehead 15 7 256 1 5 12"], "bad")
    every(["rehead 15 7 0 256 5 12", "rehead 15 7 0 1 4294967296 12", "rehead 15 7 0 1 5 2049"], "bad")


def walks():
    given("walk", heartbeat(7), "walk")
    given("walk", packet(7, delete(3, FIRST), message(28), message(99, b"x")), "walk 12:21 33:3 36:4")
    given("walk", packet(4294967295, message(28), message(28)), "walk 12:3 15:3")
    given("walk", b"", "refused 1")
    given("walk", bytes(1473), "refused 2")
    given("walk", bytes(12), "refused 3")
    given("walk", packet(7, message(28), flag=4), "refused 4")
    given("walk", packet(7, message(28), flag=1), "refused 5")
    given("walk", packet(7), "refused 6")
    given("walk", packet(7, b"\0\2\x1c"), "refused 7")
    given("walk", packet(7, message(28), b""), "refused 7")


def window():
    case("open 10", "ok")
    case("state", "10 10 0 0")
    case("requests 0", "requests 0 -")
    given("take", packet(12, message(28), message(28)), "ok 0")
    case("state", "10 14 0 0")
    case("requests 12", "requests 1 000c720000000a0000000259")
    case("requests 14", "requests 1 000c720000000a0000000259" + EE * 2)
    case("requests 11", "refused 11 " + EE * 11)
    every(["requests 2049", "requests -", "requests x"], "bad")
    given("take", heartbeat(16), "ok 0")
    case("requests 24", "requests 2 000c720000000a0000000259000c720000000e0000000259")
    given("take", packet(12, message(28, b"x")), "refused 10")
    given("take", packet(10, message(28), message(28)), "ok 4")
    case("state", "14 16 0 0")
    given("take", heartbeat(3), "ok 0")
    given("take", packet(10, message(99)), "ok 0")
    case("state", "14 16 0 0")


def refusals():
    given("take", b"", "refused 1")
    given("take", bytes(1473), "refused 2")
    given("take", bytes(4090), "refused 2")
    given("take", bytes(12), "refused 3")
    given("take", packet(14, message(28), flag=0x80), "refused 4")
    given("take", heartbeat(14)[:7] + b"\1" + bytes(4), "refused 5")
    given("take", packet(14), "refused 6")
    given("take", packet(14, message(28) + b"\0"), "refused 7")
    given("take", packet(4294967295, message(28), message(28)), "refused 8")
    given("take", packet(270, message(28)), "refused 9")
    case("state", "14 16 0 0")
    given("take", packet(269, message(28)), "ok 0")
    case("state", "14 270 0 0")


def orders():
    case("open 1", "ok")
    case("order " + ID, "refused 13")
    given("order", b"7A400CY528LaSN", "refused 12")
    case("best " + SHARE + " 66", "refused 13")
    case("best " + SHARE + " 67", "refused 12")
    given("best", bytes(14), "refused 12", "66")
    every(["best " + SHARE + " 256", "best " + SHARE + " B", "best " + ID[2:] + " 66", "best - 66"], "bad")
    bids = [add(1, FIRST, b"B", 300, 1250000), add(2, SECOND, b"B", 200, 1250000), add(3, THIRD, b"B", 900, 1240000)]
    given("take", packet(1, *bids), "ok 3")
    case("best " + SHARE + " 66", "best 1250000 500 2")
    case("best " + SHARE + " 083", "refused 13")
    case("order " + ID, "order " + VALUE + " 66 300 " + SHARE + " 1250000 " + FIRM + " 78")
    # the last two characters of an id are not compared
    given("order", b"7A400CY528L9--", "order " + VALUE + " 66 300 " + SHARE + " 1250000 " + FIRM + " 78")
    given("take", packet(4, update(4, FIRST, 5, 1230000), delete(5, SECOND)), "ok 2")
    case("best " + SHARE + " 66", "best 1240000 900 1")
    case("order " + ID, "order " + VALUE + " 66 5 " + SHARE + " 1230000 " + FIRM + " 78")
    given("take", packet(6, session(5)), "ok 1")
    case("state", "7 7 5 0")


def faults():
    case("open 100", "ok")
    sell = add(1, FIRST, b"S", 300, 1260000)
    given("take", packet(100, sell, executed(2, FIRST, 500, 0)), "ok 2")
    case("state", "102 102 0 1 101 6")
    case("order " + ID, "order " + VALUE + " 83 300 " + SHARE + " 1260000 " + FIRM + " 78")
    given("take", packet(102, executed(3, FIRST, 100, 199), executed(4, FIRST, 300, 0)), "ok 2")
    case("state", "104 104 0 2 101 6")
    case("order " + ID, "refused 13")
    firsts = [(session(2), 2), (delete(1, SECOND), 5), (executed(3, SECOND, 1, 0), 5)]
    for opening, faults in [("open 0 strict", [(message(99), 1), *firsts]), ("open 0", firsts)]:
        for fault, reason in faults:
            case(opening, "ok")
            given("take", packet(0, fault), "ok 1")
            case("state", "1 1 0 1 0 %d" % reason)
            case("unlisted", "unlisted 0")
    case("open 4294967295", "ok")
    given("take", packet(4294967295, sell), "ok 1")
    case("state", "4294967296 4294967296 0 0")
    case("open 5", "ok")
    given("take", packet(5, sell, sell, priced(1, FIRST, 100, 199, 7), priced(2, FIRST, 100, 200, 7)), "ok 4")
    case("state", "9 9 0 2 6 3")
    case("best " + SHARE + " 83", "best 1260000 200 1")


def insides():
    case("open 0", "ok")
    case("inside " + SHARE, "refused 13")
    given("inside", b" NGSB".ljust(14), "refused 12")
    given("take", packet(0, top(1, 2, 3, 4, 5), top(6, 7, 8, 0, 9)), "ok 2")
    case("inside " + SHARE, "inside 6 7 8 0 9 78")


# One more than a table holds: 257 orders, 65 symbols.
def full_tables():
    case("open 0", "ok")
    for first in range(0, 256, 16):
        group = [add(1, b"%012d--" % k, b"B", 1, 1) for k in range(first, first + 16)]
        given("take", packet(first, *group), "ok 16")
    given("take", packet(256, add(1, FIRST, b"B", 1, 1)), "ok 1")
    case("state", "257 257 0 1 256 4")
    case("best " + SHARE + " 66", "best 1 256 256")
    case("open 0", "ok")
    for first in range(0, 64, 16):
        group = [top(1, 1, 1, 1, 1, b"S%013d" % k) for k in range(first, first + 16)]
        given("take", packet(first, *group), "ok 16")
    given("take", packet(64, top(1, 1, 1, 1, 1)), "ok 1")
    case("state", "65 65 0 1 64 8")
    case("inside " + SHARE, "refused 13")


def keeps():
    every(["keep", "keep - -", "keep 0", "keep 00c", "keep 0g", "Keep -"], "bad")
    every(["apply", "apply 1 1", "apply -", "apply -1", "apply 1a", "apply 18446744073709551616"], "bad")
    every(["lowest 1", "lowest -"], "bad")
    case("open 10", "ok")
    case("lowest", "lowest 10")
    case("apply 1", "applied 0")
    given("keep", packet(11, message(28), message(28)), "kept 2")
    case("state", "10 13 0 0")
    case("lowest", "lowest 10")
    case("apply 18446744073709551615", "applied 0")
    case("requests 12", "requests 1 000c720000000a0000000159")
    given("keep", packet(10, message(28), message(28)), "kept 1")
    case("state", "10 13 0 0")
    case("lowest", "lowest 13")
    case("requests 0", "requests 0 -")
    given("keep", packet(10, message(28), message(28), message(28)), "kept 0")
    given("keep", packet(11, message(28, b"x")), "refused 10")
    case("keep -", "refused 1")
    given("keep", packet(266, message(28)), "refused 9")
    given("keep", packet(265, message(28)), "kept 1")
    case("state", "10 266 0 0")
    case("lowest", "lowest 13")
    case("requests 12", "requests 1 000c720000000d000000fc59")
    case("apply 0", "applied 0")
    case("apply 1", "applied 1")
    case("state", "11 266 0 0")


# Some wait and some were applied; then a packet is taken, which applies what it can.
def kept_and_taken():
    given("keep", packet(266, message(28)), "kept 1")
    given("keep", packet(10, message(28, b"x")), "kept 0")
    given("take", packet(12, message(28, b"x")), "refused 10")
    given("take", packet(267, message(28)), "refused 9")
    case("state", "11 267 0 0")
    given("take", heartbeat(300), "ok 2")
    case("state", "13 300 0 0")
    case("lowest", "lowest 13")
    case("requests 24", "requests 2 000c720000000d000000fc59000c720000010b0000000259")
    given("keep", heartbeat(301), "kept 0")
    given("keep", heartbeat(299), "kept 0")
    case("state", "13 301 0 0")
    case("apply 1", "applied 0")


# An order and an unlisted type, which do nothing while they wait.
def applied():
    for opening, last, apart in [("open 1 strict", "3 3 0 1 2 1", 0), ("open 1", "3 3 0 0", 1)]:
        case(opening, "ok")
        given("keep", packet(1, add(1, FIRST, b"B", 300, 1250000), message(99)), "kept 2")
        case("state", "1 3 0 0")
        case("order " + ID, "refused 13")
        case("apply 1", "applied 1")
        case("state", "2 3 0 0")
        case("unlisted", "unlisted 0")
        case("order " + ID, "order " + VALUE + " 66 300 " + SHARE + " 1250000 " + FIRM + " 78")
        case("apply 0005", "applied 1")
        case("state", last)
        case("unlisted", "unlisted %d" % apart)


def full_window():
    case("open 0", "ok")
    given("keep", packet(0, *[message(28)] * 255), "kept 255")
    given("keep", packet(255, message(28)), "kept 1")
    given("keep", packet(256, message(28)), "refused 9")
    case("lowest", "lowest 256")
    case("apply 1", "applied 1")
    given("keep", packet(256, message(28)), "kept 1")
    case("lowest", "lowest 257")
    case("apply 100", "applied 100")
    case("apply 18446744073709551615", "applied 156")
    case("apply 18446744073709551615", "applied 0")
    case("state", "257 257 0 0")
    case("lowest", "lowest 257")


# By default an unlisted type is counted apart, strictly it is fault 1.
def unlisted():
    for kind in [0, 10, 29, 255]:
        case("open 7", "ok")
        given("take", packet(7, message(kind)), "ok 1")
        case("state", "8 8 0 0")
        case("unlisted", "unlisted 1")
        case("open 7 strict", "ok")
        given("take", packet(7, message(kind)), "ok 1")
        case("state", "8 8 0 1 7 1")
        case("unlisted", "unlisted 0")
    several = packet(7, message(0), message(10, b"x"), message(28), message(29), message(255, bytes(125)))
    case("open 7", "ok")
    given("take", several, "ok 5")
    given("take", several, "ok 0")
    case("state", "12 12 0 0")
    case("unlisted", "unlisted 4")
    case("open 7 strict", "ok")
    case("unlisted", "unlisted 0")
    given("take", several, "ok 5")
    given("take", several, "ok 0")
    case("state", "12 12 0 4 7 1")
    case("unlisted", "unlisted 0")
    # an opening starts anew
    case("open 7", "ok")
    case("state", "7 7 0 0")
    given("take", several, "ok 5")
    case("unlisted", "unlisted 4")
    case("open 7", "ok")
    case("unlisted", "unlisted 0")
    case("open 4294967295", "ok")
    given("take", packet(4294967295, message(0)), "ok 1")
    case("state", "4294967296 4294967296 0 0")
    case("unlisted", "unlisted 1")


# The types that are listed and have no effect, one Imbalance with bytes behind its type.
def listed():
    some = [message(28), message(28, b"more"), trade(7, 8, 9), message(11, b"\1", number(2, 8), number(3, 4))]
    some += [message(9, SYMBOL, number(1, 8), b"\2\3", number(4, 4), number(5, 2), b"\6\7\x08")]
    some += [message(12, b"\1", number(2, 4), number(3, 8), number(4, 4))]
    for opening in ["open 7", "open 7 strict"]:
        case(opening, "ok")
        given("take", packet(7, *some), "ok 6")
        case("state", "13 13 0 0")
        case("unlisted", "unlisted 0")


# The first fault's number and reason are those of a fault, and an unlisted type changes nothing else.
def among_faults():
    mixed = packet(100, message(99), delete(1, SECOND), message(99), executed(3, SECOND, 1, 0))
    case("open 100", "ok")
    given("take", mixed, "ok 4")
    case("state", "104 104 0 2 101 5")
    case("unlisted", "unlisted 2")
    case("open 100 strict", "ok")
    given("take", mixed, "ok 4")
    case("state", "104 104 0 4 100 1")
    case("unlisted", "unlisted 0")
    case("open 100 strict", "ok")
    given("take", packet(100, delete(1, SECOND), message(99), message(28)), "ok 3")
    case("state", "103 103 0 2 100 5")
    case("unlisted", "unlisted 0")
    like = [message(29, delete(2, FIRST)[3:]), message(19, session(6)[3:])]
    for opening, last, apart in [("open 1", "5 5 5 0", 2), ("open 1 strict", "5 5 5 2 3 1", 0)]:
        case(opening, "ok")
        given("take", packet(1, add(1, FIRST, b"B", 300, 1250000), session(5), *like), "ok 4")
        case("state", last)
        case("unlisted", "unlisted %d" % apart)
        case("best " + SHARE + " 66", "best 1250000 300 1")


# What waits is counted when it is applied, what is old or refused never.
def counted_once():
    case("open 10", "ok")
    given("take", packet(11, message(0), message(29)), "ok 0")
    given("take", packet(11, message(10)), "refused 10")
    case("unlisted", "unlisted 0")
    given("take", packet(10, message(255)), "ok 3")
    case("unlisted", "unlisted 3")
    given("take", packet(10, message(255), message(0)), "ok 0")
    given("take", heartbeat(20), "ok 0")
    case("state", "13 20 0 0")
    case("unlisted", "unlisted 3")
    three = packet(10, message(0), message(29), message(99))
    case("open 10", "ok")
    given("keep", three, "kept 3")
    given("keep", three, "kept 0")
    case("unlisted", "unlisted 0")
    case("apply 1", "applied 1")
    case("unlisted", "unlisted 1")
    given("keep", three, "kept 0")
    given("take", three, "ok 2")
    case("state", "13 13 0 0")
    case("unlisted", "unlisted 3")
    case("apply 5", "applied 0")
    case("unlisted", "unlisted 3")
    case("open 10 strict", "ok")
    given("keep", three, "kept 3")
    case("state", "10 13 0 0")
    case("apply 2", "applied 2")
    case("state", "12 13 0 2 10 1")
    given("take", three, "ok 1")
    case("state", "13 13 0 3 10 1")
    case("unlisted", "unlisted 0")


def main():
    case("state", "0 0 0 0")
    case("rule", "rule default")
    case("unlisted", "unlisted 0")
    for group in [no_commands, numbers, rules, hex_digits, ids, headers, messages, unread, rewrites, reheads, walks]:
        group()
    for group in [window, refusals, orders, faults, insides, full_tables, keeps, kept_and_taken, applied, full_window]:
        group()
    for group in [unlisted, listed, among_faults, counted_once]:
        group()
    # the last line has no line feed
    case("open 3", "ok")
    case("state", "3 3 0 0")
    crate = HERE.parent / "crates" / "desk"
    (crate / "stdin").write_bytes("\n".join(LINES).encode())
    (crate / "stdout").write_text("".join(answer + "\n" for answer in ANSWERS))


if __name__ == "__main__":
    main()
