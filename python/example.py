"""The functions of the library on the worked example of document 01; the first difference ends the program with status 1.

    FRAMES_LIBRARY=target/staticlib/libframes.so python3 python/example.py
"""

import sys

import frames

# T = 48; links 0 and 1 have K 8 and Z 2
NET = bytes.fromhex("30 00 02 03 08 02 03 08 02")

HELD = bytes.fromhex("01 05 00 02 00 01")                # set-up 5 over 0 1: frames 7 0 in cycles 0 1, a delay of 6 ticks
HELD_STILL = HELD + HELD                                 # set-up 5 again: refused with 16
RELEASED = HELD_STILL + bytes.fromhex("03 05 00")        # release 5
CALLS = RELEASED + bytes.fromhex("02 01 00 03 05 00")    # quote over 0; release 5: refused with 19
TWO = HELD + bytes.fromhex("01 06 00 02 00 01")          # set-up 6 over 0 1 as well: frames 0 1 in cycle 0

# numbers of two bytes and of four; 65,541 has the low 16 bits of 5
BOTH = HELD + bytes.fromhex("04 05 00 01 00 02 00 01")    # set-up 65,541 over 0 1 as well: as 6
ONE = BOTH + bytes.fromhex("05 05 00 00 00 03 05 00")     # release 5; release 5: refused with 19, since 65,541 is another number
MIXED = ONE + bytes.fromhex("05 05 00 01 00")             # release 65,541

# NET, but that link 1 has a least hold Y of 0: its switch needs no frame to turn round; and a link of K 16 and Z 4 with Y 5
NO_HOLD = bytes.fromhex("30 00 02 03 08 02 0b 08 02 00")
ABOVE_RANGE = bytes.fromhex("30 00 01 08 05")

# links of K 8 and Z 2 on which frames 3 and 6 alone are free; links of K 4 and K 6; eight links of K 64 and Z 64 in a cycle of 64 ticks
BLOCKED = bytes.fromhex("30 00 02 07 08 02 f7 00 00 00 00 00 00 00 07 08 02 bf 00 00 00 00 00 00 00")
UNFIT = bytes.fromhex("30 00 02 03 04 02 03 06 02")
LARGEST = bytes.fromhex("40 00 08" + 8 * "03 40 40")

TEXT = """\
1 S ok 6 16 7 0 / 0 1
2 S no 16
3 R ok
4 Q ok 0 0 0 / 0
5 R no 19
live 0
"""

MIXED_TEXT = """\
1 S ok 6 16 7 0 / 0 1
2 S ok 6 13 0 1 / 0 0
3 R ok
4 R no 19
5 R ok
live 0
"""


def demand(name, got, expected):
    if got != expected:
        sys.exit("%s: %r, expected %r" % (name, got, expected))


def outcome(call, arguments):
    """What a call gives; ("refused", number) or ("too large",) where it gives nothing."""
    try:
        return call(*arguments)
    except frames.Refused as refused:
        return "refused", refused.number
    except OverflowError:
        return ("too large",)


def compare(call, cases):
    """Makes a call with the arguments of each case, and compares what it gives."""
    for *arguments, expected in cases:
        demand("%s%r" % (call.__qualname__, tuple(arguments)), outcome(call, arguments), expected)
    print("%s: %d calls as expected" % (call.__qualname__, len(cases)))


def plain_calls(library):
    """The calls as a program makes them."""
    text = library.report(NET, CALLS)
    session = library.lookup(NET, HELD, 5)
    count = library.free_frames(NET, HELD, 0)
    ways = library.ways(NET, HELD, [0, 1])
    image = library.image(NET)
    file = library.write(48, [(16, 4, 0, 1), (8, 2, 0, 1)])
    demand("text", text, TEXT)
    demand("session", (session.delay, session.links, session.frames, session.cycles), (6, [0, 1], [7, 0], [0, 1]))
    demand("count", count, 7)
    demand("ways", ways, 13)
    demand("image", image, NET)
    demand("file", file, bytes.fromhex("30 00 02 00 03 08 02"))


def main():
    library = frames.Library()
    plain_calls(library)
    compare(library.report, [
        (NET, CALLS, TEXT),
        (NET, HELD, "1 S ok 6 16 7 0 / 0 1\nlive 1\n"),
        (NET, HELD_STILL[:8], "1 S ok 6 16 7 0 / 0 1\n2 ? no 11\nlive 1\n"),    # the second record is cut off
        (NET, MIXED, MIXED_TEXT),
        (NET, BOTH[:13], "1 S ok 6 16 7 0 / 0 1\n2 ? no 11\nlive 1\n"),         # here in its route
        (NET, b"", "live 0\n"),
        (NO_HOLD, HELD, "1 S ok 0 24 0 0 / 0 0\nlive 1\n"),                     # from each of 8 frames the holds 0, 1 and 2
        (ABOVE_RANGE, HELD, "net no 21\n"),
        (b"", CALLS, "net no 1\n"),
        (NET, bytes(65537), "1 ? no 11\nlive 0\n"),                             # no record is of kind 0
    ])
    # of 5, reference frame 7 and hold 1 make 8, which isn't below K 8: the next cycle; of 6, 0 and 1 make 1
    session = frames.Session(delay=6, links=[0, 1], frames=[7, 0], cycles=[0, 1])
    beside = frames.Session(delay=6, links=[0, 1], frames=[0, 1], cycles=[0, 0])
    at_once = frames.Session(delay=0, links=[0, 1], frames=[0, 0], cycles=[0, 0])
    compare(library.lookup, [
        (NET, HELD, 5, session),
        (NET, HELD_STILL, 5, session),
        (NET, TWO, 5, session),
        (NET, TWO, 6, beside),
        (NET, RELEASED, 5, ("refused", 19)),
        (NET, HELD, 6, ("refused", 19)),
        (NET[:2], HELD, 5, ("refused", 1)),
        (NET, BOTH, 5, session),
        (NET, BOTH, 65536 + 5, beside),
        (NET, BOTH, 2 * 65536 + 5, ("refused", 19)),
        (NET, ONE, 5, ("refused", 19)),
        (NET, ONE, 65536 + 5, beside),
        (NET, MIXED, 65536 + 5, ("refused", 19)),
        (NET, HELD, 2 ** 32 + 5, ("too large",)),
        (NO_HOLD, HELD, 5, at_once),
        (ABOVE_RANGE, HELD, 5, ("refused", 21)),
    ])
    compare(library.free_frames, [
        (NET, HELD, 0, 7),         # frame 7 of link 0 is held
        (NET, HELD, 1, 7),         # frame 0 of link 1 is held
        (NET, RELEASED, 0, 8),
        (NET, HELD, 2, ("refused", 13)),
        (NET[:2], HELD, 0, ("refused", 1)),
        (ABOVE_RANGE, HELD, 0, ("refused", 21)),
        (NET, HELD, 256, ("too large",)),
    ])
    # without frame 7 of link 0 and frame 0 of link 1: from each of the frames 0 to 5 two holds, from frame 6 one
    compare(library.ways, [
        (NET, HELD, [0, 1], 6 * 2 + 1),
        (NET, b"", [0, 1], 8 * 2),
        (NET, RELEASED, [0, 1], 16),
        (NET, HELD, [1, 0], 7 * 2 - 2),        # frames 5 and 6 of link 1 have one hold each
        (NET, TWO, [0, 1], 6 * 2 - 1),         # frames 1 to 6 into frames 2 to 7
        (NET, HELD, b"\0", 7),
        (BLOCKED, b"", [0, 1], 0),
        (NO_HOLD, b"", [0, 1], 8 * 3),         # K of link 0 times Z - Y + 1 of link 1
        (NO_HOLD, b"", [1, 0], 8 * 2),
        (LARGEST, b"", range(8), 64 ** 8),
        (NET, HELD, [], ("refused", 12)),
        (NET, HELD, range(9), ("refused", 12)),
        (NET, HELD, [0, 0, 2], ("refused", 13)),
        (NET, HELD, [0, 0], ("refused", 14)),
        (UNFIT, b"", [0, 1], ("refused", 15)),
        (NET[:2], HELD, [], ("refused", 1)),
        (ABOVE_RANGE, HELD, [], ("refused", 21)),
        (NET, HELD, [256], ("too large",)),
    ])
    compare(library.image, [
        (NET, NET),
        (NET[:8], ("refused", 4)),             # the last record has no Z
        (NET + bytes(1), ("refused", 10)),
        (NO_HOLD, NO_HOLD),
        (NO_HOLD[:9], ("refused", 4)),         # the last record has no Y
        (ABOVE_RANGE, ("refused", 21)),
        (bytes.fromhex("30 00 01 08 01"), ("refused", 6)),    # Y 1 is not written
    ])
    # link 0 has the absent values alone, K 16, Z 4 and Y 1; link 1 has K 8 and Z 2
    compare(library.write, [
        (48, [(16, 4, 0, 1), (8, 2, 0, 1)], bytes.fromhex("30 00 02 00 03 08 02")),
        (48, [(8, 2, 0, 1), (8, 2, 0, 0)], NO_HOLD),
        (48, [(8, 2, 1 << 3, 1)], bytes.fromhex("30 00 01 07 08 02 08 00 00 00 00 00 00 00")),
        (48, [(8, 2, 1 << 3, 2)], bytes.fromhex("30 00 01 0f 08 02 08 00 00 00 00 00 00 00 02")),
        (960, [(64, 63, 1, 0)] * 32, bytes.fromhex("c0 03 20" + 32 * "0f 40 3f 01 00 00 00 00 00 00 00 00")),    # 387 bytes
        (48, [], ("refused", 2)),
        (48, [(8, 2, 0, 1)] * 33, ("refused", 2)),
        (961, [(8, 2, 0, 1)], ("refused", 3)),
        (48, [(5, 2, 0, 1)], ("refused", 7)),
        (48, [(8, 9, 0, 1)], ("refused", 8)),
        (48, [(8, 2, 0, 3)], ("refused", 21)),         # Y above Z
        (48, [(8, 8, 0, 0)], ("refused", 21)),         # Y 0 and Z K
        (48, [(8, 2, 1 << 8, 3)], ("refused", 21)),    # and frame 8 closed
        (48, [(8, 2, 1 << 8, 1)], ("refused", 9)),
        (48, [(65536 + 8, 2, 0, 1)], ("too large",)),
        (48, [(8, 2, 0, 65536)], ("too large",)),
    ])


main()
