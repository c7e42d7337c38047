"""Reservation of time frames by the rules of document 01 and of the change requests that have landed, for Python: the functions
of the library by ctypes, with no package.

The shared library is made of the static one, which `c/library` builds; its code may stand at any address:

    gcc -shared -o target/staticlib/libframes.so -Wl,--whole-archive target/staticlib/libexports.a -Wl,--no-whole-archive

c/frames.h says of each function what it does and in which order it refuses.
"""

import ctypes
import os
from typing import NamedTuple

REFUSED = 1000000     # an answer from here on is a refusal: this and the refusal's number
CALLS_MOST = 65536    # call bytes that count
SESSION_MOST = 26     # numbers that serve for every session
IMAGE_MOST = 387      # bytes that serve for every network file

# a slice is a pointer and then a length
BYTES = [ctypes.c_char_p, ctypes.c_size_t]
BYTES_OUT = [ctypes.POINTER(ctypes.c_uint8), ctypes.c_size_t]
NUMBERS_16 = [ctypes.POINTER(ctypes.c_uint16), ctypes.c_size_t]
NUMBERS_64 = [ctypes.POINTER(ctypes.c_uint64), ctypes.c_size_t]

ARGUMENTS = {
    "frames_report": BYTES + BYTES + BYTES_OUT,
    "frames_lookup": BYTES + BYTES + [ctypes.c_uint32] + NUMBERS_16,
    "frames_free_frames": BYTES + BYTES + [ctypes.c_uint8],
    "frames_ways": BYTES + BYTES + BYTES + NUMBERS_64,
    "frames_image": BYTES + BYTES_OUT,
    "frames_write": [ctypes.c_uint16] + NUMBERS_16 + NUMBERS_16 + NUMBERS_64 + NUMBERS_16 + BYTES_OUT,
}


class Refused(Exception):
    """A refused call, with the number that document 01 has for the refusal."""

    def __init__(self, number):
        super().__init__("refused with %d" % number)
        self.number = number


class Session(NamedTuple):
    """A live session: its delay in ticks, and the link, the frame and the cycle of each hop; hop 0 lies in cycle 0."""

    delay: int
    links: list
    frames: list
    cycles: list


class Library:
    """The library at a path, or at the path that FRAMES_LIBRARY has. What is refused raises Refused."""

    def __init__(self, path=None):
        self.functions = ctypes.CDLL(os.path.abspath(path or os.environ["FRAMES_LIBRARY"]))
        for name, arguments in ARGUMENTS.items():
            function = getattr(self.functions, name)
            function.argtypes = arguments
            function.restype = ctypes.c_uint64

    def report(self, file, calls):
        """The text of the program frames on the bytes of a network file and of call records."""
        out = (ctypes.c_uint8 * (22 + 11 * min(len(calls), CALLS_MOST)))()
        length = given(self.functions.frames_report(file, len(file), calls, len(calls), out, len(out)))
        return ctypes.string_at(out, length).decode("ascii")

    def lookup(self, file, calls, number):
        """The session that is live under a number after the calls."""
        out = (ctypes.c_uint16 * SESSION_MOST)()
        number = fitting(number, 32)
        given(self.functions.frames_lookup(file, len(file), calls, len(calls), number, out, len(out)))
        hops = out[0]
        links, frames, cycles = (out[2 + group * hops:2 + (group + 1) * hops] for group in range(3))
        return Session(out[1], links, frames, cycles)

    def free_frames(self, file, calls, link):
        """How many frames of a link are free after the calls."""
        return given(self.functions.frames_free_frames(file, len(file), calls, len(calls), fitting(link, 8)))

    def ways(self, file, calls, route):
        """How many schedules there are over a route, which is the links of its hops, in the frames that are free after the calls."""
        out = (ctypes.c_uint64 * 1)()
        links = bytes(fitting(link, 8) for link in route)
        given(self.functions.frames_ways(file, len(file), calls, len(calls), links, len(links), out, len(out)))
        return out[0]

    def image(self, file):
        """The bytes of a network file, read and written again."""
        out = (ctypes.c_uint8 * IMAGE_MOST)()
        length = given(self.functions.frames_image(file, len(file), out, len(out)))
        return ctypes.string_at(out, length)

    def write(self, ticks, links):
        """The bytes of the file of a network: T, and for each link its K, its Z, the word of its closed frames and its Y, the least
        hold."""
        count = len(links)
        frames = (ctypes.c_uint16 * count)(*(fitting(k, 16) for k, z, closed, y in links))
        ranges = (ctypes.c_uint16 * count)(*(fitting(z, 16) for k, z, closed, y in links))
        closings = (ctypes.c_uint64 * count)(*(fitting(closed, 64) for k, z, closed, y in links))
        least = (ctypes.c_uint16 * count)(*(fitting(y, 16) for k, z, closed, y in links))
        out = (ctypes.c_uint8 * IMAGE_MOST)()
        ticks = fitting(ticks, 16)
        slices = (frames, count, ranges, count, closings, count, least, count)
        length = given(self.functions.frames_write(ticks, *slices, out, len(out)))
        return ctypes.string_at(out, length)


def given(answer):
    """The length or the count that an answer is, if it isn't a refusal."""
    if answer >= REFUSED:
        raise Refused(answer - REFUSED)
    return answer


def fitting(number, bits):
    """The number, if it has so many bits: ctypes would drop the others."""
    if not 0 <= number < 1 << bits:
        raise OverflowError("%d is no number of %d bits" % (number, bits))
    return number
