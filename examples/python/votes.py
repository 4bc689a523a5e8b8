"""Three damaged bursts become one text; two subscriptions become hits. By ctypes:

    python3 votes.py LIBRARY

LIBRARY is the shared object. examples/python/run makes it for this machine and runs this.
"""
import ctypes
import sys

SENT = b"ZCZC-WXR-TOR-039173-039051-139069+0030-1591829-KCLE/NWS-"
BYTES, WORDS = ctypes.POINTER(ctypes.c_uint8), ctypes.POINTER(ctypes.c_uint32)
SIZE, WORD = ctypes.c_size_t, ctypes.c_uint32


class Refused(Exception):
    """A call said a number other than 0."""


class Voted(ctypes.Structure):
    """What same_vote returns: its answer, and how many bytes were dropped of each burst."""

    _fields_ = [("answer", ctypes.c_uint64), ("first", WORD), ("second", WORD), ("third", WORD)]


def granted(name, answer):
    """The size in a granted answer; a refusal is raised."""
    number, size_or_index = answer & 0xFFFFFFFF, answer >> 32
    if number:
        raise Refused(f"{name}: refused {number} at {size_or_index}")
    return size_or_index


def declare(name, result, *kinds):
    """A call of the library."""
    call = getattr(same, name)
    call.argtypes, call.restype = kinds, result
    return call


def declare_granted(name, *kinds):
    """A call of the library that gives the size of a granted answer, or raises."""
    call = declare(name, ctypes.c_uint64, *kinds)
    return lambda *words: granted(name, call(*words))


def lent_bytes(content):
    return (ctypes.c_uint8 * len(content))(*content)


def lent_words(count):
    return (ctypes.c_uint32 * count)()


def receive(preamble, damaged):
    """A burst as received: some preamble bytes, one of them with a wrong bit, then the text with one byte damaged."""
    burst = bytearray(b"\xab" * preamble + SENT)
    burst[preamble // 2] ^= 0x10
    burst[preamble + damaged] ^= 0x24
    return lent_bytes(burst)


if len(sys.argv) != 2:
    sys.exit("usage: python3 votes.py LIBRARY   (examples/python/run makes the library and runs this)")
try:
    same = ctypes.CDLL(sys.argv[1])
except OSError as why:
    sys.exit(f"votes.py: {why}")
vote = declare("same_vote", Voted, BYTES, SIZE, BYTES, SIZE, BYTES, SIZE, BYTES, SIZE)
read = declare_granted("same_read", BYTES, SIZE, WORDS, SIZE)
add = declare_granted("same_add", WORDS, SIZE, WORD, WORD, WORD)
report = declare_granted("same_report", WORDS, SIZE, WORD, BYTES, SIZE, WORD, WORD, WORD, WORD, WORDS, SIZE, WORDS, SIZE)

a, b, c, text = receive(16, 9), receive(16, 20), receive(11, 40), lent_bytes(bytes(252))
voted = vote(a, len(a), b, len(b), c, len(c), text, len(text))
print(f"dropped={voted.first} {voted.second} {voted.third}")
n = granted("same_vote", voted.answer)
print("text=" + bytes(text[:n]).decode())

fields = lent_words(50)
places = read(text, n, fields, len(fields))
print(f"places={places} minutes={fields[7]}")

book, summary, hits = lent_words(8293), lent_words(16), lent_words(8192)
add(book, len(book), 39051, 7, 1)
add(book, len(book), 39069, 7, 3)
for i in range(report(book, len(book), 7, text, n, 2024, 159, 18, 40, summary, len(summary), hits, len(hits))):
    print(f"hit={hits[2 * i]:06d} {hits[2 * i + 1]:02d}")
