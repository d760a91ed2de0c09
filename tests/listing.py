"""Runs the listing program on packets that are written here, bit by bit, from the build definition, and compares what it prints."""
import pathlib
import subprocess
import sys
import time

ROOT = pathlib.Path(__file__).resolve().parent.parent
RUN = [ROOT / "tests" / "x86", ROOT / "target" / "bin" / "listing"]


def field(width, value):
    return format(value, f"0{width}b")


def element(speed, front, entries=()):
    """Returns the bits of an element: V_STATIC (`speed`, in steps of 5 km/h), Q_FRONT and the specific entries."""
    return field(7, speed) + field(1, front) + field(5, len(entries)) + "".join(field(2, q) + field(4, c) + field(7, v) for q, c, v in entries)


def body(names=(0, 0), length=1, altitude=0, first=(16, 0), changes=(), volts=(), amperes=()):
    """Returns the bits of a body: `names` are NID_C and NID_SP; a change is a location and an element's values."""
    bits = field(10, names[0]) + field(32, names[1]) + field(8, 0) * 2 + field(24, length) + field(24, 0) + field(7, 0) + field(20, altitude)
    bits += element(*first) + field(5, len(changes)) + "".join(field(24, at) + element(*values) for at, *values in changes)
    bits += field(4, 0) + field(10, 0) + field(5, len(volts)) + "".join(field(24, at) + field(4, v) + field(10, c) for at, v, c in volts)
    return bits + field(10, 1023) + field(5, len(amperes)) + "".join(field(24, at) + field(10, a) for at, a in amperes)


def packet(bits, counted=None, number=6, padding=""):
    header = field(8, number) + field(16, len(bits) if counted is None else counted) + "00000001001000110100010100000000" + field(24, 1)
    header += field(15, 0) + field(17, 0) + field(8, 7)
    whole = header + bits + padding
    whole += "0" * (-len(whole) % 8)
    return bytes(int(whole[i:i + 8], 2) for i in range(0, len(whole), 8))


def line(start, speed, front):
    return f"FROM {start} SPEED {5 * speed} FRONT {front}\n"


def segment(nid_c, nid_sp, length, altitude):
    return f"SEGMENT {nid_c} {nid_sp} LENGTH {length} ALTITUDE {altitude}\n"


SAMPLE = bytes.fromhex("06 00 B9 00 01 23 45 00 00 01 00 00 00 00 07" + " 00" * 10 + " 40" + " 00" * 5 + " 01" + " 00" * 4 + " 3F F0 00")
TWO_LINES = "SEGMENT 0 0 LENGTH 1 ALTITUDE -100000\nFROM 0 SPEED 80 FRONT 0\n"
ENTRIES = [(0, 10, 120), (1, 2, 3), (2, 0, 7)]
MOST = [(2, 2, 120)] * 31
CHANGES = [(500, 28, 1, ENTRIES), (501, 0, 0), (999, 120, 1, MOST)]
LAST = 16777215


def accepted():
    """Yields accepted packets with their listings: all numbers different, all at both ends, and with entries and wire changes to pass over."""
    yield "the document's packet", SAMPLE, TWO_LINES
    yield "the same, written here", packet(body()), TWO_LINES
    yield "all numbers apart", packet(body((1, 23), 1000, 100456, (20, 1, ENTRIES), CHANGES, [(3, 1, 5)], [(4, 1000)])), (
        segment(1, 23, 1000, 456) + line(0, 20, 1) + line(500, 28, 1) + line(501, 0, 0) + line(999, 120, 1))
    yield "altitude 0", packet(body(altitude=100000)), segment(0, 0, 1, 0) + line(0, 16, 0)
    yield "altitude -1", packet(body(altitude=99999)), segment(0, 0, 1, -1) + line(0, 16, 0)
    starts = range(LAST - 31, LAST)
    yield "the longest listing", packet(body((1023, 2**32 - 1), LAST, 2**20 - 1, (120, 1, MOST), [(x, 120, 1, MOST) for x in starts],
                                             [(x, 5, 1023) for x in range(1, 32)], [(x, 1000) for x in range(1, 32)])), (
        segment(1023, 2**32 - 1, LAST, 948575) + line(0, 120, 1) + "".join(line(x, 120, 1) for x in starts))


def refused():
    """Yields packets with their refusal and its place: the first bit of the field at fault, the first bit left, the first padding bit that is 1."""
    yield "empty input", b"", 1, 0
    yield "fourteen bytes", SAMPLE[:14], 1, 0
    yield "packet number 7", packet(body(), number=7), 2, 0
    yield "a journey of no segments", packet(field(3, 1) + field(8, 0), number=4), 2, 0
    yield "the sample journey", (ROOT / "examples" / "journey.packet").read_bytes(), 2, 0
    yield "without its last byte", SAMPLE[:-1], 3, 0
    yield "a byte more", SAMPLE + b"\0", 3, 0
    yield "a digit A", SAMPLE[:6] + b"\x4a" + SAMPLE[7:], 4, 24
    yield "V_STATIC 121", packet(body(first=(121, 0))), 4, 253
    yield "a class 11 of an entry", packet(body(first=(16, 0, [(1, 0, 7), (0, 11, 7)]))), 4, 281
    yield "a location of 0", packet(body(length=9, changes=[(0, 1, 0)])), 5, 271
    yield "a location at L_SP", packet(body(length=9, changes=[(9, 1, 0)])), 5, 271
    yield "a location that does not rise", packet(body(length=9, changes=[(2, 1, 0), (2, 1, 0)])), 5, 308
    yield "a body of no bits", packet(""), 6, 120
    yield "a field that does not fit", packet(body()[:-1]), 6, 300
    yield "bits that remain", packet(body() + "0"), 13, 305
    yield "a padding bit", packet(body(), padding="0000001"), 7, 311
    yield "two padding bits", packet(body(), padding="0100100"), 7, 306
    for size in (8208, 9000, 100000):
        yield f"{size} bytes of packet number 6", b"\6" + b"\xff" * (size - 1), 3, 0
        yield f"{size} bytes of another", b"\xff" * size, 2, 0
    yield "8207 bytes, the most that pass rule 3", packet(body() + "0" * (65535 - len(body()))), 13, 305
    yield "24 voltage changes that are not there", packet(body()[:165] + field(5, 24) + body()[170:]), 6, 290
    yield "31 current changes that are not there", packet(body()[:180] + field(5, 31)), 6, 305
    # the largest body has 16,460 bits, after 120 of the header
    largest = body((0, 0), LAST, 0, (120, 1, MOST), [(x, 120, 1, MOST) for x in range(1, 32)],
                   [(x, 5, 1) for x in range(1, 32)], [(x, 1000) for x in range(1, 32)])
    yield "the largest segment's last current", packet(largest[:-10] + field(10, 1001)), 4, 16570


def said(data, *words):
    """Runs the program with the data on a pipe and these arguments, and returns its status and what it prints."""
    done = subprocess.run(RUN + list(words), input=data, capture_output=True, check=False)
    return done.returncode, done.stdout.decode("ascii", "replace"), done.stderr.decode("ascii", "replace")


def piece_by_piece(data):
    """Runs the program with the data in three pieces, and returns its status and what it prints."""
    child = subprocess.Popen(RUN, stdin=subprocess.PIPE, stdout=subprocess.PIPE, stderr=subprocess.PIPE)
    for piece in (data[:1], data[1:20], data[20:]):
        child.stdin.write(piece)
        child.stdin.flush()
        time.sleep(0.2)
    out, err = child.communicate()
    return child.returncode, out.decode("ascii", "replace"), err.decode("ascii", "replace")


def named(data):
    """Runs the program with a file's name, which it does not read, and returns its status and what it prints: the text that it gives to standard error."""
    status, out, err = said(data, "examples/sample.packet")
    return status, err, out


def main():
    cases = [(name, said, data, text) for name, data, text in accepted()]
    cases += [(name, said, data, f"REFUSED {number} AT {place}\n") for name, data, number, place in refused()]
    cases += [("the document's packet, piece by piece", piece_by_piece, SAMPLE, TWO_LINES)]
    cases += [("a file's name", named, SAMPLE, "listing reads standard input and no file: listing <FILE\n")]
    failed = 0
    for name, how, data, text in cases:
        answer = how(data)
        if answer != (0, text, ""):
            failed += 1
            print(f"FAILED: {name}: {answer!r} for {text!r}")
    print(f"{len(cases) - failed} passed, {failed} failed")
    return 1 if failed else 0


if __name__ == "__main__":
    sys.exit(main())
