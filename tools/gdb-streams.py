#!/usr/bin/env python3
"""Sends streams of damaged packets to `bench gdb`, and looks at what comes of each: the program has to end by itself within a minute,
with status 0, no message and no signal; all that it prints has to be packets with right sums, `+` and `-`; and its peak resident size
has to be at most that of --memory, in MiB. The streams of EDGES come first, each in its own form: lengths, addresses and offsets that
are too large, escapes, packets without end, interrupts anywhere, a great many packets at once, each begin of a stream. A history is of
1 to 4 MiB, so that a program without end ends soon. The last line has the greatest peak. It needs the package time."""
import argparse
import concurrent.futures
import os
import random
import re
import signal
import subprocess
import sys
import tempfile
import threading

DATA = f"{os.path.dirname(os.path.realpath(__file__))}/../crates/test_runner/data"
# The programs, by their images, of which the last makes a second process.
SOURCES = {"stars": "examples/stars.s", "endless": "endless.s", "letters": "examples/letters.s"}
IMAGES = tuple(SOURCES)
SECONDS = 60
PACKETS = [
    "qSupported:multiprocess+;swbreak+", "QStartNoAckMode", "qXfer:features:read:target.xml:0,ffb", "qXfer:exec-file:read::0,fff",
    "?", "g", "P21=0700000000000000", "P21=0000000000000000", "P21=ffffff0000000000", "m10000,40", "m11000,8", "mfffffffe,10",
    "M11000,1:00", "X11000,1:a", "G00", "Z0,10014,4", "z0,10014,4", "Z1,10018,4", "Z2,11008,4", "z2,11008,4", "Z3,11008,4",
    "Z4,11000,8", "c", "s", "C05", "S05", "bs", "bc", "qRcmd,63616c6c73", "qRcmd,7472616365", "qRcmd,66696c6573",
    "qRcmd,756e74696c203230", "qRcmd,6b656570", "qRcmd,636f756e74", "vCont?", "Hg0", "qfThreadInfo", "T1", "p21", "D", "k",
]
PRINTED = re.compile(rb"(?:\+|-|\$[^$#]*#[0-9a-f]{2})*\Z")


def packet(payload):
    return b"$%s#%02x" % (payload, sum(payload) % 256)


def packets(text):
    """Returns the packets whose payloads are the words of a text."""
    return b"".join(packet(word.encode("latin-1")) for word in text.split())


def monitor(line):
    return packet(b"qRcmd," + line.hex().encode())


def edges():
    """Returns streams by hand, each with the words that it adds to the command line."""
    walk = packets("QStartNoAckMode Z0,10014,4 c c Z2,11008,4 c bc z0,10014,4 bc s bs c")
    streams = [
        # Frames: of nothing, without end, in one another, too long by one byte, with a wrong sum, with interrupts within.
        *[b"", b"$", b"$#", b"$#0", b"$#00" * 1000, b"$" * 100_000, b"#" * 100_000, b"+-" * 100_000, b"\x03" * 1_000_000, bytes(range(256)) * 100],
        *[b"$" + b"a" * 1_000_000, b"$" + b"}" * 100_001 + b"#00", packet(b"q" * 16_384), packet(b"q" * 16_385), packet(b"}" * 20_000)],
        *[b"$g$g#67", b"$g#\x03\x03", b"$\x03g#6a", b"$c#6\x033$c#63\x03", b"\x03$c#63\x03\x03$c#63\x03$c#63"],
        packet(b"}") + packet(b"}}") + packet(b"}}}") + packet(b"}G") + packet(b"m1}\x100000,4") + packet(b"}]}]") + packet(b"*}\x03"),
        packet(b"m1*\x220,4") + packet(b"g*") + packet(b"\xff") + packet(b"m\xff,1") + packet("Z0,1\u00e9,4".encode()) + packet("\u00e9".encode()),
        # A great many at once.
        *[packets("?") * 200_000, packets("c bc") * 100, packets("s") * 20_000, packets("s bs") * 5000, packets("c") * 1000 + b"\x03" * 1000],
        *[packets("P21=ffffff0000000000 P21=00") * 200, monitor(b"files") * 200, monitor(b"trace") * 1000, monitor(b"calls") * 1000],
        *[packets("Z2,11008,4 z2,11008,4 Z0,10014,4 z0,10014,4") * 5000, packets("c") * 2000 + packets("k") + packets("c") * 2000],
        # Memory: no bytes, all there are, the last ones, numbers that are too large or none.
        packets("m10000,0 m10000,1000 m10000,ffffffff m0,ffffffff mffffffff,1 mffffffff,ffffffff mfffffffe,2 m7fffbfff,2 m7fffffff,1"),
        packets("m7fffffff,ffffffff m80000000,1 m100000000,1 m10000,100000000 m-1,4 m10000,-4 m m, m,, m10000,4, m10000:4 m0x10000,4 M X G P"),
        packets("M10000,0: Mffffffff,ffffffff: M10000,4:zz X10000,0: X0,ffffffff: Xffffffff,1:a P21 P21= P=21 P21=0 P21=00 P22=00 P021=00"),
        packets(" ".join("P21=" + "f" * n for n in range(1, 40))) + packets("P21=0000000000000080 P21=ffffff00 P21=00000001 P21=01000001"),
        # Documents: each offset, past the end, and of unknown names.
        packets(" ".join(f"qXfer:features:read:target.xml:{n:x},{k:x}" for n in (0, 1, 0x7FF, 0xFFFFFFFF) for k in (0, 1, 0xFFFF, 0xFFFFFFFF))),
        packets("qXfer:features:read:target.xml:100000000,1 qXfer:features:read:target.xml:0 qXfer:features:read::0,1 qXfer:features:write:target.xml:0:a"),
        packets("qXfer:exec-file:read::0,fff qXfer:exec-file:read:1:ffffffff,ffffffff qXfer:exec-file:read:1 qXfer:exec-file:read: qXfer:: qXfer"),
        # Points: each kind, no bytes, all bytes, odd addresses, more than there may be, twice, such as are not set.
        packets(" ".join(f"{c}{k},{at},{n}" for c in "Zz" for k in range(7) for at in ("0", "11008", "11009", "ffffffff") for n in ("0", "4", "ffffffff")))
        + packets("c bc c s bs"),
        packets(" ".join(f"Z{k},{0x11000 + n:x},{n:x}" for k in (2, 3, 4) for n in range(12)) + " Z2,0,1 Z2,7fffffff,ffffffff c bc c"),
        packets(" ".join(f"Z0,{0x10000 + n:x},1" for n in range(70)) + " c c c c bc bc bc P21=2000000000000000 P21=00 c bc"),
        packets("Z0,10014,4;X1,0;cmds:1 Z0 Z Z0, Z0,,4 Z0,10014 Z,10014,4 ZZ,10014,4 z z0,1 Z2,11008,4;X zz Z00,10014,4 Z10014,0,4"),
        # Ways: back at the first state, each form of going on, threads, what is not supported.
        packets("bs bc bs bc Z0,10000,4 bc bs Z2,11008,4 bc bs s bc bc z0,10000,4 bs bs bc b bx bcc bss"),
        packets("vCont? vCont;c vCont;s:1;c vCont;C05:p1.-1;c vCont;r10000,10010:1 vCont;t vCtrlC vKill;1 vAttach;1 vRun;; vMustReplyEmpty v vStopped"),
        packets("c10000 s10014 C C05;10000 S;10000 c,,, i i10000,5 r R R00 t10000:0,0 ! A B10000,S d"),
        packets("Hg-1 Hc0 Hgp1.1 Hc-1 Hgffffffffffffffff H Hg T T0 T-1 Tp1.1 Tffffffffffffffff qC qfThreadInfo qsThreadInfo qThreadExtraInfo,1 qL100"),
        packets("qAttached qOffsets qSymbol:: qTStatus qCRC:10000,4 qSearch:memory:0;ffffffff;a QNonStop:1 QPassSignals: qRelocInsn q Q jThreadsInfo"),
        # Commands of people: none, odd digits, bytes that are no text, numbers that are none or too large, blanks.
        packets("qRcmd qRcmd, qRcmd,0 qRcmd,zz qRcmd,00 qRcmd,636F756E74 qRcmd,63:6f") + monitor(b"a" * 8000) + monitor(b"\xff\xfe") + monitor(b"count\0"),
        b"".join(monitor(b"until " + n) + packets("c") for n in (b"", b"0", b"9", b"-1", b"18446744073709551615", b"18446744073709551616", b" 9 ", b"9 9", b"0x9")),
        b"".join(monitor(it) for it in (b" count ", b"\tcount\n", b"COUNT", b"count count", b"until", b"keep", b"keep", b"keep x", b"")) + walk,
        walk + monitor(b"keep") + monitor(b"files") + monitor(b"trace") + packets("D D c k"),
        *[walk[:n] for n in range(0, len(walk), 7)],
    ]
    optional = [("--disk", "kept"), ("--symbols", "x" * 5000), ("--process", "2"), ("--tape", os.devnull)]
    keeps = monitor(b"keep") * 2 + walk + monitor(b"keep") + monitor(b"files")
    return [((), it) for it in streams] + [(words, walk + keeps + packets("qXfer:exec-file:read::0,fff qXfer:exec-file:read::fff,fff")) for words in optional]


def damaged(chance, payload):
    """Returns a payload with some bytes changed, left out, doubled or added."""
    payload = bytearray(payload)
    for _ in range(chance.randint(1, 4)):
        at = chance.randint(0, len(payload))
        how = chance.randint(0, 3)
        if how == 0 and at < len(payload):
            payload[at] = chance.randint(0, 255)
        elif how == 1:
            del payload[at : at + chance.randint(1, 3)]
        elif how == 2:
            payload[at:at] = payload[at : at + chance.randint(1, 8)]
        else:
            payload[at:at] = bytes(chance.choice(b"0123456789abcdef,;:=#$}*\x03") for _ in range(chance.randint(1, 20)))
    return bytes(payload)


def stream(chance):
    """Returns packets one after another, of which some are damaged within their frame and some as a whole."""
    parts = []
    for _ in range(chance.randint(1, 40)):
        payload = chance.choice(PACKETS).encode()
        if chance.random() < 0.3:
            payload = damaged(chance, payload)
        part = packet(payload)
        if chance.random() < 0.1:
            part = damaged(chance, part)
        if chance.random() < 0.1:
            part += b"\x03"
        parts.append(part)
    return b"".join(parts)


def send(sent, chance, to):
    """Writes a stream, at once or in parts, and ends it. What takes no more of it has ended."""
    try:
        part = chance.choice((1, 7, 1 << 20)) if len(sent) < 10_000 else 1 << 20
        for at in range(0, len(sent), part):
            to.write(sent[at : at + part])
    except BrokenPipeError:
        pass
    to.close()


def fault_in(printed):
    """Returns what is wrong with the packets that were printed, or None."""
    if not PRINTED.match(printed):
        return f"it prints {printed[-200:]!r}"
    for payload, digits in re.findall(rb"\$([^$#]*)#([0-9a-f]{2})", printed):
        if sum(payload) % 256 != int(digits, 16):
            return f"a wrong sum: {payload[:200]!r}"
    return None


def run(words, sent, chance, most, sizes):
    """Runs the program over a stream, with a file for its size. Returns what is wrong with what comes of it, or None, and its peak
    resident size in MiB."""
    late = threading.Event()

    def end(group):
        late.set()
        os.killpg(group, signal.SIGKILL)

    timed = ["time", "-q", "-f", "%M", "-o", sizes, *words]
    pipes = {"stdin": subprocess.PIPE, "stdout": subprocess.PIPE, "stderr": subprocess.STDOUT, "bufsize": 0}
    with subprocess.Popen(timed, **pipes, start_new_session=True) as it:
        timer = threading.Timer(SECONDS, end, (it.pid,))
        timer.start()
        sender = threading.Thread(target=send, args=(sent, chance, it.stdin))
        sender.start()
        printed = it.stdout.read()
        sender.join()
        timer.cancel()
    if late.is_set():
        return "it does not end", 0
    with open(sizes, encoding="ascii") as file:
        peak = int(file.read()) / 1024
    if it.returncode != 0:
        return f"status {it.returncode}, {printed[-200:]!r}", peak
    if peak > most:
        return f"a peak of {peak:.0f} MiB", peak
    return fault_in(printed), peak


def main():
    words = argparse.ArgumentParser(description=__doc__)
    words.add_argument("--bench", required=True)
    words.add_argument("--streams", type=int, default=10_000)
    words.add_argument("--seed", type=int, default=1)
    words.add_argument("--jobs", type=int, default=2)
    words.add_argument("--memory", type=int, default=128)
    words = words.parse_args()
    by_hand = [(more, sent, image) for more, sent in edges() for image in IMAGES]

    def one(number, folder):
        """Runs one stream. Those by hand have the numbers below 0."""
        chance = random.Random(f"{words.seed} {number}")
        more, sent, image = by_hand[number] if number < 0 else ((), stream(chance), chance.choice(IMAGES))
        if "--process" in more:
            image = IMAGES[-1]
        more = [f"{folder}/{number}" if word == "kept" else word for word in more]
        gdb = [words.bench, "gdb", "--history", str(chance.randint(1, 4)), *more, f"{folder}/{image}"]
        fault, peak = run(gdb, sent, chance, words.memory, f"{folder}/{number}.size")
        if fault:
            print(f"stream {number}, {' '.join(gdb)[:200]}, {len(sent)} bytes, {sent[:1000]!r}: {fault}", file=sys.stderr)
        return bool(fault), peak

    numbers = range(-len(by_hand), words.streams)
    with tempfile.TemporaryDirectory() as folder, concurrent.futures.ThreadPoolExecutor(words.jobs) as pool:
        for image, source in SOURCES.items():
            subprocess.run([words.bench, "asm", f"{DATA}/{source}", f"{folder}/{image}"], stdout=subprocess.DEVNULL, check=True)
        found = list(pool.map(lambda number: one(number, folder), numbers))
    wrong = sum(is_wrong for is_wrong, _ in found)
    peaks = [peak for _, peak in found]
    first, others = (max(it, default=0) for it in (peaks[: len(by_hand)], peaks[len(by_hand) :]))
    print(f"{len(by_hand)} streams by hand, with a peak of at most {first:.0f} MiB; {words.streams} others, at most {others:.0f}; {wrong} with a fault")
    return 1 if wrong else 0


sys.exit(main())
