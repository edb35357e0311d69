#!/usr/bin/env python3
"""Write the transcripts of the line program, and what the model answers.

Each goes to crates/trials/data as NAME.txt, with NAME.out beside it; the
README.md there says what each shows.  A transcript is written here where a
loop shows better than a list of lines that none of its cases is left out.
"""

import sys
from itertools import count
from pathlib import Path

sys.dont_write_bytecode = True

from model import LONGEST_INPUT, OUTCOMES, Trailer, answers

DATA = Path(__file__).resolve().parent.parent / "crates" / "trials" / "data"
KINDS = (193, 194)
WRITES = {193: 3, 194: 2}  # of a draw, before its REFRESH
DATA_SHEET = "32768,16384"  # codes whose energy is a whole number at 8 a second

TRANSCRIPTS = {}  # name: bytes


def add(name, lines):
    """A transcript of text lines, each ended by a newline."""
    add_bytes(name, "".join(f"{line}\n" for line in lines).encode("ascii"))


def add_bytes(name, data):
    TRANSCRIPTS[name] = data


def cycle(*codes):
    """A cycle with the codes of the first channels, the others 0."""
    return ",".join(map(str, ["cycle", *codes, *[0] * (8 - len(codes))]))


def faults(*outcomes):
    return [f"fault,{outcome}" for outcome in outcomes]


def setup(rate, off, two_way):
    return f"setup,{rate},{off},{two_way}"


def numbered_cycles():
    """Cycles with product 1000, 2000, 3000 .. (on the 194X four times that),
    so that an entry's count and sum tell which cycles it has."""
    return (cycle(4000, 4 * n) for n in count(1))


def numbered_setups():
    """Settings that differ from one to the next, channel 1 always on."""
    return (setup(n % 4, n % 8, n % 16) for n in count(1))


# ------------------------------------------- every outcome of a transaction


def trial_draws(kind, name, transactions, get_there):
    """Every outcome at every transaction of a draw.  get_there(n) are the
    lines that bring the nth draw tried to where it begins.  A second draw
    then ends what the first left, or is refused for the slip in hand; in
    between come a cycle before each draw and a set-up before the first."""
    cycles, setups = numbered_cycles(), numbered_setups()
    lines = [f"kind,{kind}"]
    trials = [(passed, outcome) for passed in range(transactions) for outcome in OUTCOMES]
    for n, (passed, outcome) in enumerate(trials):
        lines += [next(cycles), *get_there(n), next(cycles), next(setups)]
        lines += faults(*[0] * passed, outcome)
        lines += ["draw", next(cycles), "draw", "book"]
    add(f"{name}-{kind}x", [*lines, "bill,1,1"])


def trial_bookings(kind):
    """Every outcome at both transactions of a booking; then a draw, which is
    refused while the slip is in hand, and a booking that passes.  At the end
    a slip is written off after each refusal of its booking."""
    cycles, setups = numbered_cycles(), numbered_setups()
    lines = [f"kind,{kind}"]
    for passed in range(2):
        for outcome in OUTCOMES:
            lines += [next(cycles), next(setups), "draw", next(cycles)]
            lines += [*faults(*[0] * passed, outcome), "book", "draw", "book", "book"]
    for passed in range(2):
        for outcome in OUTCOMES[1:]:
            lines += [next(cycles), "draw", *faults(*[0] * passed, outcome)]
            lines += ["book", "writeoff", "writeoff"]
    add(f"booking-{kind}x", [*lines, next(cycles), "draw", "book", "bill,1,1"])


def add_outcomes():
    for kind in KINDS:
        writes = WRITES[kind]
        refresh_breaks = [*faults(*[0] * writes, 2), "draw"]
        refresh_loses_its_reply = [*faults(*[0] * writes, 3), "draw"]

        def one_is_refused(n):
            return [*faults(*[0] * (n % (writes + 1)), 1), "draw"]

        def one_is_refused_after_doubt(n):
            return [*refresh_breaks, *faults(0), *one_is_refused(n)]

        trial_draws(kind, "draw-from-ready", writes + 1, lambda n: [])
        trial_draws(kind, "draw-from-unfinished", writes + 1, one_is_refused)
        trial_draws(kind, "draw-from-doubt", writes + 2, lambda n: refresh_breaks)
        trial_draws(kind, "draw-from-unfinished-after-doubt", writes + 1, one_is_refused_after_doubt)
        trial_draws(kind, "draw-from-doubt-carried-out", 1, lambda n: refresh_loses_its_reply)
        trial_bookings(kind)


# ---------------------------------------------------- settings and the bill


def add_settings():
    for kind in KINDS:
        # Two-way these are -1, the lowest, one that is no multiple of four,
        # and -4, so each channel's sum tells how it was read.
        codes = cycle(40000, 65535, 30001, 32768, 65535, 49155, 5, 65532)
        lines = [f"kind,{kind}"]
        masks = [(n, (5 * n + 3) % 16) for n in range(16)] + [(0, n) for n in range(16)]
        for n, (off, two_way) in enumerate(masks):
            lines += [setup((n + n // 16) % 4, off, two_way), "draw", "book", codes]
        lines += ["draw", "book", "bill,1,1", "bill,2,3", "bill,3,1000", "bill,4,1", "bill,4,1000"]
        add(f"masks-and-rates-{kind}x", lines)

        lines = [f"kind,{kind}"]
        for rate in range(4):
            lines += [setup(rate, 0, 4), "draw", "book", f"cycle,{DATA_SHEET},{DATA_SHEET},0,0,0,0"]
            lines += ["draw", "book", "bill,1,1", "bill,2,1", "bill,3,1"]
        add(f"energy-by-rate-{kind}x", lines)

        add(f"two-way-{kind}x", two_way_lines(kind))
        add(f"late-setups-{kind}x", late_setup_lines(kind))


def two_way_lines(kind):
    """A sum of -1 is -1 mJ alone, and 0 once the rest makes up for it.  Signs
    are those of the stretch, and not of the settings that its draw brings."""
    one = 4 if kind == 193 else 1
    return [
        f"kind,{kind}",
        setup(0, 0, 8),
        *["draw", "writeoff"],
        *[cycle(4, 65535), setup(0, 0, 0), "draw", "book"],
        *["bill,1,1", "bill,1,1000"],
        *[cycle(4, one), "draw", "book", "bill,1,1"],
        *[cycle(4, one), "draw", "book", "bill,1,1"],
        *[cycle(40000, 65535), setup(0, 0, 8), "draw", "book", "bill,1,1"],
        *[cycle(40000, 65535), setup(3, 0, 15), "draw", "book", "bill,1,1"],
        cycle(65535, 32768, 65535, 32767, 65535, 65533, 65535, 32768),
        cycle(65535, 32768, 65535, 65532, 65535, 65533, 65535, 32767),
        *[setup(0, 0, 0), "draw", "book"],
        *["bill,1,1", "bill,2,1", "bill,3,1", "bill,4,1", "bill,3,1000"],
    ]


def late_setup_lines(kind):
    """Set-ups that come with a slip out, and in doubt after a REFRESH that
    was carried out or not: which draw puts them in force, and for which entry."""
    lines = [f"kind,{kind}", cycle(4000, 4), "draw", setup(1, 2, 4), cycle(4000, 8), "book"]
    lines += ["draw", "book", cycle(4000, 12), "draw", "book"]
    for outcome in (3, 2):
        lines += [setup(2, 4, 1), cycle(4000, 16), *faults(*[0] * WRITES[kind], outcome), "draw"]
        lines += [setup(3, 1, 8), cycle(4000, 20), "draw", "book"]
        lines += [cycle(4000, 24), "draw", "book", cycle(4000, 28), "draw", "book"]
    return [*lines, "bill,1,1"]


# -------------------------------------------------------- refusals and ends


def add_refusals():
    add(
        "limits",
        [
            "kind,193",
            cycle(40000, 20000),
            setup(1, 2, 3),
            *[setup(*wrong) for wrong in [(4, 0, 0), (0, 16, 0), (0, 0, 16)]],
            *[setup(*wrong) for wrong in [(256, 0, 0), (0, 256, 0), (0, 0, 256)]],
            setup(65535, 65535, 65535),
            *["draw", "book", "draw", "book"],
            setup(3, 15, 15),
            *["draw", "book", "draw", "book"],
            *faults(4, 255, 256, 259, 65535),
            "draw",
            *faults(4, 2),
            *["book", "book"],
            *["bill,0,1", "bill,1,1", "bill,4,1", "bill,5,1", "bill,257,1", "bill,65535,1"],
            *["bill,1,0", "bill,1,1000", "bill,1,1001", "bill,1,257", "bill,1,65535", "bill,0,0"],
        ],
    )
    add(
        "refusals",
        [
            "kind,194",
            *["book", "writeoff", "bill,1,100"],
            *[setup(4, 0, 0), "fault,4", "bill,5,100"],
            *[cycle(40000, 20000), "fault,1", "draw", "fault,2", "draw"],
            *["draw", "draw", "fault,1", "book", "fault,2", "book", "draw", "bill,1,100"],
            *["book", "book", "writeoff", "draw", "draw", "writeoff", "writeoff", "book"],
            *["bill,1,100", "bill,1,0"],
        ],
    )
    # A refusal in the meter or before it uses up no outcome, and so do
    # cycle, setup, bill and writeoff.
    add(
        "outcomes-are-kept",
        [
            "kind,193",
            *faults(0, 0, 0, 0),
            *["book", "writeoff", "bill,1,1", "bill,0,1", setup(1, 0, 0), setup(4, 0, 0)],
            *["book,1", "draw,1", "look,1,0", cycle(4, 4), "draw"],
            *faults(2),
            *["draw", "bill,1,1", setup(0, 0, 0), cycle(4, 8), "book", "book"],
            "draw",
            *faults(3),
            *["draw", "writeoff", "writeoff", "book", "draw", "draw", "book"],
        ],
    )
    add(
        "order-of-refusals",
        [
            "fault,4",
            "kind,193",
            *["book", "book,1", "writeoff,1", "bill,0,65536", "setup,4,0", "fault,65536"],
            *["draw", "fault,1", "draw", "draw,1", "book", "draw", "book"],
            *["book", "writeoff"],
        ],
    )
    add("full-book", full_book_lines())
    add("full-script", full_script_lines())
    add("slip-left", ["kind,193", cycle(40000, 20000), "draw", cycle(40000, 20000)])
    add("left-in-doubt", ["kind,194", *faults(0, 0, 3), "draw", "book", "writeoff"])


def full_book_lines():
    """64 entries; the 65th booking is refused before the wire is asked, and
    11 comes before 8.  The bill of a full book is good."""
    cycles = numbered_cycles()
    lines = ["kind,193"]
    for _ in range(64):
        lines += [next(cycles), "draw", "book"]
    lines += ["bill,1,1", "book", next(cycles), "draw", "fault,2", "book", "book", "draw"]
    lines += ["writeoff", "book", "writeoff", "draw", "draw", "book", "bill,1,1", "writeoff"]
    return lines


def full_script_lines():
    """256 outcomes, all of which are taken: 42 rounds of a draw and its
    booking take six each, the last draw takes four, and its REFRESH breaks.
    However many are taken, there is never place for another."""
    lines = ["kind,193", *faults(*[0] * 255, 4, 2, 0, 4, 65535, 3)]
    for _ in range(42):
        lines += [cycle(4, 4), "draw", "book"]
    lines += [cycle(4, 8), "draw", "fault,1", "fault,4", cycle(4, 12), "draw", "book", "fault,0"]
    return lines


# ------------------------------------------------------------ how lines read


def add_reading():
    add("listing", ["kind,193", cycle(40000, 20000), "setup,3,0,0", "draw", "book", "bill,1,100"])
    add_bytes("no-input", b"")
    add_bytes("newlines", b"\n\n\n")
    add_bytes("no-newline-at-the-end", b"kind,194\ndraw")
    add_bytes("no-newline-after-kind", b"kind,194")
    add_bytes("newline-before-the-end", b"kind,194\ndraw\n\nbook\n\n")
    before = ["draw", "book", "writeoff", "bill,1,1", cycle(4, 4), setup(0, 0, 0), "fault,0", "x"]
    wrong = ["kind", "kind,", "kind,192", "kind,195", "kind,449", "kind,65535", "kind,65729"]
    wrong += ["kind,000193", "kind,193,", "kind,193,0", "kind,193,194", "kind,,193", "kind,0", "kind,1"]
    add("kind-193x", [*before, *wrong, "kind,00193", "kind,193", "kind,194", "kind,1", "kind", "draw"])
    add("kind-194x", [*before, *wrong, "kind,0194", "kind,194", "kind,193", "kind,1", "kind", "draw"])
    add("words", ["kind,193", *words(), "draw", "book"])
    add_bytes("fields", b"".join(line + b"\n" for line in [b"kind,193", *fields(), b"draw", b"book"]))
    add_bytes("carriage-returns", b"kind,193\r\nkind,193\ndraw\r\ndraw\n\r\nbook\r\r\nbo\rok\nbook\nbook\r")
    add_bytes("zero-bytes", b"\0kind,193\nkind,193\0\nkind,193\n\0\ndraw\0\ndr\0aw\nfault,\0\ndraw\nfault,1\0\n\0")
    long_lines()
    long_inputs()


def words():
    """Unknown words, those of the bench console among them, and each word
    with a field too few and too many."""
    lines = ["", "x", "Draw", "DRAW", "dra", "draws", "draw0", "drawbook", "line", "line,10", "10"]
    lines += ["look,1,0", "state", "scratch", "meter", "release", "cycles,1,0,0,0,0,0,0,0,0"]
    lines += ["read,1,1", "write,1,0", "send,0", "end", "help", "#draw", "draw#", "write-off"]
    for word, wanted in {"cycle": 8, "setup": 3, "bill": 2, "fault": 1}.items():
        lines += [word, *[",".join([word, *["1"] * n]) for n in (wanted - 1, wanted + 1) if n > 0]]
    lines += [",".join(["cycle", *["1"] * n]) for n in (9, 10, 16)]
    lines += ["draw,", "draw,0", "book,", "book,1", "writeoff,", "writeoff,1", "kind,193"]
    return lines


def fields():
    """What a field may be, after a line that shows it taken."""
    lines = [b"fault,0", b"fault,00000", b"fault,00004", b"fault,000000", b"fault,000004"]
    lines += [b"setup,3,015,00000", b"setup,00004,0,0", b"bill,00001,01000", b"bill,1,001000"]
    lines += [b"cycle,65535,00004,0,0,0,0,0,0", b"cycle,65536,4,0,0,0,0,0,0"]
    lines += [b"cycle,0,0,0,0,0,0,0,65535", b"cycle,0,0,0,0,0,0,0,65536", b"cycle,0,0,0,0,0,0,0,99999"]
    lines += [b"fault,65535", b"fault,65536", b"fault,65540", b"fault,99999", b"fault,100000"]
    lines += [b"fault,4294967296", b"fault,18446744073709551616"]
    lines += [b"fault,", b"fault,,", b"fault,0,", b",fault,0", b"fault,,0", b",", b",,", b"draw,"]
    lines += [b"bill,1,", b"bill,,1", b"bill,1,,1", b"bill;1;1", b"bill.1.1", b"bill 1 1"]
    lines += [b" fault,0", b"fault ,0", b"fault, 0", b"fault,0 ", b"fault,0\t", b"\tfault,0", b"draw "]
    lines += [b"fault,+0", b"fault,-0", b"fault,-1", b"fault,0.0", b"fault,0x0", b"fault,0e0", b"fault,1_0"]
    lines += [b'fault,"0"', b'"fault",0', b"fault,'0'", b"fault,0;", b"fault,a", b"fault,O"]
    lines += [b"fault,/", b"fault,:", b"fault,0/", b"fault,0:", b"fault,\xb0", b"fault,\x7f"]
    lines += [b"fault,\x80", b"fault,\xff", b"\xffdraw", b"draw\xff", b"\xc3\xa9", b"\xef\xbb\xbfdraw"]
    lines += ["fault,\N{FULLWIDTH DIGIT ZERO}".encode(), "fault,\N{ARABIC-INDIC DIGIT ZERO}".encode()]
    lines += [b"fault,0\x0b", b"fault,0\x0c", b"fault,0\x1a", b"fault,0\x1b", b"fault,0\\n"]
    return lines


def long_lines():
    """No readable line has 80 bytes, so what counts is that a longer line is
    one line, and that nothing within it is read."""
    full = b"cycle,65535,65535,65535,65535,65535,65535,65535,65535"
    lines = [b"kind,193", full, full[:-1], full + b"5"]
    for length in (79, 80, 81, 82, 160, 161, 255, 256, 257, 1000):
        lines += [b"x" * length, b"bill,1,1"]
    for length in (80, 81, 160):
        lines += [b"x" * length + b"draw", b"draw," + b"0" * (length - 5), b"draw" + b" " * (length - 4)]
        lines += [b"fault," + b"0" * (length - 6), b"," * length]
    lines += [b"draw", b"book"]
    add_bytes("long-lines", b"".join(line + b"\n" for line in lines))
    add_bytes("long-line-at-the-end", b"kind,193\n" + b"x" * 81 + b"\n" + b"x" * 81)


def long_inputs():
    """A long line fills the input up to what stands at its limit."""

    def filled(end, beyond=b""):
        head = b"kind,193\n"
        filling = LONGEST_INPUT - len(head) - len(b"\n") - len(end)
        return head + b"x" * filling + b"\n" + end + beyond

    add_bytes("input-of-64-kib", filled(b"draw\nfault,1"))
    add_bytes("input-cut-in-a-field", filled(b"draw\nfault,1", b"0"))
    add_bytes("input-cut-after-a-line", filled(b"draw\n", b"b"))


def main():
    add_reading()
    add_settings()
    add_refusals()
    add_outcomes()
    DATA.mkdir(parents=True, exist_ok=True)
    for name, data in TRANSCRIPTS.items():
        (DATA / f"{name}.txt").write_bytes(data)
        (DATA / f"{name}.out").write_text(answers(Trailer(), data), encoding="ascii")


if __name__ == "__main__":
    main()
