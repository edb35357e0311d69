#!/usr/bin/env python3
"""A second model of the PAC193X and PAC194X chips, of the wire to them, of the
meter with its book and its bill, and of the two programs that read lines.

    bench/model.py < FILE            the bench console
    bench/model.py trailer < FILE    the crew's line program

It reads a program's lines on standard input and prints the answer expected to
each.  It is written from the rules alone, apart from the real programs, so
that the two can be compared.  The rules stand beside the code that follows
them.  Channels are numbered 0 to 3 here for the chip's channels 1 to 4.
"""

import contextlib
import copy
import re
import sys
from dataclasses import dataclass, field, replace
from decimal import ROUND_HALF_UP, Decimal

CHANNELS = range(4)

REFRESH = 0x00
REFRESH_V = 0x1F

LONGEST_INPUT = 65_536  # bytes; the rest of the input is never read
LONGEST_LINE = 80  # bytes, the line feed not counted
LONGEST_READ = 64  # bytes
LARGEST_FIELD = 65_535
LARGEST_BYTE = 255
SCRIPT_PLACES = 256  # outcomes
MOST_PLACES = 4_096  # entries; a book has 1 to so many places
LEAST_SCRATCH = 32  # bytes
LAST_DRAW_NUMBER = 4_294_967_295
RATE_CODES = range(4)
MASKS = range(16)
SHUNTS = range(1, 1_001)  # tenths of a milliohm

# Outcomes of a transaction on the wire.
PASSES = 0
REFUSED_BY_WIRE = 1
BROKEN_BEFORE = 2
BROKEN_AFTER = 3
OUTCOMES = (PASSES, REFUSED_BY_WIRE, BROKEN_BEFORE, BROKEN_AFTER)

TAKEN = 0  # a line answers so after its word, or with a refusal's number

# Who did not acknowledge or broke, printed after the address.
BY_A_WIRE = 1
BY_THE_CHIP = 2


class Refusal(Exception):
    """A call that is not carried out.  It has a number, and may name more;
    but for numbers 2 and 3 all is left as before."""

    def numbers(self):
        return [self.number, *self.args]


class OutOfLimits(Refusal):
    """A number, a read length, a scratch or a book that cannot be used."""

    number = 1


class NotAcknowledged(Refusal):
    """A transaction is refused; the chip's state is as before."""

    number = 2

    def __init__(self, address, by):
        super().__init__(address, by)


class Broken(Refusal):
    """A transaction breaks, always on a wire.  Nothing tells whether the
    chip carried it out."""

    number = 3

    def __init__(self, address):
        super().__init__(address, BY_A_WIRE)


class SlipOut(Refusal):
    """A stretch waits in the image, which a REFRESH would overwrite."""

    number = 4


class NotReady(Refusal):
    """A look while a draw is unfinished or in doubt."""

    number = 5


class NumbersUsedUp(Refusal):
    """No draw number is left."""

    number = 6


class WrongSlip(Refusal):
    """A slip that is not for the stretch now waiting."""

    number = 7


class Full(Refusal):
    """No place for another outcome in the script, or entry in the book."""

    number = 8


class BadEntry(Refusal):
    """An entry that no chip of this kind can have given."""

    number = 9

    def __init__(self, place):
        super().__init__(place)


class NoSlip(Refusal):
    """Nothing in hand to book or to write off."""

    number = 11


class Unreadable(Exception):
    """A line that cannot be read.  It has number 10, but no word to print
    before it."""


# ---------------------------------------------------------------- the chip


@dataclass(frozen=True)
class Settings:
    """Register contents, every written bit kept.  The 194X has no channels
    register; there the field stays 0."""

    control: int = 0
    channels: int = 0
    polarity: int = 0


@dataclass
class Running:
    """What the cycles change.  Sums are raw bits, from 0 to 2^W - 1."""

    sums: list = field(default_factory=lambda: [0] * 4)
    count: int = 0
    sum_flag: bool = False
    count_flag: bool = False
    bus: list = field(default_factory=lambda: [0] * 4)
    sense: list = field(default_factory=lambda: [0] * 4)
    products: list = field(default_factory=lambda: [0] * 4)


@dataclass
class Image:
    """A copy of a running part with the settings then active."""

    running: Running
    settings: Settings


def two_complement(raw, bits):
    """The signed value of raw bits."""
    return raw - (1 << bits) if raw >> (bits - 1) else raw


def mask_has(mask, channel):
    """Masks have four bits: bit 3 is the first channel, bit 0 the fourth."""
    return bool(mask >> (3 - channel) & 1)


def mask_of_pairs(polarity):
    """The two-way mask of a 194X polarity, which has two bits a channel: the
    first channel in bits 15-14, the fourth in bits 9-8.  01 is two-way, the
    rest one-way."""
    mask = 0
    for channel in CHANNELS:
        two_way = polarity >> (14 - 2 * channel) & 0b11 == 0b01
        mask = mask << 1 | two_way
    return mask


class Chip:
    """The rules that both makes share; each make fills in the rest."""

    def __init__(self):
        # A fresh chip is all zero but for the fresh control of its make.
        fresh = Settings(control=self.fresh_control)
        self.pending = fresh
        self.active = fresh
        self.running = Running()
        self.image = Image(Running(), fresh)

    # -- cycles

    def cycles(self, n, codes):
        """n cycles with the same codes: a pair (bus, sense) for each channel.

        "Off" and "two-way" are those of the active settings.  With all four
        channels off, and with n = 0, nothing changes at all.
        """
        off = self.off_mask(self.active)
        if n == 0 or off == 0b1111:
            return
        for channel in CHANNELS:
            # A channel that is off keeps its sum, latest codes and product.
            if not mask_has(off, channel):
                self.take(channel, n, *codes[channel])
        self.rise_count(n)

    def take(self, channel, n, v, s):
        """A channel that is on takes codes and product as latest and adds
        the product to its sum, n times."""
        two_way = mask_has(self.two_way_mask(self.active), channel)
        product = self.product(v, two_complement(s, 16) if two_way else s)
        self.running.bus[channel] = v
        self.running.sense[channel] = s
        self.running.products[channel] = product
        self.add_to_sum(channel, n, product, two_way)

    def add_to_sum(self, channel, n, product, two_way):
        """Add the product n times to a sum of W bits.

        The register counts 0 to 2^W - 1 or, two-way, is two's complement of
        W bits; its bits are read by the polarity active now.  A true sum
        outside that range sets the sum flag, and the register keeps it
        modulo 2^W.

        All n steps go the same way, so none of them leaves the range if the
        last one does not; and if the last one does, some step was the first
        to do so and set the flag, which stays.  Taking the remainder once at
        the end is the same as taking it at every step.
        """
        bits = self.sum_bits
        raw = self.running.sums[channel]
        if two_way:
            before, low, end = two_complement(raw, bits), -(1 << bits - 1), 1 << bits - 1
        else:
            before, low, end = raw, 0, 1 << bits
        true_sum = before + n * product
        if not low <= true_sum < end:
            self.running.sum_flag = True
        self.running.sums[channel] = true_sum % (1 << bits)

    def rise_count(self, n):
        """The count rises by n; past its largest value it goes on from 0 and
        sets the count flag."""
        true_count = self.running.count + n
        if true_count >= 1 << self.count_bits:
            self.running.count_flag = True
        self.running.count = true_count % (1 << self.count_bits)

    # -- transactions

    def send(self, address):
        """REFRESH and REFRESH_V are the only commands taken.  Both copy the
        running part and the active settings to the image and then make the
        pending settings active.  REFRESH then zeroes sums, count and flags;
        the latest codes and products stay."""
        if address not in (REFRESH, REFRESH_V):
            raise NotAcknowledged(address, BY_THE_CHIP)
        self.image = Image(copy.deepcopy(self.running), self.active)
        self.active = self.pending
        if address == REFRESH:
            self.running.sums = [0] * 4
            self.running.count = 0
            self.running.sum_flag = False
            self.running.count_flag = False

    def write(self, address, data):
        """A write goes to a writable register with just its bytes, the
        highest first, and changes what the register shows at once."""
        if len(data) != self.writable.get(address):
            raise NotAcknowledged(address, BY_THE_CHIP)
        self.store(address, int.from_bytes(data, "big"))

    def read(self, address, length):
        """Bytes from the named register on, register after register in the
        order of the list, highest byte first, then FFh.  A read may end
        inside a register.  It starts at a listed address only; commands are
        not listed.  Addresses not listed take no bytes."""
        registers = self.registers()
        if address not in [listed for listed, _, _ in registers]:
            raise NotAcknowledged(address, BY_THE_CHIP)
        shown = b"".join(
            value.to_bytes(width, "big")
            for listed, width, value in registers
            if listed >= address
        )
        return (shown + b"\xff" * length)[:length]

    def result_registers(self):
        """Addresses 02h to 1Ah, which both makes share but for two widths:
        image count, sums, bus codes, sense codes, eight registers of zero,
        and the image's power modulo 2^32."""
        latched = self.image.running
        powers = [product * self.power_factor % (1 << 32) for product in latched.products]
        rows = [(0x02, self.count_bits // 8, latched.count)]
        rows += [(0x03 + i, self.sum_bits // 8, latched.sums[i]) for i in CHANNELS]
        rows += [(0x07 + i, 2, latched.bus[i]) for i in CHANNELS]
        rows += [(0x0B + i, 2, latched.sense[i]) for i in CHANNELS]
        rows += [(0x0F + i, 2, 0) for i in range(8)]
        rows += [(0x17 + i, 4, powers[i]) for i in CHANNELS]
        return rows


class Chip193X(Chip):
    sum_bits = 48
    count_bits = 24
    power_factor = 16
    fresh_control = 0x00
    writable = {0x01: 1, 0x1C: 1, 0x1D: 1}  # address: bytes

    def product(self, v, s):
        """floor(v/4) x floor(s/4); the floor goes down for negative s too."""
        return (v // 4) * (s // 4)

    def off_mask(self, settings):
        """Bits 7-4 of the channels register."""
        return settings.channels >> 4

    def two_way_mask(self, settings):
        """Bits 7-4 of the polarity register."""
        return settings.polarity >> 4

    def store(self, address, value):
        name = {0x01: "control", 0x1C: "channels", 0x1D: "polarity"}[address]
        self.pending = replace(self.pending, **{name: value})

    def control_shown(self, settings, running):
        """Active and image control show in bit 0 whether either flag is set,
        in place of the bit written there."""
        flag = running.sum_flag or running.count_flag
        return settings.control & ~1 | flag

    def registers(self):
        """(address, bytes, value) of all registers, in the order of reads."""
        active, image = self.active, self.image
        return [
            (0x01, 1, self.pending.control),
            *self.result_registers(),
            (0x1C, 1, self.pending.channels),
            (0x1D, 1, self.pending.polarity),
            (0x21, 1, self.control_shown(active, self.running)),
            (0x22, 1, active.channels),
            (0x23, 1, active.polarity),
            (0x24, 1, self.control_shown(image.settings, image.running)),
            (0x25, 1, image.settings.channels),
            (0x26, 1, image.settings.polarity),
        ]


class Chip194X(Chip):
    sum_bits = 56
    count_bits = 32
    power_factor = 4
    fresh_control = 0x4000
    writable = {0x01: 2, 0x1C: 1, 0x1D: 2}  # address: bytes

    def __init__(self):
        super().__init__()
        self.kept = 0  # the byte at 1Ch, which no command touches

    def product(self, v, s):
        """floor(v/4) x s."""
        return (v // 4) * s

    def off_mask(self, settings):
        """Bits 7-4 of the control register."""
        return settings.control >> 4 & 0b1111

    def two_way_mask(self, settings):
        """A pair of bits a channel in the polarity register."""
        return mask_of_pairs(settings.polarity)

    def store(self, address, value):
        if address == 0x1C:
            self.kept = value
        else:
            name = {0x01: "control", 0x1D: "polarity"}[address]
            self.pending = replace(self.pending, **{name: value})

    def flags_shown(self, running):
        """The sum flag in bit 3, the count flag in bit 2."""
        return running.sum_flag << 3 | running.count_flag << 2

    def registers(self):
        """(address, bytes, value) of all registers, in the order of reads."""
        return [
            (0x01, 2, self.pending.control),
            *self.result_registers(),
            (0x1C, 1, self.kept),
            (0x1D, 2, self.pending.polarity),
            (0x21, 2, self.active.control),
            (0x22, 2, self.active.polarity),
            (0x23, 2, self.image.settings.control),
            (0x24, 2, self.image.settings.polarity),
            (0x25, 1, 0x00),
            (0x26, 3, self.flags_shown(self.image.running)),
        ]


MAKES = {193: Chip193X, 194: Chip194X}


# ---------------------------------------------------------------- the wire


class ScriptedWire:
    """Carries transactions to a chip, each by an outcome from a script.  The
    direct wire below it changes nothing and is left out here."""

    def __init__(self, chip):
        self.chip = chip
        self.script = []  # every outcome ever added, the oldest first
        self.taken = 0  # how many of them are taken

    def add(self, outcome):
        """The script has 256 places in all: an outcome keeps its place when
        it is taken, and a refused addition uses none.  An unknown outcome is
        refused as such also when the script is full."""
        if outcome not in OUTCOMES:
            raise OutOfLimits
        if len(self.script) == SCRIPT_PLACES:
            raise Full
        self.script.append(outcome)

    def next_outcome(self):
        """The oldest outcome not yet taken.  With none left a transaction
        passes, which uses no place."""
        if self.taken == len(self.script):
            return PASSES
        self.taken += 1
        return self.script[self.taken - 1]

    def carry(self, address, transaction):
        """Every transaction that comes here takes an outcome, also one that
        the chip is going to refuse.

        Passing, it gets what the chip answers.  Refused by the wire or broken
        before, it never reaches the chip.  Broken after, the chip does as it
        does with any transaction, and its answer is lost: a refusal too.
        """
        outcome = self.next_outcome()
        if outcome == PASSES:
            return transaction()
        if outcome == REFUSED_BY_WIRE:
            raise NotAcknowledged(address, BY_A_WIRE)
        if outcome == BROKEN_AFTER:
            with contextlib.suppress(NotAcknowledged):
                transaction()
        raise Broken(address)

    def send(self, address):
        return self.carry(address, lambda: self.chip.send(address))

    def write(self, address, data):
        return self.carry(address, lambda: self.chip.write(address, data))

    def read(self, address, length):
        """A read of 0 bytes or of too many takes no outcome, whatever its
        address."""
        if not 1 <= length <= LONGEST_READ:
            raise OutOfLimits
        return self.carry(address, lambda: self.chip.read(address, length))


# ---------------------------------------------------- the book and the bill


@dataclass(frozen=True)
class Entry:
    """One stretch as booked, with the settings that were active in it."""

    draw: int
    spoilt: int
    count: int
    rate: int
    off: int
    two_way: int
    sums: tuple

    def numbers(self):
        return [self.draw, self.spoilt, self.count, self.rate, self.off, self.two_way, *self.sums]


@dataclass
class Book:
    """Entries in places that are filled in order."""

    places: int
    entries: list = field(default_factory=list)

    def in_limits(self):
        return 1 <= self.places <= MOST_PLACES and len(self.entries) <= self.places

    def full(self):
        return len(self.entries) == self.places


WEIGHTS = (1, 4, 16, 128)  # by rate code: 1024, 256, 64 and 8 cycles a second
ENERGY = {193: (15_625, 27), 194: (140_625, 34)}  # factor, power of two


def in_ranges(entry, make):
    """Whether registers of this make can give such an entry, off channels
    and spoilt entries too.  The range of a sum follows the entry's own
    polarity; the draw number has none."""
    if entry.rate not in RATE_CODES or entry.off not in MASKS or entry.two_way not in MASKS:
        return False
    if entry.spoilt not in (0, 1) or entry.count not in range(1 << make.count_bits):
        return False
    one_way = range(1 << make.sum_bits)
    both_ways = range(-(1 << make.sum_bits - 1), 1 << make.sum_bits - 1)
    return all(
        total in (both_ways if mask_has(entry.two_way, channel) else one_way)
        for channel, total in zip(CHANNELS, entry.sums)
    )


def weight(entry, channel):
    """A cycle stands for a longer time at a slower rate, and a two-way sense
    code for twice the current."""
    return WEIGHTS[entry.rate] * (2 if mask_has(entry.two_way, channel) else 1)


def bill(book, kind, channel, shunt):
    """Energy in millijoules, number of entries billed, number spoilt.

    The exact energy of all unspoilt entries is rounded down once: rounded
    entry by entry it would drift.  Down is toward minus infinity.
    """
    if not book.in_limits() or channel not in CHANNELS or shunt not in SHUNTS:
        raise OutOfLimits
    for place, entry in enumerate(book.entries):
        if not in_ranges(entry, MAKES[kind]):
            raise BadEntry(place)
    billed = [entry for entry in book.entries if not entry.spoilt]
    total = sum(entry.sums[channel] * weight(entry, channel) for entry in billed)
    factor, power = ENERGY[kind]
    energy = factor * total // (shunt << power)
    return energy, len(billed), len(book.entries) - len(billed)


# --------------------------------------------------------------- the meter


READY, UNFINISHED, IN_DOUBT, SLIP_OUT = range(4)  # conditions of a meter
BUS, SENSE = range(2)  # quantities of a look


@dataclass(frozen=True)
class Wanted:
    """What the next draw puts into the chip's settings."""

    rate: int = 0
    off: int = 0
    two_way: int = 0


@dataclass(frozen=True)
class Slip:
    """The right to the stretch that a draw closed; its end is a booking or a
    write-off."""

    meter: int
    draw: int


def split_registers(reply, widths):
    """The values of registers with these widths, one after the other."""
    values = []
    for width in widths:
        values.append(int.from_bytes(reply[:width], "big"))
        reply = reply[width:]
    return values


class Meter:
    """Closes stretches of cycles over a wire that may fail at any
    transaction, and sees to it that each is booked or written off, and just
    once.  It knows the chip by its bytes only.  The rules that both makes
    share; each make fills in the rest.
    """

    def __init__(self, wire, number, last_draw):
        """A new meter sends nothing.  It takes the mark in force for 0, which
        is right on a fresh chip."""
        self.wire = wire
        self.number = number
        self.last_draw = last_draw
        self.wanted = Wanted()
        self.mark = 0
        self.write_offs = 0
        self.condition = READY
        self.open_draw = 0  # the draw number of the slip out, or 0

    def set_up(self, rate, off, two_way):
        """In any condition, and for the next draw's REFRESH to bring about:
        nothing is sent."""
        if rate not in RATE_CODES or off not in MASKS or two_way not in MASKS:
            raise OutOfLimits
        self.wanted = Wanted(rate, off, two_way)

    # -- draws

    def draw(self):
        """Close the running stretch and hand out a slip for it.

        A REFRESH must not be repeated if the chip carried it out, for then
        the second would overwrite what the first closed.  So in doubt the
        chip is asked first.  If it was carried out the draw is done at once;
        what was set up since waits for the next one.
        """
        if self.condition == SLIP_OUT:
            raise SlipOut
        if self.last_draw == LAST_DRAW_NUMBER:
            raise NumbersUsedUp
        if self.condition != IN_DOUBT or not self.was_carried_out():
            self.close_stretch()
        self.mark = 1 - self.mark
        self.last_draw += 1
        self.condition = SLIP_OUT
        self.open_draw = self.last_draw
        return Slip(self.number, self.last_draw)

    def was_carried_out(self):
        """Every REFRESH of a draw puts another mark in force, so a mark
        unlike the meter's tells that it came through.  If this read fails,
        the doubt stays."""
        shown = self.wire.read(0x21, self.control_bytes)
        return self.mark_of(int.from_bytes(shown, "big")) != self.mark

    def close_stretch(self):
        """All settings with the opposite mark, then REFRESH.  What fails on
        the way left the stretch running, but for a broken REFRESH, of which
        that is not known."""
        self.condition = UNFINISHED
        for address, data in self.settings_to_write(1 - self.mark):
            self.wire.write(address, data)
        try:
            self.wire.send(REFRESH)
        except Broken:
            self.condition = IN_DOUBT
            raise

    # -- the end of a slip

    def check(self, slip):
        """Only the slip of the stretch that waits in the image is good."""
        if self.condition != SLIP_OUT or slip != Slip(self.number, self.open_draw):
            raise WrongSlip

    def settle(self):
        self.condition = READY
        self.open_draw = 0

    def book(self, slip, book, scratch):
        """Read the image and fill the next free place of the book.  All of
        the entry comes from the image: the settings now active are those of
        the next stretch.  If either read fails, the slip stays out and the
        book as it was."""
        if not book.in_limits() or len(scratch) < LEAST_SCRATCH:
            raise OutOfLimits
        self.check(slip)
        if book.full():
            raise Full
        count, *raw_sums = self.fetch(scratch, 0x02, self.result_widths)
        image = self.fetch(scratch, self.image_address, self.image_widths)
        spoilt, rate, off, two_way = self.understand(*image)
        sums = tuple(
            two_complement(raw, self.sum_bits) if mask_has(two_way, channel) else raw
            for channel, raw in zip(CHANNELS, raw_sums)
        )
        entry = Entry(slip.draw, spoilt, count, rate, off, two_way, sums)
        book.entries.append(entry)
        self.settle()
        return entry

    def fetch(self, scratch, address, widths):
        """Read registers with these widths.  The reply is laid at the
        scratch's start; bytes that it does not reach keep their value, and
        so do all if the read fails."""
        reply = self.wire.read(address, sum(widths))
        scratch[: len(reply)] = reply
        return split_registers(reply, widths)

    def write_off(self, slip):
        """Give the stretch up, without a word to the chip."""
        self.check(slip)
        self.write_offs += 1
        self.settle()

    # -- looks

    def look(self, channel, quantity):
        """Volts on the bus or millivolts over the shunt, latest code.

        A REFRESH_V makes the pending settings active and overwrites the
        image.  So there is no look while a stretch waits in the image, while
        settings may be half written, or while the mark is to tell of a
        REFRESH.  A look that fails leaves the meter ready: sums and count
        run on.
        """
        if channel not in CHANNELS or quantity not in (BUS, SENSE):
            raise OutOfLimits
        if self.condition == SLIP_OUT:
            raise SlipOut
        if self.condition != READY:
            raise NotReady
        self.wire.send(REFRESH_V)
        if quantity == BUS:
            return float(self.code_at(0x07 + channel)) * self.full_volts / 65_536.0
        code = self.code_at(0x0B + channel)
        if mask_has(self.image_two_way(), channel):
            return float(two_complement(code, 16)) * 100.0 / 32_768.0
        return float(code) * 100.0 / 65_536.0

    def code_at(self, address):
        return int.from_bytes(self.wire.read(address, 2), "big")

    def image_two_way(self):
        """The sign of a code in the image follows the image's polarity."""
        address, length = self.image_polarity
        return self.two_way_of(int.from_bytes(self.wire.read(address, length), "big"))


class Meter193X(Meter):
    sum_bits = 48
    control_bytes = 1
    result_widths = [3, 6, 6, 6, 6]  # from 02h to 06h
    image_address = 0x24
    image_widths = [1, 1, 1]  # control, channels, polarity
    image_polarity = (0x26, 1)  # address, bytes
    full_volts = 32.0

    def settings_to_write(self, mark):
        """Control, channels, polarity; bits with no meaning here are 0."""
        wanted = self.wanted
        return [
            (0x01, bytes([wanted.rate << 6 | mark << 2])),
            (0x1C, bytes([wanted.off << 4])),
            (0x1D, bytes([wanted.two_way << 4])),
        ]

    def mark_of(self, control):
        return control >> 2 & 1

    def two_way_of(self, polarity):
        return polarity >> 4

    def understand(self, control, channels, polarity):
        """Spoilt mark, rate code, off mask, two-way mask.  Control shows in
        bit 0 whether either flag was set."""
        return control & 1, control >> 6, channels >> 4, self.two_way_of(polarity)


class Meter194X(Meter):
    sum_bits = 56
    control_bytes = 2
    result_widths = [4, 7, 7, 7, 7]  # from 02h to 06h
    image_address = 0x23
    image_widths = [2, 2, 1, 3]  # control, polarity, 00h, flags
    image_polarity = (0x24, 2)  # address, bytes
    full_volts = 9.0

    def settings_to_write(self, mark):
        """Control, which has the off mask too, then polarity; bits with no
        meaning here are 0, and the byte at 1Ch is left alone."""
        wanted = self.wanted
        control = (4 + wanted.rate) << 12 | mark << 10 | wanted.off << 4
        polarity = sum(
            0b01 << 14 - 2 * channel
            for channel in CHANNELS
            if mask_has(wanted.two_way, channel)
        )
        return [(0x01, control.to_bytes(2, "big")), (0x1D, polarity.to_bytes(2, "big"))]

    def mark_of(self, control):
        return control >> 10 & 1

    def two_way_of(self, polarity):
        return mask_of_pairs(polarity)

    def understand(self, control, polarity, _, flags):
        """Spoilt mark, rate code, off mask, two-way mask.  The rate field is
        4 + rate code; the flags are bits 3 and 2."""
        spoilt = int(flags & 0b1100 != 0)
        return spoilt, (control >> 12) % 4, control >> 4 & 0b1111, self.two_way_of(polarity)


METERS = {193: Meter193X, 194: Meter194X}


# ------------------------------------------------------------- the console


def split_lines(data):
    """Only a line feed ends a line.  Bytes after the last one are a last
    line; no bytes after it are no line."""
    lines = data.split(b"\n")
    if lines[-1] == b"":
        lines.pop()
    return lines


LINE = re.compile(rb"([a-z]+)((?:,[0-9]{1,5})*)")


def parse(line):
    """A word in lower case, then fields of one to five digits, a comma
    before each.  Leading zeros are fine; a value above 65,535 is not."""
    match = LINE.fullmatch(line)
    if len(line) > LONGEST_LINE or not match:
        raise Unreadable
    word, tail = match.groups()
    fields = [int(digits) for digits in tail.split(b",")[1:]]
    if any(value > LARGEST_FIELD for value in fields):
        raise Unreadable
    return word.decode("ascii"), fields


def pairs(codes):
    """v1, s1, ..., v4, s4 as a pair for each channel."""
    return list(zip(codes[0::2], codes[1::2]))


def decimal(number):
    """A float as Rust prints it: the shortest decimal that reads back as the
    same float, without an exponent, and without a fraction if there is none.

    Python finds the number of digits.  Where two decimals of so many digits
    are equally near, it takes the even one, but Rust the one further from 0;
    that happens to a bus code of the 194X.
    """
    shortest = Decimal(repr(number))
    rounded = Decimal(number).quantize(shortest, rounding=ROUND_HALF_UP)
    return format(rounded, "f").removesuffix(".0")


METER_NUMBER = 1
BOOK_PLACES = 64
SCRATCH_BYTES = 32


class Console:
    """Answers a line with its word, 0 or a refusal's number, and fields.

    The wire is at hand for raw lines until a meter line makes a meter of it,
    and again once that is released.  Each way has lines of its own.
    """

    def __init__(self):
        self.make = None  # all three until the first good kind line
        self.chip = None
        self.wire = None
        self.slip = None  # unless one is in hand
        self.let_go()
        both = {  # word: (numbers of fields allowed, what it does)
            "cycle": ([8], self.cycle),
            "cycles": ([9], self.cycles),
            "fault": ([1], self.fault),
        }
        self.raw_words = {
            **both,
            "send": ([1], self.send),
            "write": (range(1, 10), self.write),
            "read": ([2], self.read),
            "meter": ([0], self.make_meter),
        }
        self.meter_words = {
            **both,
            "release": ([0], self.release),
            "setup": ([3], self.set_up),
            "draw": ([0], self.draw),
            "book": ([0], self.book_slip),
            "writeoff": ([0], self.write_off),
            "bill": ([2], self.bill),
            "look": ([2], self.look),
            "state": ([0], self.state),
            "scratch": ([0], self.show_scratch),
        }

    def answer(self, line):
        try:
            word, fields = parse(line)
            numbers = self.kind(fields) if word == "kind" else self.act(word, fields)
        except Unreadable:
            return "line,10"
        return ",".join([word, *map(str, numbers)])

    def kind(self, fields):
        """The first kind line that names a make brings a fresh chip and a
        wire with an empty script.  A kind line that names none is unreadable,
        and so is every later one."""
        if self.chip is not None or len(fields) != 1 or fields[0] not in MAKES:
            raise Unreadable
        self.make = fields[0]
        self.chip = MAKES[self.make]()
        self.wire = ScriptedWire(self.chip)
        return [TAKEN]

    def act(self, word, fields):
        """Every line before the first good kind line is unreadable, and so
        are unknown words, those of the other way, and wrong numbers of
        fields.  What is refused prints its number and what it names."""
        words = self.raw_words if self.meter is None else self.meter_words
        if self.chip is None or word not in words:
            raise Unreadable
        allowed, action = words[word]
        if len(fields) not in allowed:
            raise Unreadable
        try:
            return [TAKEN, *action(*fields)]
        except Refusal as refusal:
            return refusal.numbers()

    def end(self):
        """A slip left at the end of the input is written off unprinted."""
        if self.slip is not None:
            self.meter.write_off(self.slip)

    # Cycles do not go over the wire: they take no outcome and always arrive.
    # A meter passes them on as they are.

    def cycle(self, *codes):
        self.chip.cycles(1, pairs(codes))
        return []

    def cycles(self, n, *codes):
        self.chip.cycles(n, pairs(codes))
        return []

    def fault(self, outcome):
        self.wire.add(outcome)
        return []

    # In the three transactions an address or byte that is too large never
    # comes to the wire, and so takes no outcome.

    def send(self, address):
        if address > LARGEST_BYTE:
            raise OutOfLimits
        self.wire.send(address)
        return []

    def write(self, address, *data):
        if address > LARGEST_BYTE or any(byte > LARGEST_BYTE for byte in data):
            raise OutOfLimits
        self.wire.write(address, bytes(data))
        return []

    def read(self, address, length):
        if address > LARGEST_BYTE:
            raise OutOfLimits
        return self.wire.read(address, length)

    # A meter comes with a book and a scratch and goes with them.  Wire and
    # chip stay as they are, so a second meter's chip is no fresh one.

    def make_meter(self):
        self.meter = METERS[self.make](self.wire, METER_NUMBER, last_draw=0)
        self.book = Book(BOOK_PLACES)
        self.scratch = bytearray(SCRATCH_BYTES)
        return []

    def release(self):
        if self.slip is not None:
            raise SlipOut
        self.let_go()
        return []

    def let_go(self):
        self.meter = None
        self.book = None
        self.scratch = None

    def set_up(self, rate, off, two_way):
        self.meter.set_up(rate, off, two_way)
        return []

    def draw(self):
        self.slip = self.meter.draw()
        return [self.slip.draw]

    # A booking or write-off that is refused leaves the slip in hand.

    def slip_in_hand(self):
        if self.slip is None:
            raise NoSlip
        return self.slip

    def book_slip(self):
        entry = self.meter.book(self.slip_in_hand(), self.book, self.scratch)
        self.slip = None
        return entry.numbers()

    def write_off(self):
        self.meter.write_off(self.slip_in_hand())
        self.slip = None
        return []

    # Lines name the channels 1 to 4.

    def bill(self, channel, shunt):
        return bill(self.book, self.make, channel - 1, shunt)

    def look(self, channel, quantity):
        return [decimal(self.meter.look(channel - 1, quantity))]

    def state(self):
        meter = self.meter
        return [meter.condition, meter.open_draw, meter.mark, meter.last_draw, meter.write_offs]

    def show_scratch(self):
        return self.scratch


# ------------------------------------------------------- the line program


class Trailer(Console):
    """What the crew runs.  The first good kind line brings the meter too, and
    it is never let go.  Of the console's lines the crew has seven, and no
    other can be read."""

    def __init__(self):
        super().__init__()
        self.raw_words = {}
        words = ("cycle", "setup", "draw", "book", "writeoff", "bill", "fault")
        self.meter_words = {word: self.meter_words[word] for word in words}

    def kind(self, fields):
        numbers = super().kind(fields)
        self.make_meter()
        return numbers

    def act(self, word, fields):
        """A refused line prints its word and number, and nothing that the
        refusal names."""
        number, *rest = super().act(word, fields)
        return [number, *rest] if number == TAKEN else [number]


PROGRAMS = {"console": Console, "trailer": Trailer}


def answers(program, data):
    """What the program prints when it reads these bytes."""
    printed = [program.answer(line) for line in split_lines(data[:LONGEST_INPUT])]
    program.end()
    return "".join(line + "\n" for line in printed)


def main():
    name = sys.argv[1] if len(sys.argv) > 1 else "console"
    if len(sys.argv) > 2 or name not in PROGRAMS:
        sys.exit(f"usage: model.py [{'|'.join(PROGRAMS)}] < FILE")
    data = sys.stdin.buffer.read(LONGEST_INPUT + 1)
    print(answers(PROGRAMS[name](), data), end="", flush=True)
    if len(data) > LONGEST_INPUT:
        with contextlib.suppress(OSError):
            print(f"{name}: only the first {LONGEST_INPUT} bytes of the input were read", file=sys.stderr)


if __name__ == "__main__":
    main()
