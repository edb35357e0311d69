//! The PAC193X and the PAC194X: their registers, conversion cycles and commands.

use std::marker::PhantomData;

pub const REFRESH: u8 = 0x00;
pub const REFRESH_V: u8 = 0x1f;
pub const CHANNELS: usize = 4;
pub const LONGEST_READ: usize = 64;
const LAST_REGISTER: u8 = 0x26;

#[derive(Clone, Copy, Debug, PartialEq, Eq)]
pub enum By {
    Wire,
    Chip,
}

#[derive(Clone, Copy, Debug, PartialEq, Eq)]
pub enum Refusal {
    Limits,
    NotAcknowledged { by: By, address: u8 },
    Broken { address: u8 },
    SlipOut,
    NumbersSpent,
    WrongSlip,
    Full,
    BadEntry { place: usize },
    NoSlip,
}

impl Refusal {
    pub fn number(self) -> u8 {
        match self {
            Refusal::Limits => 1,
            Refusal::NotAcknowledged { .. } => 2,
            Refusal::Broken { .. } => 3,
            Refusal::SlipOut => 4,
            Refusal::NumbersSpent => 6,
            Refusal::WrongSlip => 7,
            Refusal::Full => 8,
            Refusal::BadEntry { .. } => 9,
            Refusal::NoSlip => 11,
        }
    }
}

pub type Answer<T> = Result<T, Refusal>;

/// Bus and sense code of one channel.
#[derive(Clone, Copy, Debug, Default)]
pub struct Codes {
    pub bus: u16,
    pub sense: u16,
}

/// Settings registers. The 194X has no channels register and leaves it 0.
#[derive(Clone, Copy, Debug, Default)]
pub struct Settings {
    pub control: u16,
    pub channels: u8,
    pub polarity: u16,
}

#[derive(Clone, Copy, Debug, Default)]
struct Channel {
    codes: Codes,
    product: i64,
    /// the accumulator's bits
    sum: u64,
}

#[derive(Clone, Copy, Debug, Default)]
struct Running {
    channels: [Channel; CHANNELS],
    count: u32,
    sum_flag: bool,
    count_flag: bool,
}

#[derive(Clone, Copy, Debug)]
struct Image {
    running: Running,
    settings: Settings,
}

/// What a draw puts in force. Bit 3 of a mask is channel 1.
#[derive(Clone, Copy, Debug, Default)]
pub struct Wanted {
    pub rate: u8,
    pub off: u8,
    pub two_way: u8,
}

impl Wanted {
    pub fn new(rate: u8, off: u8, two_way: u8) -> Answer<Wanted> {
        if rate > 3 || off > 15 || two_way > 15 {
            return Err(Refusal::Limits);
        }
        Ok(Wanted { rate, off, two_way })
    }
}

/// A register write of one or two bytes.
#[derive(Clone, Copy)]
pub struct RegisterWrite {
    pub address: u8,
    bytes: [u8; 2],
    len: usize,
}

impl RegisterWrite {
    const fn byte(address: u8, byte: u8) -> Self {
        RegisterWrite { address, bytes: [byte, 0], len: 1 }
    }

    const fn word(address: u8, word: u16) -> Self {
        RegisterWrite { address, bytes: word.to_be_bytes(), len: 2 }
    }

    pub fn bytes(&self) -> &[u8] {
        &self.bytes[..self.len]
    }
}

/// The settings and flags of an image, as a booking reads them.
pub struct Stamp {
    pub spoilt: bool,
    pub rate: u8,
    pub off: u8,
    pub two_way: u8,
}

pub trait Make: Sized {
    const SUM_BITS: u32;
    const COUNT_BITS: u32;
    const POWER_FACTOR: i64;
    const FRESH_CONTROL: u16;
    /// With a shunt u, weighed sums S are worth FACTOR * S / (u << SHIFT) millijoules.
    const FACTOR: u32;
    const SHIFT: u32;
    /// Where a booking's second read starts, and how long it is.
    const STAMP: (u8, usize);
    /// How many bytes the active control has.
    const CONTROL_BYTES: usize;
    type Writes: AsRef<[RegisterWrite]>;

    fn off_mask(settings: &Settings) -> u8;
    fn two_way_mask(settings: &Settings) -> u8;
    fn product(bus: u16, sense: i32) -> i64;
    /// Bytes of a register, 0 if it is not listed.
    fn width(address: u8) -> usize;
    fn register(chip: &Chip<Self>, address: u8) -> u64;
    /// Takes a write of the right length, or says that the address takes none.
    fn store(chip: &mut Chip<Self>, address: u8, value: u16) -> bool;
    fn settings_writes(wanted: Wanted, mark: bool) -> Self::Writes;
    fn mark(control: &[u8]) -> bool;
    fn stamp(bytes: &[u8]) -> Stamp;

    const SUM_BYTES: usize = Self::SUM_BITS as usize / 8;
    const COUNT_BYTES: usize = Self::COUNT_BITS as usize / 8;
    /// The bytes of count and sums, from 02h on.
    const COUNTERS: usize = Self::COUNT_BYTES + CHANNELS * Self::SUM_BYTES;
}

pub fn has(mask: u8, channel: usize) -> bool {
    mask & (8 >> channel) != 0
}

/// The value of the low `bits` bits as two's complement.
pub fn sign_extend(bits: u32, raw: u64) -> i64 {
    let unused = 64 - bits;
    ((raw << unused) as i64) >> unused
}

pub struct Chip<M> {
    pending: Settings,
    /// the byte at 1Ch of the 194X
    kept: u8,
    active: Settings,
    running: Running,
    image: Image,
    make: PhantomData<M>,
}

impl<M: Make> Chip<M> {
    pub fn new() -> Self {
        let fresh = Settings { control: M::FRESH_CONTROL, ..Settings::default() };
        Chip {
            pending: fresh,
            kept: 0,
            active: fresh,
            running: Running::default(),
            image: Image { running: Running::default(), settings: fresh },
            make: PhantomData,
        }
    }

    pub fn cycle(&mut self, codes: [Codes; CHANNELS]) {
        let off = M::off_mask(&self.active);
        if off == 0b1111 {
            return;
        }
        let two_way = M::two_way_mask(&self.active);
        let running = &mut self.running;
        for (i, (channel, codes)) in running.channels.iter_mut().zip(codes).enumerate() {
            if has(off, i) {
                continue;
            }
            let (sense, before, range) = if has(two_way, i) {
                let half = 1i64 << (M::SUM_BITS - 1);
                (i32::from(codes.sense as i16), sign_extend(M::SUM_BITS, channel.sum), -half..half)
            } else {
                (i32::from(codes.sense), channel.sum as i64, 0..1 << M::SUM_BITS)
            };
            let product = M::product(codes.bus, sense);
            let sum = before + product;
            running.sum_flag |= !range.contains(&sum);
            *channel = Channel { codes, product, sum: sum as u64 & ((1 << M::SUM_BITS) - 1) };
        }
        let full = u32::MAX >> (32 - M::COUNT_BITS);
        running.count_flag |= running.count == full;
        running.count = running.count.wrapping_add(1) & full;
    }

    pub fn read(&self, start: u8, bytes: &mut [u8]) -> Answer<()> {
        if !(1..=LONGEST_READ).contains(&bytes.len()) {
            return Err(Refusal::Limits);
        }
        if M::width(start) == 0 {
            return Err(Refusal::NotAcknowledged { by: By::Chip, address: start });
        }
        let mut rest = bytes;
        for address in start..=LAST_REGISTER {
            let width = M::width(address);
            let value = M::register(self, address).to_be_bytes();
            let count = width.min(rest.len());
            let (register, others) = rest.split_at_mut(count);
            register.copy_from_slice(&value[8 - width..][..count]);
            rest = others;
            if rest.is_empty() {
                return Ok(());
            }
        }
        rest.fill(0xff);
        Ok(())
    }

    pub fn write(&mut self, address: u8, bytes: &[u8]) -> Answer<()> {
        let value = match *bytes {
            [byte] if M::width(address) == 1 => Some(u16::from(byte)),
            [high, low] if M::width(address) == 2 => Some(u16::from_be_bytes([high, low])),
            _ => None,
        };
        match value {
            Some(value) if M::store(self, address, value) => Ok(()),
            _ => Err(Refusal::NotAcknowledged { by: By::Chip, address }),
        }
    }

    pub fn send(&mut self, command: u8) -> Answer<()> {
        if command != REFRESH && command != REFRESH_V {
            return Err(Refusal::NotAcknowledged { by: By::Chip, address: command });
        }
        self.image = Image { running: self.running, settings: self.active };
        self.active = self.pending;
        if command == REFRESH {
            for channel in &mut self.running.channels {
                channel.sum = 0;
            }
            self.running.count = 0;
            self.running.sum_flag = false;
            self.running.count_flag = false;
        }
        Ok(())
    }

    /// The registers 02h to 1Ah, which both makes have.
    fn result(&self, address: u8) -> u64 {
        let running = &self.image.running;
        let channel = |first: u8| &running.channels[usize::from(address - first)];
        match address {
            0x02 => running.count.into(),
            0x03..=0x06 => channel(0x03).sum,
            0x07..=0x0a => channel(0x07).codes.bus.into(),
            0x0b..=0x0e => channel(0x0b).codes.sense.into(),
            0x17..=0x1a => (channel(0x17).product * M::POWER_FACTOR) as u32 as u64,
            _ => 0,
        }
    }
}

pub struct Pac193x;

fn flagged(control: u16, running: &Running) -> u64 {
    u64::from(control & !1) | u64::from(running.sum_flag | running.count_flag)
}

impl Make for Pac193x {
    const SUM_BITS: u32 = 48;
    const COUNT_BITS: u32 = 24;
    const POWER_FACTOR: i64 = 16;
    const FRESH_CONTROL: u16 = 0;
    const FACTOR: u32 = 15_625;
    const SHIFT: u32 = 27;
    const STAMP: (u8, usize) = (0x24, 3);
    const CONTROL_BYTES: usize = 1;
    type Writes = [RegisterWrite; 3];

    fn off_mask(settings: &Settings) -> u8 {
        settings.channels >> 4
    }

    fn two_way_mask(settings: &Settings) -> u8 {
        (settings.polarity >> 4) as u8 & 0xf
    }

    fn product(bus: u16, sense: i32) -> i64 {
        i64::from(bus >> 2) * i64::from(sense >> 2)
    }

    fn width(address: u8) -> usize {
        match address {
            0x01 | 0x1c | 0x1d | 0x21..=0x26 => 1,
            0x02 => 3,
            0x03..=0x06 => 6,
            0x07..=0x16 => 2,
            0x17..=0x1a => 4,
            _ => 0,
        }
    }

    fn register(chip: &Chip<Self>, address: u8) -> u64 {
        match address {
            0x01 => chip.pending.control.into(),
            0x1c => chip.pending.channels.into(),
            0x1d => chip.pending.polarity.into(),
            0x21 => flagged(chip.active.control, &chip.running),
            0x22 => chip.active.channels.into(),
            0x23 => chip.active.polarity.into(),
            0x24 => flagged(chip.image.settings.control, &chip.image.running),
            0x25 => chip.image.settings.channels.into(),
            0x26 => chip.image.settings.polarity.into(),
            _ => chip.result(address),
        }
    }

    fn store(chip: &mut Chip<Self>, address: u8, value: u16) -> bool {
        match address {
            0x01 => chip.pending.control = value,
            0x1c => chip.pending.channels = value as u8,
            0x1d => chip.pending.polarity = value,
            _ => return false,
        }
        true
    }

    fn settings_writes(wanted: Wanted, mark: bool) -> Self::Writes {
        [
            RegisterWrite::byte(0x01, wanted.rate << 6 | u8::from(mark) << 2),
            RegisterWrite::byte(0x1c, wanted.off << 4),
            RegisterWrite::byte(0x1d, wanted.two_way << 4),
        ]
    }

    fn mark(control: &[u8]) -> bool {
        control[0] & 0x04 != 0
    }

    fn stamp(bytes: &[u8]) -> Stamp {
        Stamp {
            spoilt: bytes[0] & 1 != 0,
            rate: bytes[0] >> 6,
            off: bytes[1] >> 4,
            two_way: bytes[2] >> 4,
        }
    }
}

pub struct Pac194x;

/// Two bits a channel from bit 15 on; 01 is two-way.
fn mask_of_pairs(polarity: u16) -> u8 {
    (0..CHANNELS).fold(0, |mask, i| mask << 1 | u8::from(polarity >> (14 - 2 * i) & 3 == 1))
}

impl Make for Pac194x {
    const SUM_BITS: u32 = 56;
    const COUNT_BITS: u32 = 32;
    const POWER_FACTOR: i64 = 4;
    const FRESH_CONTROL: u16 = 0x4000;
    const FACTOR: u32 = 140_625;
    const SHIFT: u32 = 34;
    const STAMP: (u8, usize) = (0x23, 8);
    const CONTROL_BYTES: usize = 2;
    type Writes = [RegisterWrite; 2];

    fn off_mask(settings: &Settings) -> u8 {
        (settings.control >> 4) as u8 & 0xf
    }

    fn two_way_mask(settings: &Settings) -> u8 {
        mask_of_pairs(settings.polarity)
    }

    fn product(bus: u16, sense: i32) -> i64 {
        i64::from(bus >> 2) * i64::from(sense)
    }

    fn width(address: u8) -> usize {
        match address {
            0x02 => 4,
            0x03..=0x06 => 7,
            0x01 | 0x07..=0x16 | 0x1d | 0x21..=0x24 => 2,
            0x17..=0x1a => 4,
            0x1c | 0x25 => 1,
            0x26 => 3,
            _ => 0,
        }
    }

    fn register(chip: &Chip<Self>, address: u8) -> u64 {
        match address {
            0x01 => chip.pending.control.into(),
            0x1c => chip.kept.into(),
            0x1d => chip.pending.polarity.into(),
            0x21 => chip.active.control.into(),
            0x22 => chip.active.polarity.into(),
            0x23 => chip.image.settings.control.into(),
            0x24 => chip.image.settings.polarity.into(),
            0x26 => {
                let running = &chip.image.running;
                u64::from(running.sum_flag) << 3 | u64::from(running.count_flag) << 2
            }
            _ => chip.result(address),
        }
    }

    fn store(chip: &mut Chip<Self>, address: u8, value: u16) -> bool {
        match address {
            0x01 => chip.pending.control = value,
            0x1c => chip.kept = value as u8,
            0x1d => chip.pending.polarity = value,
            _ => return false,
        }
        true
    }

    fn settings_writes(wanted: Wanted, mark: bool) -> Self::Writes {
        let control = (4 + u16::from(wanted.rate)) << 12
            | u16::from(mark) << 10
            | u16::from(wanted.off) << 4;
        let polarity = (0..CHANNELS)
            .filter(|&i| has(wanted.two_way, i))
            .fold(0, |bits, i| bits | 1 << (14 - 2 * i));
        [RegisterWrite::word(0x01, control), RegisterWrite::word(0x1d, polarity)]
    }

    fn mark(control: &[u8]) -> bool {
        control[0] & 0x04 != 0
    }

    fn stamp(bytes: &[u8]) -> Stamp {
        Stamp {
            spoilt: bytes[7] & 0x0c != 0,
            rate: bytes[0] >> 4 & 3,
            off: bytes[1] >> 4,
            two_way: mask_of_pairs(u16::from_be_bytes([bytes[2], bytes[3]])),
        }
    }
}
