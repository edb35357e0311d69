//! A meter of a wire, its slips, and a desk that holds a meter, a book and the slip in hand.

use crate::book::{Bill, Book, Entry};
use crate::chip::{sign_extend, has, Answer, Codes, Make, Refusal, Wanted, CHANNELS, REFRESH};
use crate::wire::{Scripted, Wire};

const LEAST_SCRATCH: usize = 32;

#[derive(Clone, Copy, PartialEq, Eq)]
enum Condition {
    Ready,
    Unfinished,
    InDoubt,
    SlipOut(u32),
}

/// The right to the image that waits.
#[must_use]
pub struct Slip {
    meter: u32,
    draw: u32,
}

impl Slip {
    pub fn draw(&self) -> u32 {
        self.draw
    }
}

/// A slip given back, and why.
pub struct Unspent {
    pub slip: Slip,
    pub refusal: Refusal,
}

pub struct Meter<W> {
    wire: W,
    number: u32,
    last: u32,
    wanted: Wanted,
    mark: bool,
    write_offs: u32,
    condition: Condition,
}

impl<W: Wire> Meter<W> {
    pub fn new(wire: W, number: u32, last: u32) -> Self {
        Meter {
            wire,
            number,
            last,
            wanted: Wanted::default(),
            mark: false,
            write_offs: 0,
            condition: Condition::Ready,
        }
    }

    pub fn cycle(&mut self, codes: [Codes; CHANNELS]) {
        self.wire.cycle(codes);
    }

    pub fn set_up(&mut self, rate: u8, off: u8, two_way: u8) -> Answer<()> {
        self.wanted = Wanted::new(rate, off, two_way)?;
        Ok(())
    }

    pub fn draw(&mut self) -> Answer<Slip> {
        if let Condition::SlipOut(_) = self.condition {
            return Err(Refusal::SlipOut);
        }
        if self.last == u32::MAX {
            return Err(Refusal::NumbersSpent);
        }
        if self.condition != Condition::InDoubt || self.mark_in_force()? == self.mark {
            self.refresh()?;
        }
        self.last += 1;
        self.mark = !self.mark;
        self.condition = Condition::SlipOut(self.last);
        Ok(Slip { meter: self.number, draw: self.last })
    }

    fn mark_in_force(&mut self) -> Answer<bool> {
        let mut control = [0; 2];
        let control = &mut control[..W::Make::CONTROL_BYTES];
        self.wire.read(0x21, control)?;
        Ok(W::Make::mark(control))
    }

    fn refresh(&mut self) -> Answer<()> {
        let writes = W::Make::settings_writes(self.wanted, !self.mark);
        for write in writes.as_ref() {
            self.wire.write(write.address, write.bytes()).inspect_err(|_| {
                self.condition = Condition::Unfinished;
            })?;
        }
        self.wire.send(REFRESH).inspect_err(|refusal| {
            self.condition = match refusal {
                Refusal::Broken { .. } => Condition::InDoubt,
                _ => Condition::Unfinished,
            };
        })
    }

    fn takes(&self, slip: &Slip) -> bool {
        slip.meter == self.number && self.condition == Condition::SlipOut(slip.draw)
    }

    pub fn book(
        &mut self,
        slip: Slip,
        book: &mut Book<'_>,
        scratch: &mut [u8],
    ) -> Result<Entry, Unspent> {
        match self.entry(&slip, book, scratch) {
            Ok(entry) => {
                self.condition = Condition::Ready;
                Ok(entry)
            }
            Err(refusal) => Err(Unspent { slip, refusal }),
        }
    }

    fn entry(&mut self, slip: &Slip, book: &mut Book<'_>, scratch: &mut [u8]) -> Answer<Entry> {
        if !book.within_limits() || scratch.len() < LEAST_SCRATCH {
            return Err(Refusal::Limits);
        }
        if !self.takes(slip) {
            return Err(Refusal::WrongSlip);
        }
        if book.is_full() {
            return Err(Refusal::Full);
        }
        let counters = &mut scratch[..W::Make::COUNTERS];
        self.wire.read(0x02, counters)?;
        let (count, sums) = counters.split_at(W::Make::COUNT_BYTES);
        let count = number(count) as u32;
        let mut raw = [0; CHANNELS];
        for (raw, bytes) in raw.iter_mut().zip(sums.chunks_exact(W::Make::SUM_BYTES)) {
            *raw = number(bytes);
        }
        let (address, len) = W::Make::STAMP;
        let stamp = &mut scratch[..len];
        self.wire.read(address, stamp)?;
        let stamp = W::Make::stamp(stamp);
        let mut sums = [0; CHANNELS];
        for (channel, (sum, raw)) in sums.iter_mut().zip(raw).enumerate() {
            *sum = if has(stamp.two_way, channel) {
                sign_extend(W::Make::SUM_BITS, raw)
            } else {
                raw as i64
            };
        }
        let entry = Entry {
            draw: slip.draw,
            spoilt: stamp.spoilt.into(),
            count,
            rate: stamp.rate,
            off: stamp.off,
            two_way: stamp.two_way,
            sums,
        };
        book.put(entry)?;
        Ok(entry)
    }

    pub fn write_off(&mut self, slip: Slip) -> Result<(), Unspent> {
        if !self.takes(&slip) {
            return Err(Unspent { slip, refusal: Refusal::WrongSlip });
        }
        self.write_offs += 1;
        self.condition = Condition::Ready;
        Ok(())
    }
}

fn number(bytes: &[u8]) -> u64 {
    bytes.iter().fold(0, |number, &byte| number << 8 | u64::from(byte))
}

pub struct Desk<'a, W> {
    meter: Meter<Scripted<W>>,
    book: Book<'a>,
    scratch: [u8; LEAST_SCRATCH],
    slip: Option<Slip>,
}

impl<'a, W: Wire> Desk<'a, W> {
    pub fn new(wire: Scripted<W>, places: &'a mut [Entry]) -> Self {
        Desk {
            meter: Meter::new(wire, 1, 0),
            book: Book::new(places, 0),
            scratch: [0; LEAST_SCRATCH],
            slip: None,
        }
    }

    pub fn cycle(&mut self, codes: [Codes; CHANNELS]) {
        self.meter.cycle(codes);
    }

    pub fn add(&mut self, outcome: u8) -> Answer<()> {
        self.meter.wire.add(outcome)
    }

    pub fn set_up(&mut self, rate: u8, off: u8, two_way: u8) -> Answer<()> {
        self.meter.set_up(rate, off, two_way)
    }

    pub fn draw(&mut self) -> Answer<u32> {
        let slip = self.meter.draw()?;
        let draw = slip.draw();
        self.slip = Some(slip);
        Ok(draw)
    }

    pub fn book(&mut self) -> Answer<Entry> {
        let slip = self.slip.take().ok_or(Refusal::NoSlip)?;
        self.meter.book(slip, &mut self.book, &mut self.scratch).map_err(|unspent| {
            self.slip = Some(unspent.slip);
            unspent.refusal
        })
    }

    pub fn write_off(&mut self) -> Answer<()> {
        let slip = self.slip.take().ok_or(Refusal::NoSlip)?;
        self.meter.write_off(slip).map_err(|unspent| {
            self.slip = Some(unspent.slip);
            unspent.refusal
        })
    }

    pub fn bill(&self, channel: u8, shunt: u16) -> Answer<Bill> {
        self.book.bill::<W::Make>(channel, shunt)
    }

    /// A slip in hand is written off.
    pub fn end(mut self) {
        if self.slip.is_some() {
            let _ = self.write_off();
        }
    }
}
