//! Work for the chip, the meter and the book: `speed ROW KIND COUNT SEED` prints what came out of it, as one number.
#![allow(dead_code)]

mod book;
mod chip;
mod meter;
mod wire;

use book::{Bill, Book, Entry};
use chip::{Answer, CHANNELS, Codes, Make, Pac193x, Pac194x, REFRESH, REFRESH_V, Refusal, Wanted};
use meter::Desk;
use std::array;
use std::env;
use std::error::Error;
use wire::{Direct, Scripted, Wire};

const CODE_SETS: usize = 256;
const PLACES: usize = 4096;
const OUTCOMES: usize = 256;

const LISTED: [u8; 34] = [
    0x01, 0x02, 0x03, 0x04, 0x05, 0x06, 0x07, 0x08, 0x09, 0x0a, 0x0b, 0x0c, 0x0d, 0x0e, 0x0f, 0x10, 0x11,
    0x12, 0x13, 0x14, 0x15, 0x16, 0x17, 0x18, 0x19, 0x1a, 0x1c, 0x1d, 0x21, 0x22, 0x23, 0x24, 0x25, 0x26,
];

type CodeSet = [Codes; CHANNELS];

/// A linear congruential generator, of which the upper bits are used.
struct Random(u64);

impl Random {
    fn next(&mut self) -> u64 {
        self.0 = self.0.wrapping_mul(6_364_136_223_846_793_005).wrapping_add(1_442_695_040_888_963_407);
        self.0
    }

    fn below(&mut self, end: u64) -> u64 {
        (self.next() >> 32) % end
    }

    fn word(&mut self) -> u16 {
        (self.next() >> 48) as u16
    }

    fn codes(&mut self) -> Codes {
        Codes { bus: self.word(), sense: self.word() }
    }

    fn code_sets(&mut self) -> [CodeSet; CODE_SETS] {
        array::from_fn(|_| array::from_fn(|_| self.codes()))
    }

    /// An entry anywhere in the ranges of its make.
    fn entry<M: Make>(&mut self, draw: u32) -> Entry {
        let mut entry = Entry {
            draw,
            spoilt: u8::from(self.below(16) == 0),
            count: (self.next() >> (64 - M::COUNT_BITS)) as u32,
            rate: self.below(4) as u8,
            off: self.below(16) as u8,
            two_way: self.below(16) as u8,
            sums: [0; CHANNELS],
        };
        for (channel, sum) in entry.sums.iter_mut().enumerate() {
            let bits = self.next();
            *sum = if chip::has(entry.two_way, channel) {
                bits as i64 >> (64 - M::SUM_BITS)
            } else {
                (bits >> (64 - M::SUM_BITS)) as i64
            };
        }
        entry
    }
}

/// All that came out, in one number.
struct Checksum(u64);

impl Checksum {
    fn add(&mut self, number: u64) {
        self.0 = (self.0.rotate_left(5) ^ number).wrapping_mul(0x9e37_79b9_7f4a_7c15);
    }

    fn add_bytes(&mut self, bytes: &[u8; 64]) {
        for word in bytes.chunks_exact(8) {
            self.add(u64::from_be_bytes(word.try_into().unwrap()));
        }
    }

    fn add_entry(&mut self, entry: &Entry) {
        self.add(entry.draw.into());
        self.add(entry.spoilt.into());
        self.add(entry.count.into());
        self.add(entry.rate.into());
        self.add(entry.off.into());
        self.add(entry.two_way.into());
        for sum in entry.sums {
            self.add(sum as u64);
        }
    }

    fn add_refusal(&mut self, refusal: Refusal) {
        self.add(refusal.number().into());
        if let Refusal::BadEntry { place } = refusal {
            self.add(place as u64);
        }
    }

    fn add_bill(&mut self, bill: Answer<Bill>) {
        match bill {
            Ok(bill) => {
                self.add(bill.energy as u64);
                self.add((bill.energy >> 64) as u64);
                self.add(bill.billed as u64);
                self.add(bill.spoilt as u64);
            }
            Err(refusal) => self.add_refusal(refusal),
        }
    }
}

fn put_in_force<M: Make>(wire: &mut Direct<M>, off: u8, two_way: u8) -> Answer<()> {
    let writes = M::settings_writes(Wanted::new(0, off, two_way)?, false);
    for write in writes.as_ref() {
        wire.write(write.address, write.bytes())?;
    }
    wire.send(REFRESH)
}

/// Cycles under four settings, and what the image shows after each quarter.
fn cycles<M: Make>(count: usize, random: &mut Random, sum: &mut Checksum) -> Answer<()> {
    let sets = random.code_sets();
    let mut wire = Direct::<M>::new();
    let mut bytes = [0; 64];
    for (off, two_way) in [(0, 0), (0, 5), (2, 9), (0, 15)] {
        put_in_force(&mut wire, off, two_way)?;
        for i in 0..count / 4 {
            wire.cycle(sets[i % CODE_SETS]);
        }
        wire.send(REFRESH_V)?;
        for start in [0x02, 0x1a] {
            wire.read(start, &mut bytes)?;
            sum.add_bytes(&bytes);
        }
    }
    Ok(())
}

/// Reads of 64 bytes, from any listed address on.
fn reads<M: Make>(count: usize, random: &mut Random, sum: &mut Checksum) -> Answer<()> {
    let sets = random.code_sets();
    let starts: [u8; 256] = array::from_fn(|_| LISTED[random.below(34) as usize]);
    let mut wire = Direct::<M>::new();
    put_in_force(&mut wire, 2, 9)?;
    for codes in sets {
        wire.cycle(codes);
    }
    wire.send(REFRESH)?;
    let mut bytes = [0; 64];
    for i in 0..count {
        wire.read(starts[i % 256], &mut bytes)?;
        sum.add_bytes(&bytes);
    }
    Ok(())
}

/// A cycle, a draw and a booking each time, at desks with scripts that are partly bad.
fn bookings<M: Make>(count: usize, random: &mut Random, sum: &mut Checksum) -> Answer<()> {
    let sets = random.code_sets();
    let mut places = vec![Entry::default(); PLACES];
    for start in (0..count).step_by(PLACES) {
        let mut desk = Desk::new(Scripted::new(Direct::<M>::new()), &mut places);
        for _ in 0..OUTCOMES {
            desk.add(random.below(8).saturating_sub(4) as u8)?;
        }
        for i in start..count.min(start + PLACES) {
            if i % 16 == 0 {
                let (rate, off, two_way) = (random.below(4), random.below(16), random.below(16));
                desk.set_up(rate as u8, off as u8, two_way as u8)?;
            }
            desk.cycle(sets[i % CODE_SETS]);
            match desk.draw() {
                Ok(draw) => sum.add(draw.into()),
                Err(refusal) => sum.add_refusal(refusal),
            }
            match desk.book() {
                Ok(entry) => sum.add_entry(&entry),
                Err(refusal) => sum.add_refusal(refusal),
            }
        }
        sum.add_bill(desk.bill(random.below(4) as u8 + 1, 100));
        desk.end();
    }
    for entry in &places {
        sum.add_entry(entry);
    }
    Ok(())
}

/// Bills of a full book, of which one entry changes each time; the last one is refused.
fn bills<M: Make>(count: usize, random: &mut Random, sum: &mut Checksum) {
    let mut places: Vec<Entry> = (0..PLACES).map(|i| random.entry::<M>(i as u32)).collect();
    for _ in 0..count {
        let place = random.below(PLACES as u64) as usize;
        places[place] = random.entry::<M>(place as u32);
        let (channel, shunt) = (random.below(4) as u8 + 1, random.below(1000) as u16 + 1);
        sum.add_bill(Book::new(&mut places, PLACES).bill::<M>(channel, shunt));
    }
    places[random.below(PLACES as u64) as usize].rate = 4;
    sum.add_bill(Book::new(&mut places, PLACES).bill::<M>(1, 1));
}

fn work<M: Make>(row: &str, count: usize, seed: u64) -> Result<u64, Box<dyn Error>> {
    let mut random = Random(seed);
    let mut sum = Checksum(0);
    let done = match row {
        "cycles" => cycles::<M>(count, &mut random, &mut sum),
        "reads" => reads::<M>(count, &mut random, &mut sum),
        "bookings" => bookings::<M>(count, &mut random, &mut sum),
        "bills" => Ok(bills::<M>(count, &mut random, &mut sum)),
        _ => return Err("no such row".into()),
    };
    done.map_err(|refusal| format!("refused: {refusal:?}"))?;
    Ok(sum.0)
}

fn main() -> Result<(), Box<dyn Error>> {
    let words: Vec<String> = env::args().skip(1).collect();
    let [row, kind, count, seed] = words.as_slice() else {
        return Err("usage: speed cycles|reads|bookings|bills 193|194 COUNT SEED".into());
    };
    let (count, seed) = (count.parse()?, seed.parse()?);
    let sum = match kind.as_str() {
        "193" => work::<Pac193x>(row, count, seed)?,
        "194" => work::<Pac194x>(row, count, seed)?,
        _ => return Err("no such kind".into()),
    };
    println!("{row},{kind},{count},{sum}");
    Ok(())
}
