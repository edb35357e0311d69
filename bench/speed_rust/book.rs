//! A book of entries, and its bill.

use crate::chip::{has, Answer, Make, Refusal, CHANNELS};

const MOST_PLACES: usize = 4096;
const LARGEST_SHUNT: u16 = 1000;

#[derive(Clone, Copy, Debug, Default)]
pub struct Entry {
    pub draw: u32,
    pub spoilt: u8,
    pub count: u32,
    pub rate: u8,
    pub off: u8,
    pub two_way: u8,
    pub sums: [i64; CHANNELS],
}

#[derive(Clone, Copy, Debug)]
pub struct Bill {
    pub energy: i128,
    pub billed: usize,
    pub spoilt: usize,
}

pub struct Book<'a> {
    places: &'a mut [Entry],
    filled: usize,
}

impl Entry {
    fn is_of<M: Make>(&self) -> bool {
        let sum_fits = |(channel, sum): (usize, &i64)| {
            if has(self.two_way, channel) {
                let half = 1 << (M::SUM_BITS - 1);
                (-half..half).contains(sum)
            } else {
                (0..1 << M::SUM_BITS).contains(sum)
            }
        };
        self.rate <= 3
            && self.off <= 15
            && self.two_way <= 15
            && self.spoilt <= 1
            && u64::from(self.count) < 1 << M::COUNT_BITS
            && self.sums.iter().enumerate().all(sum_fits)
    }

    fn weight(&self, channel: usize) -> i128 {
        let one_way = [1, 4, 16, 128][usize::from(self.rate)];
        if has(self.two_way, channel) { 2 * one_way } else { one_way }
    }
}

impl<'a> Book<'a> {
    pub fn new(places: &'a mut [Entry], filled: usize) -> Self {
        Book { places, filled }
    }

    pub fn within_limits(&self) -> bool {
        (1..=MOST_PLACES).contains(&self.places.len()) && self.filled <= self.places.len()
    }

    pub fn is_full(&self) -> bool {
        self.filled >= self.places.len()
    }

    pub fn put(&mut self, entry: Entry) -> Answer<()> {
        let place = self.places.get_mut(self.filled).ok_or(Refusal::Full)?;
        *place = entry;
        self.filled += 1;
        Ok(())
    }

    pub fn bill<M: Make>(&self, channel: u8, shunt: u16) -> Answer<Bill> {
        let channel = usize::from(channel);
        if !self.within_limits()
            || !(1..=CHANNELS).contains(&channel)
            || !(1..=LARGEST_SHUNT).contains(&shunt)
        {
            return Err(Refusal::Limits);
        }
        let channel = channel - 1;
        let mut total = 0i128;
        let mut spoilt = 0;
        for (place, entry) in self.places[..self.filled].iter().enumerate() {
            if !entry.is_of::<M>() {
                return Err(Refusal::BadEntry { place });
            }
            if entry.spoilt == 0 {
                total += i128::from(entry.sums[channel]) * entry.weight(channel);
            } else {
                spoilt += 1;
            }
        }
        let parts = i128::from(shunt) << M::SHIFT;
        Ok(Bill {
            energy: (total * i128::from(M::FACTOR)).div_euclid(parts),
            billed: self.filled - spoilt,
            spoilt,
        })
    }
}
