//! Wires to a chip: a direct one, and one over another that fails as a script says.

use crate::chip::{Answer, By, Chip, Codes, LONGEST_READ, Make, Refusal, CHANNELS};

pub trait Wire {
    type Make: Make;

    fn cycle(&mut self, codes: [Codes; CHANNELS]);
    fn read(&mut self, start: u8, bytes: &mut [u8]) -> Answer<()>;
    fn write(&mut self, address: u8, bytes: &[u8]) -> Answer<()>;
    fn send(&mut self, command: u8) -> Answer<()>;
}

pub struct Direct<M>(Chip<M>);

impl<M: Make> Direct<M> {
    pub fn new() -> Self {
        Direct(Chip::new())
    }
}

impl<M: Make> Wire for Direct<M> {
    type Make = M;

    fn cycle(&mut self, codes: [Codes; CHANNELS]) {
        self.0.cycle(codes);
    }

    fn read(&mut self, start: u8, bytes: &mut [u8]) -> Answer<()> {
        self.0.read(start, bytes)
    }

    fn write(&mut self, address: u8, bytes: &[u8]) -> Answer<()> {
        self.0.write(address, bytes)
    }

    fn send(&mut self, command: u8) -> Answer<()> {
        self.0.send(command)
    }
}

#[derive(Clone, Copy)]
enum Outcome {
    Pass,
    Refuse,
    Break,
    DropReply,
}

const SCRIPT_PLACES: usize = 256;

pub struct Scripted<W> {
    below: W,
    outcomes: [Outcome; SCRIPT_PLACES],
    added: usize,
    taken: usize,
}

impl<W> Scripted<W> {
    pub fn new(below: W) -> Self {
        Scripted { below, outcomes: [Outcome::Pass; SCRIPT_PLACES], added: 0, taken: 0 }
    }

    pub fn add(&mut self, number: u8) -> Answer<()> {
        let outcome = match number {
            0 => Outcome::Pass,
            1 => Outcome::Refuse,
            2 => Outcome::Break,
            3 => Outcome::DropReply,
            _ => return Err(Refusal::Limits),
        };
        let place = self.outcomes.get_mut(self.added).ok_or(Refusal::Full)?;
        *place = outcome;
        self.added += 1;
        Ok(())
    }

    fn play<T>(&mut self, address: u8, request: impl FnOnce(&mut W) -> Answer<T>) -> Answer<T> {
        match self.next() {
            Outcome::Pass => request(&mut self.below),
            Outcome::Refuse => Err(Refusal::NotAcknowledged { by: By::Wire, address }),
            Outcome::Break => Err(Refusal::Broken { address }),
            Outcome::DropReply => {
                let _ = request(&mut self.below);
                Err(Refusal::Broken { address })
            }
        }
    }

    fn next(&mut self) -> Outcome {
        if self.taken == self.added {
            return Outcome::Pass;
        }
        let outcome = self.outcomes[self.taken];
        self.taken += 1;
        outcome
    }
}

impl<W: Wire> Wire for Scripted<W> {
    type Make = W::Make;

    fn cycle(&mut self, codes: [Codes; CHANNELS]) {
        self.below.cycle(codes);
    }

    fn read(&mut self, start: u8, bytes: &mut [u8]) -> Answer<()> {
        if !(1..=LONGEST_READ).contains(&bytes.len()) {
            return Err(Refusal::Limits);
        }
        // A reply that is dropped must not reach the caller's bytes.
        match self.next() {
            Outcome::Pass => self.below.read(start, bytes),
            Outcome::Refuse => Err(Refusal::NotAcknowledged { by: By::Wire, address: start }),
            Outcome::Break => Err(Refusal::Broken { address: start }),
            Outcome::DropReply => {
                let mut lost = [0; LONGEST_READ];
                let _ = self.below.read(start, &mut lost[..bytes.len()]);
                Err(Refusal::Broken { address: start })
            }
        }
    }

    fn write(&mut self, address: u8, bytes: &[u8]) -> Answer<()> {
        self.play(address, |below| below.write(address, bytes))
    }

    fn send(&mut self, command: u8) -> Answer<()> {
        self.play(command, |below| below.send(command))
    }
}
