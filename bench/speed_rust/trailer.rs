//! The crew's line program: standard input to standard output.
#![allow(dead_code)]

mod book;
mod chip;
mod meter;
mod wire;

use book::Entry;
use chip::{Answer, Codes, Make, Pac193x, Pac194x, Refusal, CHANNELS};
use meter::Desk;
use std::io::{self, BufWriter, Read, Write};
use wire::{Direct, Scripted};

const LONGEST_INPUT: u64 = 65_536;
const LONGEST_LINE: usize = 80;
const PLACES: usize = 64;
const MOST_FIELDS: usize = 8;

struct Line<'a> {
    word: &'a [u8],
    fields: [u16; MOST_FIELDS],
    count: usize,
}

impl<'a> Line<'a> {
    fn parse(line: &'a [u8]) -> Option<Line<'a>> {
        if !(1..=LONGEST_LINE).contains(&line.len()) {
            return None;
        }
        let mut pieces = line.split(|&byte| byte == b',');
        let word = pieces.next()?;
        let mut fields = [0; MOST_FIELDS];
        let mut count = 0;
        for piece in pieces {
            *fields.get_mut(count)? = number(piece)?;
            count += 1;
        }
        Some(Line { word, fields, count })
    }

    fn fields(&self) -> &[u16] {
        &self.fields[..self.count]
    }
}

/// One to five digits, at most 65,535.
fn number(piece: &[u8]) -> Option<u16> {
    if !(1..=5).contains(&piece.len()) {
        return None;
    }
    let mut number = 0;
    for byte in piece {
        if !byte.is_ascii_digit() {
            return None;
        }
        number = 10 * number + u32::from(byte - b'0');
    }
    u16::try_from(number).ok()
}

fn byte(field: u16) -> Answer<u8> {
    u8::try_from(field).map_err(|_| Refusal::Limits)
}

fn main() -> io::Result<()> {
    let mut text = Vec::new();
    io::stdin().lock().take(LONGEST_INPUT).read_to_end(&mut text)?;
    let lines = text
        .split_inclusive(|&byte| byte == b'\n')
        .map(|line| line.strip_suffix(b"\n").unwrap_or(line));
    let mut out = BufWriter::new(io::stdout().lock());
    run(lines, &mut out)?;
    out.flush()
}

fn run<'a>(mut lines: impl Iterator<Item = &'a [u8]>, out: &mut impl Write) -> io::Result<()> {
    while let Some(line) = lines.next() {
        match Line::parse(line) {
            Some(line) if line.word == b"kind" && line.fields() == [193] => {
                return serve::<Pac193x>(lines, out);
            }
            Some(line) if line.word == b"kind" && line.fields() == [194] => {
                return serve::<Pac194x>(lines, out);
            }
            _ => writeln!(out, "line,10")?,
        }
    }
    Ok(())
}

fn serve<'a, M: Make>(
    lines: impl Iterator<Item = &'a [u8]>,
    out: &mut impl Write,
) -> io::Result<()> {
    writeln!(out, "kind,0")?;
    let mut places = [Entry::default(); PLACES];
    let mut desk = Desk::new(Scripted::new(Direct::<M>::new()), &mut places);
    for line in lines {
        match Line::parse(line) {
            Some(line) => answer(&mut desk, &line, out)?,
            None => writeln!(out, "line,10")?,
        }
    }
    desk.end();
    Ok(())
}

fn answer<M: Make>(
    desk: &mut Desk<Direct<M>>,
    line: &Line,
    out: &mut impl Write,
) -> io::Result<()> {
    match (line.word, line.fields()) {
        (b"cycle", &[v1, s1, v2, s2, v3, s3, v4, s4]) => {
            let codes: [Codes; CHANNELS] = [(v1, s1), (v2, s2), (v3, s3), (v4, s4)]
                .map(|(bus, sense)| Codes { bus, sense });
            desk.cycle(codes);
            writeln!(out, "cycle,0")
        }
        (b"setup", &[rate, off, two_way]) => {
            let mut set_up = || desk.set_up(byte(rate)?, byte(off)?, byte(two_way)?);
            nothing(out, "setup", set_up())
        }
        (b"draw", []) => match desk.draw() {
            Ok(draw) => writeln!(out, "draw,0,{draw}"),
            Err(refusal) => refused(out, "draw", refusal),
        },
        (b"book", []) => match desk.book() {
            Ok(Entry { draw, spoilt, count, rate, off, two_way, sums: [s1, s2, s3, s4] }) => writeln!(
                out,
                "book,0,{draw},{spoilt},{count},{rate},{off},{two_way},{s1},{s2},{s3},{s4}"
            ),
            Err(refusal) => refused(out, "book", refusal),
        },
        (b"writeoff", []) => nothing(out, "writeoff", desk.write_off()),
        (b"bill", &[channel, shunt]) => match byte(channel).and_then(|c| desk.bill(c, shunt)) {
            Ok(bill) => writeln!(out, "bill,0,{},{},{}", bill.energy, bill.billed, bill.spoilt),
            Err(refusal) => refused(out, "bill", refusal),
        },
        (b"fault", &[outcome]) => {
            nothing(out, "fault", byte(outcome).and_then(|outcome| desk.add(outcome)))
        }
        _ => writeln!(out, "line,10"),
    }
}

fn nothing(out: &mut impl Write, word: &str, answer: Answer<()>) -> io::Result<()> {
    match answer {
        Ok(()) => writeln!(out, "{word},0"),
        Err(refusal) => refused(out, word, refusal),
    }
}

fn refused(out: &mut impl Write, word: &str, refusal: Refusal) -> io::Result<()> {
    writeln!(out, "{word},{}", refusal.number())
}
