//! Reading and writing the same frames by the library and apart from it.

use crate::draws::{Drawn, Draws};
use crate::frames::{self, Case, Frames, Kind};
use crate::proved::Proved;
use crate::reader;
use crate::types::{Cycles, Frame, Order, Ozone, Reading, Refused, Wind};
use std::collections::BTreeMap;

/// How many frames were compared, by what was answered, and how many answers differ.
#[derive(Default)]
pub struct Tally {
    answers: BTreeMap<(usize, usize), usize>,
    pub differ: usize,
}

impl Tally {
    fn add<T>(&mut self, answer: &Result<T, Refused>) {
        let key = answer
            .as_ref()
            .map_or_else(|refused| (refused.number, refused.place), |_| (0, 0));
        *self.answers.entry(key).or_default() += 1;
    }

    pub fn print(&self) {
        for ((number, place), count) in &self.answers {
            match number {
                0 => println!("{count:>9}  no refusal"),
                17 => println!("{count:>9}  refusal {number}"),
                _ => println!("{count:>9}  refusal {number} at byte {place}"),
            }
        }
        println!("{:>9}  answers that differ", self.differ);
    }
}

/// Reads one frame by both readers.
fn read_one<E: Proved>(case: &Case, bytes: &[u8], tally: &mut Tally) {
    let by_library = E::read(case.cycles, bytes);
    let apart = reader::read::<E>(case.cycles, bytes);
    tally.add(&apart);
    if by_library != apart {
        tally.differ += 1;
        println!("{case:?} {bytes:02X?}: the library {by_library:?}, the other {apart:?}");
    }
}

/// Draws a frame and writes it by both writers, into an area of some length, and reads back what the library wrote.
fn write_one<E: Proved + Drawn>(draws: &mut Draws, tally: &mut Tally) {
    let (cycles, frame, length) = to_write::<E>(draws);
    let untouched = [0xA5; 40];
    let mut area = untouched;
    let by_library = E::write(cycles, &frame, &mut area[..length]);
    let apart = reader::write(cycles, &frame);
    tally.add(&apart);
    let mut wanted = untouched;
    if let Ok(bytes) = &apart
        && bytes.len() <= length
    {
        wanted[..bytes.len()].copy_from_slice(bytes);
    }
    let back = match by_library {
        Ok(n) if n <= length => reader::read(cycles, &area[..n]) == Ok(frame),
        _ => true,
    };
    if by_library != apart.clone().map(|bytes| bytes.len()) || area != wanted || !back {
        tally.differ += 1;
        println!(
            "{cycles:?} {frame:?} into {length}: the library {by_library:?} {area:02X?}, the other {apart:02X?}"
        );
    }
}

/// A frame to be written: most are in order, and some have a number or a field that is not.
fn to_write<E: Drawn>(draws: &mut Draws) -> (Cycles, Frame<E>, usize) {
    let cycles = draws.cycles();
    let element = match draws.next() % 8 {
        0 | 1 => None,
        2 => Some(E::out_of_range(draws)),
        _ => Some(E::drawn(draws)),
    };
    let frame = frames::frame(draws, cycles, element);
    let shorter = match draws.next() % 8 {
        0 => Cycles {
            ack: draws.within(1, cycles.ack.into()) as u16,
            ..cycles
        },
        1 => Cycles {
            number: draws.within(1, cycles.number.into()) as u16,
            ..cycles
        },
        _ => cycles,
    };
    (shorter, frame, draws.within(0, 40) as usize)
}

/// Reads all these frames by both readers, and prints each on which they differ.
pub fn reading(frames: &Frames) -> Tally {
    let mut tally = Tally::default();
    for case in &frames.cases {
        let bytes = frames.bytes_of(case);
        match case.kind {
            Kind::Reading => read_one::<Reading>(case, bytes, &mut tally),
            Kind::Ozone => read_one::<Ozone>(case, bytes, &mut tally),
            Kind::Wind => read_one::<Wind>(case, bytes, &mut tally),
            Kind::Order => read_one::<Order>(case, bytes, &mut tally),
        }
    }
    tally
}

/// Writes so many frames by both writers, and prints each on which they differ.
pub fn writing(most: usize) -> Tally {
    let mut draws = Draws(most as u64);
    let mut tally = Tally::default();
    for i in 0..most {
        match i % 4 {
            0 => write_one::<Reading>(&mut draws, &mut tally),
            1 => write_one::<Ozone>(&mut draws, &mut tally),
            2 => write_one::<Wind>(&mut draws, &mut tally),
            _ => write_one::<Order>(&mut draws, &mut tally),
        }
    }
    tally
}
