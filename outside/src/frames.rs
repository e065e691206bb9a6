//! The frames on which both readers are compared: a million of them, drawn by a generator with a fixed start.

use crate::draws::{Drawn, Draws};
use crate::reader::{BARE, LONGEST, MARK, seal, write};
use crate::types::{Cycles, Element, Frame, Order, Ozone, Reading, Wind};

/// What was done to a frame.
#[derive(Clone, Copy, PartialEq, Eq, Debug)]
pub enum Sort {
    Bare,
    Laden,
    OneBit,
    Shortened,
    Lengthened,
    WrongSender,
    PastCycle,
    WrongField,
    OutOfRange,
    OtherKind,
    Random,
}

impl Sort {
    pub const ALL: [Sort; 11] = [
        Sort::Bare,
        Sort::Laden,
        Sort::OneBit,
        Sort::Shortened,
        Sort::Lengthened,
        Sort::WrongSender,
        Sort::PastCycle,
        Sort::WrongField,
        Sort::OutOfRange,
        Sort::OtherKind,
        Sort::Random,
    ];

    /// What the sort is, in words.
    pub fn words(self) -> &'static str {
        match self {
            Sort::Bare => "bare, as written",
            Sort::Laden => "laden, as written",
            Sort::OneBit => "one bit changed, each in turn",
            Sort::Shortened => "bytes missing at the end, some with the check mended",
            Sort::Lengthened => "bytes behind the end, some with the check mended",
            Sort::WrongSender => "another sender, the check mended",
            Sort::PastCycle => "a number not below its cycle, the check mended",
            Sort::WrongField => "another tag, number or width, the check mended",
            Sort::OutOfRange => "an element out of range, the check mended",
            Sort::OtherKind => "of any kind, as written, read as any kind",
            Sort::Random => "bytes drawn at random, some with the mark and the check",
        }
    }
}

/// Which kind of element a frame is read with.
#[derive(Clone, Copy, PartialEq, Eq, Debug)]
pub enum Kind {
    Reading,
    Ozone,
    Wind,
    Order,
}

impl Kind {
    pub const ALL: [Kind; 4] = [Kind::Reading, Kind::Ozone, Kind::Wind, Kind::Order];

    /// What the kind is called.
    pub fn words(self) -> &'static str {
        match self {
            Kind::Reading => "readings",
            Kind::Ozone => "ozone",
            Kind::Wind => "winds",
            Kind::Order => "orders",
        }
    }
}

/// One frame: where it lies among the bytes, and how it is read.
#[derive(Clone, Copy, Debug)]
pub struct Case {
    pub start: usize,
    pub length: usize,
    pub kind: Kind,
    pub cycles: Cycles,
    pub sort: Sort,
}

/// All frames, one behind the other.
pub struct Frames {
    pub bytes: Vec<u8>,
    pub cases: Vec<Case>,
}

impl Frames {
    pub fn bytes_of(&self, case: &Case) -> &[u8] {
        &self.bytes[case.start..case.start + case.length]
    }

    /// The frames of one kind and one sort, laid out anew.
    pub fn only(&self, kind: Kind, sort: Sort) -> Frames {
        let mut only = Frames {
            bytes: Vec::new(),
            cases: Vec::new(),
        };
        let cases = self.cases.iter();
        for case in cases.filter(|case| (case.kind, case.sort) == (kind, sort)) {
            only.cases.push(Case {
                start: only.bytes.len(),
                ..*case
            });
            only.bytes.extend(self.bytes_of(case));
        }
        only
    }
}

/// A frame whose numbers are below their cycles, with an element or bare.
pub fn frame<E: Drawn>(draws: &mut Draws, cycles: Cycles, element: Option<E>) -> Frame<E> {
    let ack = draws.within(0, i64::from(cycles.ack) - 1) as u16;
    match element {
        None => Frame::Bare { ack },
        Some(element) => Frame::Laden {
            ack,
            number: draws.within(0, i64::from(cycles.number) - 1) as u16,
            element,
        },
    }
}

/// The bytes of a frame that is written as it is, whatever its numbers and fields.
fn as_it_is<E: Element>(frame: &Frame<E>) -> Vec<u8> {
    let mut bytes = MARK.to_vec();
    match *frame {
        Frame::Bare { ack } => {
            bytes.extend([1, E::SENDER]);
            bytes.extend(ack.to_be_bytes());
            bytes.extend([0; 3]);
        }
        Frame::Laden {
            ack,
            number,
            element,
        } => {
            bytes.extend([2, E::SENDER]);
            bytes.extend(ack.to_be_bytes());
            bytes.extend(number.to_be_bytes());
            bytes.push(E::WIDTH as u8);
            element.encode(&mut bytes);
        }
    }
    seal(bytes)
}

/// The same bytes with the check mended.
fn mended(mut bytes: Vec<u8>) -> Vec<u8> {
    bytes.truncate(bytes.len().saturating_sub(2));
    seal(bytes)
}

/// The million, as it grows.
struct Growing {
    draws: Draws,
    frames: Frames,
    most: usize,
}

impl Growing {
    fn push<E: Drawn>(&mut self, sort: Sort, cycles: Cycles, bytes: &[u8]) {
        self.push_as(E::KIND, sort, cycles, bytes);
    }

    fn push_as(&mut self, kind: Kind, sort: Sort, cycles: Cycles, bytes: &[u8]) {
        if self.frames.cases.len() < self.most {
            let start = self.frames.bytes.len();
            self.frames.bytes.extend(bytes);
            self.frames.cases.push(Case {
                start,
                length: bytes.len(),
                kind,
                cycles,
                sort,
            });
        }
    }

    /// A drawn frame of a kind, as bytes.
    fn written<E: Drawn>(&mut self, cycles: Cycles) -> Vec<u8> {
        let element = (!self.draws.one_in(3)).then(|| E::drawn(&mut self.draws));
        let frame = frame(&mut self.draws, cycles, element);
        write(cycles, &frame).expect("a drawn frame can be written")
    }

    /// Draws frames of one sort.
    fn grow<E: Drawn>(&mut self, sort: Sort) {
        let cycles = self.draws.cycles();
        match sort {
            Sort::Bare => {
                let frame = frame::<E>(&mut self.draws, cycles, None);
                self.push::<E>(sort, cycles, &as_it_is(&frame));
            }
            Sort::Laden => {
                let element = E::drawn(&mut self.draws);
                let frame = frame(&mut self.draws, cycles, Some(element));
                self.push::<E>(sort, cycles, &as_it_is(&frame));
            }
            Sort::OneBit => self.one_bit::<E>(cycles),
            Sort::Shortened => self.shortened::<E>(cycles),
            Sort::Lengthened => {
                let mut bytes = self.written::<E>(cycles);
                for _ in 0..self.draws.within(1, 24) {
                    bytes.push(self.draws.next() as u8);
                }
                let bytes = if self.draws.one_in(2) {
                    mended(bytes)
                } else {
                    bytes
                };
                self.push::<E>(sort, cycles, &bytes);
            }
            Sort::WrongSender => {
                let mut bytes = self.written::<E>(cycles);
                bytes[6] = if self.draws.one_in(2) {
                    3 - E::SENDER
                } else {
                    self.draws.next() as u8
                };
                self.push::<E>(sort, cycles, &mended(bytes));
            }
            Sort::PastCycle => self.past_cycle::<E>(cycles),
            Sort::WrongField => self.wrong_field::<E>(cycles),
            Sort::OutOfRange => self.out_of_range::<E>(cycles),
            Sort::OtherKind => {
                let bytes = self.written::<E>(cycles);
                let kind = Kind::ALL[self.draws.next() as usize % Kind::ALL.len()];
                self.push_as(kind, sort, cycles, &bytes);
            }
            Sort::Random => self.random::<E>(cycles),
        }
    }

    fn one_bit<E: Drawn>(&mut self, cycles: Cycles) {
        let mut bytes = self.written::<E>(cycles);
        for bit in 0..8 * bytes.len() {
            bytes[bit / 8] ^= 1 << (bit % 8);
            self.push::<E>(Sort::OneBit, cycles, &bytes);
            bytes[bit / 8] ^= 1 << (bit % 8);
        }
    }

    fn shortened<E: Drawn>(&mut self, cycles: Cycles) {
        let bytes = self.written::<E>(cycles);
        for length in 0..bytes.len() {
            self.push::<E>(Sort::Shortened, cycles, &bytes[..length]);
            if length >= 2 {
                self.push::<E>(Sort::Shortened, cycles, &mended(bytes[..length].to_vec()));
            }
        }
    }

    fn past_cycle<E: Drawn>(&mut self, cycles: Cycles) {
        let bytes = self.written::<E>(cycles);
        for (at, cycle) in [(7, cycles.ack), (9, cycles.number)] {
            let mut bytes = bytes.clone();
            let number = self.draws.within(cycle.into(), u16::MAX.into()) as u16;
            bytes[at..at + 2].copy_from_slice(&number.to_be_bytes());
            if self.draws.one_in(8) {
                bytes[7..9].copy_from_slice(&u16::MAX.to_be_bytes());
            }
            self.push::<E>(Sort::PastCycle, cycles, &mended(bytes));
        }
    }

    fn wrong_field<E: Drawn>(&mut self, cycles: Cycles) {
        let mut bytes = self.written::<E>(cycles);
        for _ in 0..self.draws.within(1, 2) {
            let (at, near) =
                [(5, 2), (6, 2), (9, 1), (10, 1), (11, 18)][self.draws.next() as usize % 5];
            bytes[at] = match self.draws.next() % 4 {
                0 => self.draws.next() as u8,
                _ => self.draws.within(0, near) as u8,
            };
        }
        self.push::<E>(Sort::WrongField, cycles, &mended(bytes));
    }

    fn out_of_range<E: Drawn>(&mut self, cycles: Cycles) {
        let element = E::out_of_range(&mut self.draws);
        let frame = frame(&mut self.draws, cycles, Some(element));
        let mut bytes = as_it_is(&frame);
        if E::KIND == Kind::Order && self.draws.one_in(4) {
            bytes[12] = self.draws.next() as u8;
        }
        self.push::<E>(Sort::OutOfRange, cycles, &mended(bytes));
    }

    fn random<E: Drawn>(&mut self, cycles: Cycles) {
        let longest = LONGEST as i64 + 8;
        let mut bytes: Vec<u8> = (0..self.draws.within(0, longest))
            .map(|_| self.draws.next() as u8)
            .collect();
        if bytes.len() >= BARE && self.draws.one_in(2) {
            bytes[..5].copy_from_slice(&MARK);
            bytes[5] = self.draws.within(0, 3) as u8;
            bytes[6] = self.draws.within(0, 3) as u8;
            bytes = mended(bytes);
        }
        self.push::<E>(Sort::Random, cycles, &bytes);
    }
}

/// So many frames, of all sorts and all kinds as they are drawn, half of them as they are written.
pub fn drawn(most: usize) -> Frames {
    let frames = Frames {
        bytes: Vec::new(),
        cases: Vec::with_capacity(most),
    };
    let mut growing = Growing {
        draws: Draws(0x4D48_4C01),
        frames,
        most,
    };
    while growing.frames.cases.len() < most {
        let sort = match growing.draws.next() % 1_000 {
            0..180 => Sort::Bare,
            180..620 => Sort::Laden,
            620 => Sort::OneBit,
            621 => Sort::Shortened,
            622..660 => Sort::Lengthened,
            660..710 => Sort::WrongSender,
            710..760 => Sort::PastCycle,
            760..830 => Sort::WrongField,
            830..920 => Sort::OutOfRange,
            920..940 => Sort::OtherKind,
            _ => Sort::Random,
        };
        match growing.draws.next() % 4 {
            0 => growing.grow::<Reading>(sort),
            1 => growing.grow::<Ozone>(sort),
            2 => growing.grow::<Wind>(sort),
            _ => growing.grow::<Order>(sort),
        }
    }
    growing.frames
}
