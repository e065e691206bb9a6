//! A reader and a writer of frames, written from docs/FRAMES.md, docs/ELEMENTS.md and docs/REFUSALS.md, and not from the library.

use crate::types::{Cycles, Element, Frame, Refused};

/// The mark, "MHL", and the version, 1.
pub const MARK: [u8; 5] = *b"MHL\x00\x01";

/// How many bytes a frame has without its element.
pub const BARE: usize = 14;

/// No frame is longer.
pub const LONGEST: usize = 32;

/// The check of RFC 1071. The bytes are added up four at a time, and the carries folded in once, at the end.
#[inline]
pub fn check(bytes: &[u8]) -> u16 {
    let (fours, rest) = bytes.as_chunks::<4>();
    let last = match *rest {
        [] => [0; 4],
        [a] => [a, 0, 0, 0],
        [a, b] => [a, b, 0, 0],
        [a, b, c, ..] => [a, b, c, 0],
    };
    let sum: u64 = fours
        .iter()
        .map(|&four| u64::from(u32::from_be_bytes(four)))
        .sum();
    let sum = sum + u64::from(u32::from_be_bytes(last));
    let (low, carry) = (sum as u32).overflowing_add((sum >> 32) as u32);
    let word = low.wrapping_add(u32::from(carry));
    !((word.wrapping_add(word.rotate_left(16)) >> 16) as u16)
}

/// The number in two bytes.
#[inline]
fn number_at(bytes: &[u8], at: usize) -> u16 {
    u16::from_be_bytes([bytes[at], bytes[at + 1]])
}

/// The frame in some bytes, or why they are none.
#[inline]
pub fn read<E: Element>(cycles: Cycles, bytes: &[u8]) -> Result<Frame<E>, Refused> {
    let refused = |number, place| Err(Refused { number, place });
    let length = bytes.len();
    if !(BARE..=LONGEST).contains(&length) {
        return refused(10, 0);
    }
    if bytes[..5] != MARK {
        return refused(11, 0);
    }
    let end = length - 2;
    if check(&bytes[..end]) != number_at(bytes, end) {
        return refused(12, end);
    }
    let laden = match bytes[5] {
        1 => false,
        2 => true,
        _ => return refused(13, 5),
    };
    if bytes[6] != E::SENDER {
        return refused(13, 6);
    }
    let (ack, number) = (number_at(bytes, 7), number_at(bytes, 9));
    if !laden && number != 0 {
        return refused(13, 9);
    }
    let width = if laden { E::WIDTH } else { 0 };
    if usize::from(bytes[11]) != width || length != BARE + width {
        return refused(13, 11);
    }
    if ack >= cycles.ack {
        return refused(14, 7);
    }
    if !laden {
        return Ok(Frame::Bare { ack });
    }
    if number >= cycles.number {
        return refused(14, 9);
    }
    match E::decode(&bytes[12..12 + E::WIDTH]) {
        Ok(element) => Ok(Frame::Laden {
            ack,
            number,
            element,
        }),
        Err(offset) => refused(15, 12 + offset),
    }
}

/// Some bytes with their check behind them.
pub fn seal(mut bytes: Vec<u8>) -> Vec<u8> {
    let check = check(&bytes);
    bytes.extend(check.to_be_bytes());
    bytes
}

/// The bytes of a frame, or why it is not written.
pub fn write<E: Element>(cycles: Cycles, frame: &Frame<E>) -> Result<Vec<u8>, Refused> {
    let (tag, ack, number, width) = match *frame {
        Frame::Bare { ack } => (1, ack, 0, 0),
        Frame::Laden { ack, number, .. } => (2, ack, number, E::WIDTH as u8),
    };
    if ack >= cycles.ack {
        return Err(Refused {
            number: 14,
            place: 7,
        });
    }
    if tag == 2 && number >= cycles.number {
        return Err(Refused {
            number: 14,
            place: 9,
        });
    }
    let mut bytes = MARK.to_vec();
    bytes.extend([tag, E::SENDER]);
    bytes.extend(ack.to_be_bytes());
    bytes.extend(number.to_be_bytes());
    bytes.push(width);
    if let Frame::Laden { element, .. } = frame
        && !element.encode(&mut bytes)
    {
        return Err(Refused {
            number: 17,
            place: 0,
        });
    }
    Ok(seal(bytes))
}
