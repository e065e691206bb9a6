//! The worked frames of docs/FRAMES.md, and what no random frame shows.

use crate::proved::{OrderFields, Proved, write_fields};
use crate::reader;
use crate::types::{Cycles, Frame, Order, Ozone, Reading, Refused, Wind};

const CYCLES: Cycles = Cycles {
    ack: 11,
    number: 17,
};

/// Example I: the hut's bare frame with acknowledgement 1.
const BARE: [u8; 14] = [0x4D, 0x48, 0x4C, 0, 1, 1, 2, 0, 1, 0, 0, 0, 0x62, 0xB6];

/// Example J: the hut's frame with the order "note 7", acknowledgement 1 and number 0.
const NOTE: [u8; 19] = [
    0x4D, 0x48, 0x4C, 0, 1, 2, 2, 0, 1, 0, 0, 5, 3, 0, 0, 0, 7, 0x58, 0xB0,
];

/// Both readers answer this, and both writers give the bytes back.
fn is_frame<E: Proved>(bytes: &[u8], frame: Frame<E>) {
    assert_eq!(E::read(CYCLES, bytes), Ok(frame));
    assert_eq!(reader::read(CYCLES, bytes), Ok(frame));
    let mut area = [0; 32];
    assert_eq!(E::write(CYCLES, &frame, &mut area), Ok(bytes.len()));
    assert_eq!(&area[..bytes.len()], bytes);
    assert_eq!(reader::write(CYCLES, &frame), Ok(bytes.to_vec()));
}

#[test]
fn bare_frame() {
    is_frame::<Order>(&BARE, Frame::Bare { ack: 1 });
}

#[test]
fn note_7() {
    is_frame(
        &NOTE,
        Frame::Laden {
            ack: 1,
            number: 0,
            element: Order::Note { number: 7 },
        },
    );
}

#[test]
fn example_of_rfc_1071() {
    assert_eq!(
        reader::check(&[0x00, 0x01, 0xF2, 0x03, 0xF4, 0xF5, 0xF6, 0xF7]),
        0x220D
    );
    assert_eq!(reader::check(&[0xFF, 0xFF]), 0);
}

/// An element of docs/ELEMENTS.md has the bytes that stand there, and a frame with it is read and written alike.
fn is_example<E: Proved>(element: E, bytes: &[u8]) {
    let mut written = Vec::new();
    assert!(element.encode(&mut written));
    assert_eq!(written, bytes);
    let frame = Frame::Laden {
        ack: 3,
        number: 5,
        element,
    };
    is_frame(&reader::write(CYCLES, &frame).unwrap(), frame);
}

#[test]
fn reading_of_the_example() {
    let reading = Reading {
        time: 4_212,
        height: 15_234,
        temperature: -425,
        humidity: 783,
        pressure: 8_431,
    };
    is_example(
        reading,
        &[
            0, 0, 0x10, 0x74, 0, 0, 0x3B, 0x82, 0xFE, 0x57, 0x03, 0x0F, 0x20, 0xEF,
        ],
    );
}

#[test]
fn ozone_of_the_example() {
    let ozone = Ozone {
        time: 4_212,
        partial_pressure: 1_234,
        cell_temperature: -425,
    };
    is_example(ozone, &[0, 0, 0x10, 0x74, 0x04, 0xD2, 0xFE, 0x57]);
}

#[test]
fn wind_of_the_example() {
    let wind = Wind {
        time: 4_212,
        direction: 27_150,
        speed: 83,
    };
    is_example(wind, &[0, 0, 0x10, 0x74, 0x6A, 0x0E, 0x00, 0x53]);
}

#[test]
fn tag_that_is_none_is_refused_after_the_numbers() {
    let mut area = [0xA5; 32];
    let order = OrderFields {
        tag: 9,
        value: 401_000,
        bearing: 0,
        elevation: 0,
    };
    assert_eq!(
        write_fields(CYCLES, 11, 0, order, &mut area),
        Err(Refused {
            number: 14,
            place: 7
        })
    );
    assert_eq!(
        write_fields(CYCLES, 10, 17, order, &mut area),
        Err(Refused {
            number: 14,
            place: 9
        })
    );
    for tag in [0, 4, 9, 255] {
        let order = OrderFields { tag, ..order };
        assert_eq!(
            write_fields(CYCLES, 10, 16, order, &mut area),
            Err(Refused {
                number: 17,
                place: 0
            })
        );
    }
    assert_eq!(area, [0xA5; 32]);
}

#[test]
fn area_that_is_too_short_stays_as_it_was() {
    let frame = Frame::Laden {
        ack: 1,
        number: 0,
        element: Order::Note { number: 7 },
    };
    for length in 0..19 {
        let mut area = vec![0xA5; length];
        assert_eq!(Proved::write(CYCLES, &frame, &mut area), Ok(19));
        assert_eq!(area, vec![0xA5; length]);
    }
}
