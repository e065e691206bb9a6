//! The library's functions, as safe Rust. Nothing compares the declarations with `crates/cerduma/src`: they are kept the same by hand.

use crate::types::{Cycles, Element, Frame, Order, Ozone, Reading, Refused, Wind};

/// What a call answers.
#[repr(C)]
pub struct Answer {
    refusal: usize,
    place: usize,
    length: usize,
}

/// A frame in plain fields, with those of its element. The library has a struct of its own for the frames of each kind; they are all
/// laid out so.
#[repr(C)]
#[derive(Default)]
pub struct PlainFrame<T> {
    laden: bool,
    ack: u16,
    number: u16,
    element: T,
}

impl<T: Default> PlainFrame<T> {
    /// A frame in plain fields; those of a bare one's element are 0.
    #[inline]
    fn of<E: Into<T>>(frame: Frame<E>) -> PlainFrame<T> {
        match frame {
            Frame::Bare { ack } => PlainFrame {
                ack,
                ..Default::default()
            },
            Frame::Laden {
                ack,
                number,
                element,
            } => PlainFrame {
                laden: true,
                ack,
                number,
                element: element.into(),
            },
        }
    }

    /// The frame that the fields tell.
    #[inline]
    fn frame<E>(self) -> Frame<E>
    where
        T: Into<E>,
    {
        let ack = self.ack;
        match self.laden {
            true => Frame::Laden {
                ack,
                number: self.number,
                element: self.element.into(),
            },
            false => Frame::Bare { ack },
        }
    }
}

/// The fields of an order, by its tag. Those that it does not name are 0 where it was read.
#[repr(C)]
#[derive(Clone, Copy, PartialEq, Eq, Default, Debug)]
pub struct OrderFields {
    pub tag: u8,
    pub value: u32,
    pub bearing: u16,
    pub elevation: u16,
}

/// A function that reads a frame: by the two cycles, from some bytes and their length, into a frame.
type Read<T> = unsafe extern "C" fn(u16, u16, *const u8, usize, *mut PlainFrame<T>) -> Answer;

/// A function that writes one: by the two cycles, a frame into an area and its length.
type Write<T> = unsafe extern "C" fn(u16, u16, *const PlainFrame<T>, *mut u8, usize) -> Answer;

unsafe extern "C" {
    fn cerduma_read_reading(
        ack_cycle: u16,
        number_cycle: u16,
        bytes: *const u8,
        length: usize,
        frame: *mut PlainFrame<Reading>,
    ) -> Answer;
    fn cerduma_write_reading(
        ack_cycle: u16,
        number_cycle: u16,
        frame: *const PlainFrame<Reading>,
        area: *mut u8,
        length: usize,
    ) -> Answer;
    fn cerduma_read_ozone(
        ack_cycle: u16,
        number_cycle: u16,
        bytes: *const u8,
        length: usize,
        frame: *mut PlainFrame<Ozone>,
    ) -> Answer;
    fn cerduma_write_ozone(
        ack_cycle: u16,
        number_cycle: u16,
        frame: *const PlainFrame<Ozone>,
        area: *mut u8,
        length: usize,
    ) -> Answer;
    fn cerduma_read_wind(
        ack_cycle: u16,
        number_cycle: u16,
        bytes: *const u8,
        length: usize,
        frame: *mut PlainFrame<Wind>,
    ) -> Answer;
    fn cerduma_write_wind(
        ack_cycle: u16,
        number_cycle: u16,
        frame: *const PlainFrame<Wind>,
        area: *mut u8,
        length: usize,
    ) -> Answer;
    fn cerduma_read_order(
        ack_cycle: u16,
        number_cycle: u16,
        bytes: *const u8,
        length: usize,
        frame: *mut PlainFrame<OrderFields>,
    ) -> Answer;
    fn cerduma_write_order(
        ack_cycle: u16,
        number_cycle: u16,
        frame: *const PlainFrame<OrderFields>,
        area: *mut u8,
        length: usize,
    ) -> Answer;
}

impl Answer {
    /// How many bytes the frame has, or why the call refused.
    #[inline]
    fn length(self) -> Result<usize, Refused> {
        match self.refusal {
            0 => Ok(self.length),
            number => Err(Refused {
                number,
                place: self.place,
            }),
        }
    }
}

impl From<Order> for OrderFields {
    fn from(order: Order) -> OrderFields {
        match order {
            Order::Tune { khz } => OrderFields {
                tag: 1,
                value: khz,
                ..Default::default()
            },
            Order::Point { bearing, elevation } => OrderFields {
                tag: 2,
                bearing,
                elevation,
                ..Default::default()
            },
            Order::Note { number } => OrderFields {
                tag: 3,
                value: number,
                ..Default::default()
            },
        }
    }
}

/// The order that fields tell which the library has read: its tag is 1, 2 or 3.
impl From<OrderFields> for Order {
    #[inline]
    fn from(fields: OrderFields) -> Order {
        match fields.tag {
            1 => Order::Tune { khz: fields.value },
            2 => Order::Point {
                bearing: fields.bearing,
                elevation: fields.elevation,
            },
            _ => Order::Note {
                number: fields.value,
            },
        }
    }
}

/// An element that the library reads and writes.
pub trait Proved: Element {
    /// Its fields, as they cross.
    type Fields: Default + From<Self> + Into<Self>;

    /// The library's functions, whose declarations fit them.
    const READ: Read<Self::Fields>;
    const WRITE: Write<Self::Fields>;

    /// The frame in some bytes, or why they are none.
    #[inline]
    fn read(cycles: Cycles, bytes: &[u8]) -> Result<Frame<Self>, Refused> {
        let mut frame = PlainFrame::default();
        // SAFETY: the declaration fits the function, the pointer and the length are those of one slice, and `frame` is its own.
        let answer = unsafe {
            Self::READ(
                cycles.ack,
                cycles.number,
                bytes.as_ptr(),
                bytes.len(),
                &mut frame,
            )
        };
        answer.length()?;
        Ok(frame.frame())
    }

    /// Writes a frame in plain fields into the front of an area, if it has room for it, and answers how many bytes the frame has.
    fn write_plain(
        cycles: Cycles,
        frame: &PlainFrame<Self::Fields>,
        area: &mut [u8],
    ) -> Result<usize, Refused> {
        // SAFETY: the declaration fits the function, and the pointer and the length are those of one slice, which is lent for writing.
        let answer = unsafe {
            Self::WRITE(
                cycles.ack,
                cycles.number,
                frame,
                area.as_mut_ptr(),
                area.len(),
            )
        };
        answer.length()
    }

    /// Writes a frame so.
    fn write(cycles: Cycles, frame: &Frame<Self>, area: &mut [u8]) -> Result<usize, Refused> {
        Self::write_plain(cycles, &PlainFrame::of(*frame), area)
    }
}

impl Proved for Reading {
    type Fields = Reading;
    const READ: Read<Reading> = cerduma_read_reading;
    const WRITE: Write<Reading> = cerduma_write_reading;
}

impl Proved for Ozone {
    type Fields = Ozone;
    const READ: Read<Ozone> = cerduma_read_ozone;
    const WRITE: Write<Ozone> = cerduma_write_ozone;
}

impl Proved for Wind {
    type Fields = Wind;
    const READ: Read<Wind> = cerduma_read_wind;
    const WRITE: Write<Wind> = cerduma_write_wind;
}

impl Proved for Order {
    type Fields = OrderFields;
    const READ: Read<OrderFields> = cerduma_read_order;
    const WRITE: Write<OrderFields> = cerduma_write_order;
}

/// Writes a laden frame with an order by its fields, of which the tag may be none.
#[cfg(test)]
pub fn write_fields(
    cycles: Cycles,
    ack: u16,
    number: u16,
    order: OrderFields,
    area: &mut [u8],
) -> Result<usize, Refused> {
    let frame = PlainFrame {
        laden: true,
        ack,
        number,
        element: order,
    };
    Order::write_plain(cycles, &frame, area)
}
