//! What frames are drawn from: a generator with a fixed start, and elements within their ranges and outside them.

use crate::frames::Kind;
use crate::types::{Cycles, Element, Order, Ozone, Reading, Wind};

/// The generator splitmix64.
pub struct Draws(pub u64);

impl Draws {
    pub fn next(&mut self) -> u64 {
        self.0 = self.0.wrapping_add(0x9E37_79B9_7F4A_7C15);
        let z = (self.0 ^ (self.0 >> 30)).wrapping_mul(0xBF58_476D_1CE4_E5B9);
        let z = (z ^ (z >> 27)).wrapping_mul(0x94D0_49BB_1331_11EB);
        z ^ (z >> 31)
    }

    /// A number from low to high, both among them; one in eight is an end.
    pub fn within(&mut self, low: i64, high: i64) -> i64 {
        match self.next() % 16 {
            0 => low,
            1 => high,
            _ => low + (self.next() % (high - low + 1) as u64) as i64,
        }
    }

    /// A number outside low to high, but within least to most: one of the two next to the range, or any other.
    pub fn outside(&mut self, low: i64, high: i64, least: i64, most: i64) -> i64 {
        let below = low > least && (high == most || self.next().is_multiple_of(2));
        let (from, to) = if below {
            (least, low - 1)
        } else {
            (high + 1, most)
        };
        match self.next() % 4 {
            0 if below => to,
            0 => from,
            _ => self.within(from, to),
        }
    }

    pub fn one_in(&mut self, n: u64) -> bool {
        self.next().is_multiple_of(n)
    }

    /// Cycles from 1 to 65,535, most within what a draft allows.
    pub fn cycles(&mut self) -> Cycles {
        let mut cycle = || match self.next() % 4 {
            0 => self.within(1, 5),
            1 => self.within(1, 65_535),
            _ => self.within(3, 16_384),
        } as u16;
        Cycles {
            ack: cycle(),
            number: cycle(),
        }
    }
}

/// An element that can be drawn.
pub trait Drawn: Element {
    const KIND: Kind;

    /// One with all fields in range.
    fn drawn(draws: &mut Draws) -> Self;

    /// One with a field or two out of range.
    fn out_of_range(draws: &mut Draws) -> Self;
}

impl Drawn for Reading {
    const KIND: Kind = Kind::Reading;

    fn drawn(draws: &mut Draws) -> Reading {
        Reading {
            time: draws.within(0, u32::MAX.into()) as u32,
            height: draws.within(-5_000, 500_000) as i32,
            temperature: draws.within(-12_000, 6_000) as i16,
            humidity: draws.within(0, 1_000) as u16,
            pressure: draws.within(0, 11_000) as u16,
        }
    }

    fn out_of_range(draws: &mut Draws) -> Reading {
        let mut reading = Reading::drawn(draws);
        for _ in 0..draws.within(1, 2) {
            match draws.next() % 4 {
                0 => {
                    reading.height =
                        draws.outside(-5_000, 500_000, i32::MIN.into(), i32::MAX.into()) as i32
                }
                1 => {
                    reading.temperature =
                        draws.outside(-12_000, 6_000, i16::MIN.into(), i16::MAX.into()) as i16
                }
                2 => reading.humidity = draws.outside(0, 1_000, 0, u16::MAX.into()) as u16,
                _ => reading.pressure = draws.outside(0, 11_000, 0, u16::MAX.into()) as u16,
            }
        }
        reading
    }
}

impl Drawn for Ozone {
    const KIND: Kind = Kind::Ozone;

    fn drawn(draws: &mut Draws) -> Ozone {
        Ozone {
            time: draws.within(0, u32::MAX.into()) as u32,
            partial_pressure: draws.within(0, 5_000) as u16,
            cell_temperature: draws.within(-5_000, 5_000) as i16,
        }
    }

    fn out_of_range(draws: &mut Draws) -> Ozone {
        let mut ozone = Ozone::drawn(draws);
        for _ in 0..draws.within(1, 2) {
            match draws.next() % 2 {
                0 => ozone.partial_pressure = draws.outside(0, 5_000, 0, u16::MAX.into()) as u16,
                _ => {
                    ozone.cell_temperature =
                        draws.outside(-5_000, 5_000, i16::MIN.into(), i16::MAX.into()) as i16
                }
            }
        }
        ozone
    }
}

impl Drawn for Wind {
    const KIND: Kind = Kind::Wind;

    fn drawn(draws: &mut Draws) -> Wind {
        Wind {
            time: draws.within(0, u32::MAX.into()) as u32,
            direction: draws.within(0, 35_999) as u16,
            speed: draws.within(0, 2_000) as u16,
        }
    }

    fn out_of_range(draws: &mut Draws) -> Wind {
        let mut wind = Wind::drawn(draws);
        for _ in 0..draws.within(1, 2) {
            match draws.next() % 2 {
                0 => wind.direction = draws.outside(0, 35_999, 0, u16::MAX.into()) as u16,
                _ => wind.speed = draws.outside(0, 2_000, 0, u16::MAX.into()) as u16,
            }
        }
        wind
    }
}

impl Drawn for Order {
    const KIND: Kind = Kind::Order;

    fn drawn(draws: &mut Draws) -> Order {
        match draws.next() % 3 {
            0 => Order::Tune {
                khz: draws.within(400_150, 406_000) as u32,
            },
            1 => Order::Point {
                bearing: draws.within(0, 35_999) as u16,
                elevation: draws.within(0, 9_000) as u16,
            },
            _ => Order::Note {
                number: draws.within(0, u32::MAX.into()) as u32,
            },
        }
    }

    fn out_of_range(draws: &mut Draws) -> Order {
        let bearing = draws.outside(0, 35_999, 0, u16::MAX.into()) as u16;
        let elevation = draws.outside(0, 9_000, 0, u16::MAX.into()) as u16;
        match draws.next() % 4 {
            0 => Order::Tune {
                khz: draws.outside(400_150, 406_000, 0, u32::MAX.into()) as u32,
            },
            1 => Order::Point {
                bearing,
                elevation: draws.within(0, 9_000) as u16,
            },
            2 => Order::Point {
                bearing: draws.within(0, 35_999) as u16,
                elevation,
            },
            _ => Order::Point { bearing, elevation },
        }
    }
}
