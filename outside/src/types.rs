//! What a frame says, as both readers answer it.

/// The cycles of a frame's two numbers. The numbers of a cycle are those below it.
#[derive(Clone, Copy, PartialEq, Eq, Debug)]
pub struct Cycles {
    pub ack: u16,
    pub number: u16,
}

/// Why bytes or values were refused: the refusal's number, and the byte at fault, or 0 where there is none.
#[derive(Clone, Copy, PartialEq, Eq, Debug)]
pub struct Refused {
    pub number: usize,
    pub place: usize,
}

/// A frame with an element, or without one.
#[derive(Clone, Copy, PartialEq, Eq, Debug)]
pub enum Frame<E> {
    Bare { ack: u16 },
    Laden { ack: u16, number: u16, element: E },
}

/// A reading, in the units of docs/ELEMENTS.md. Its fields are laid out as C lays them out, since it crosses to the library.
#[repr(C)]
#[derive(Clone, Copy, PartialEq, Eq, Default, Debug)]
pub struct Reading {
    pub time: u32,
    pub height: i32,
    pub temperature: i16,
    pub humidity: u16,
    pub pressure: u16,
}

/// What the ozone cell told, in the units of docs/ELEMENTS.md. It crosses to the library as a reading does.
#[repr(C)]
#[derive(Clone, Copy, PartialEq, Eq, Default, Debug)]
pub struct Ozone {
    pub time: u32,
    pub partial_pressure: u16,
    pub cell_temperature: i16,
}

/// A wind, in the units of docs/ELEMENTS.md. It crosses to the library as a reading does.
#[repr(C)]
#[derive(Clone, Copy, PartialEq, Eq, Default, Debug)]
pub struct Wind {
    pub time: u32,
    pub direction: u16,
    pub speed: u16,
}

/// An order, in the units of docs/ELEMENTS.md.
#[derive(Clone, Copy, PartialEq, Eq, Debug)]
pub enum Order {
    Tune { khz: u32 },
    Point { bearing: u16, elevation: u16 },
    Note { number: u32 },
}

/// What a stream carries.
pub trait Element: Copy + PartialEq + std::fmt::Debug {
    /// How many bytes it has in a frame.
    const WIDTH: usize;

    /// The byte that names the side that sends it.
    const SENDER: u8;

    /// The element in WIDTH bytes, or the offset of the first field at fault.
    fn decode(bytes: &[u8]) -> Result<Self, usize>;

    /// Appends its bytes, if all fields are in range.
    fn encode(&self, out: &mut Vec<u8>) -> bool;
}

impl Reading {
    /// The offset of the first field out of range.
    #[inline]
    pub fn fault(&self) -> Option<usize> {
        if !(-5_000..=500_000).contains(&self.height) {
            Some(4)
        } else if !(-12_000..=6_000).contains(&self.temperature) {
            Some(8)
        } else if self.humidity > 1_000 {
            Some(10)
        } else if self.pressure > 11_000 {
            Some(12)
        } else {
            None
        }
    }
}

impl Element for Reading {
    const WIDTH: usize = 14;
    const SENDER: u8 = 1;

    #[inline(always)]
    fn decode(bytes: &[u8]) -> Result<Reading, usize> {
        let (&time, rest) = bytes.split_first_chunk().ok_or(0_usize)?;
        let (&height, rest) = rest.split_first_chunk().ok_or(0_usize)?;
        let (&temperature, rest) = rest.split_first_chunk().ok_or(0_usize)?;
        let (&humidity, rest) = rest.split_first_chunk().ok_or(0_usize)?;
        let &pressure = rest.first_chunk().ok_or(0_usize)?;
        let reading = Reading {
            time: u32::from_be_bytes(time),
            height: i32::from_be_bytes(height),
            temperature: i16::from_be_bytes(temperature),
            humidity: u16::from_be_bytes(humidity),
            pressure: u16::from_be_bytes(pressure),
        };
        reading.fault().map_or(Ok(reading), Err)
    }

    fn encode(&self, out: &mut Vec<u8>) -> bool {
        out.extend(self.time.to_be_bytes());
        out.extend(self.height.to_be_bytes());
        out.extend(self.temperature.to_be_bytes());
        out.extend(self.humidity.to_be_bytes());
        out.extend(self.pressure.to_be_bytes());
        self.fault().is_none()
    }
}

/// The time of eight bytes, and the two numbers behind it, which share a word with it.
#[inline(always)]
fn time_and_two(bytes: &[u8]) -> Result<(u32, u16, u16), usize> {
    let word = u64::from_be_bytes(bytes.try_into().map_err(|_| 0_usize)?);
    Ok(((word >> 32) as u32, (word >> 16) as u16, word as u16))
}

impl Ozone {
    /// The offset of the first field out of range.
    #[inline]
    pub fn fault(&self) -> Option<usize> {
        if self.partial_pressure > 5_000 {
            Some(4)
        } else if self.cell_temperature.unsigned_abs() > 5_000 {
            Some(6)
        } else {
            None
        }
    }
}

impl Element for Ozone {
    const WIDTH: usize = 8;
    const SENDER: u8 = 1;

    #[inline(always)]
    fn decode(bytes: &[u8]) -> Result<Ozone, usize> {
        let (time, partial_pressure, cell_temperature) = time_and_two(bytes)?;
        let ozone = Ozone {
            time,
            partial_pressure,
            cell_temperature: cell_temperature as i16,
        };
        ozone.fault().map_or(Ok(ozone), Err)
    }

    fn encode(&self, out: &mut Vec<u8>) -> bool {
        out.extend(self.time.to_be_bytes());
        out.extend(self.partial_pressure.to_be_bytes());
        out.extend(self.cell_temperature.to_be_bytes());
        self.fault().is_none()
    }
}

impl Wind {
    /// The offset of the first field out of range.
    #[inline]
    pub fn fault(&self) -> Option<usize> {
        if self.direction >= 36_000 {
            Some(4)
        } else if self.speed > 2_000 {
            Some(6)
        } else {
            None
        }
    }
}

impl Element for Wind {
    const WIDTH: usize = 8;
    const SENDER: u8 = 1;

    #[inline(always)]
    fn decode(bytes: &[u8]) -> Result<Wind, usize> {
        let (time, direction, speed) = time_and_two(bytes)?;
        let wind = Wind {
            time,
            direction,
            speed,
        };
        wind.fault().map_or(Ok(wind), Err)
    }

    fn encode(&self, out: &mut Vec<u8>) -> bool {
        out.extend(self.time.to_be_bytes());
        out.extend(self.direction.to_be_bytes());
        out.extend(self.speed.to_be_bytes());
        self.fault().is_none()
    }
}

impl Element for Order {
    const WIDTH: usize = 5;
    const SENDER: u8 = 2;

    #[inline(always)]
    fn decode(bytes: &[u8]) -> Result<Order, usize> {
        let &[tag, a, b, c, d] = bytes else {
            return Err(0);
        };
        let word = u32::from_be_bytes([a, b, c, d]);
        let (bearing, elevation) = ((word >> 16) as u16, word as u16);
        match tag {
            1 if !(400_150..=406_000).contains(&word) => Err(1),
            1 => Ok(Order::Tune { khz: word }),
            2 if bearing >= 36_000 => Err(1),
            2 if elevation > 9_000 => Err(3),
            2 => Ok(Order::Point { bearing, elevation }),
            3 => Ok(Order::Note { number: word }),
            _ => Err(0),
        }
    }

    fn encode(&self, out: &mut Vec<u8>) -> bool {
        let (tag, word, in_range) = match *self {
            Order::Tune { khz } => (1, khz, (400_150..=406_000).contains(&khz)),
            Order::Point { bearing, elevation } => (
                2,
                u32::from(bearing) << 16 | u32::from(elevation),
                bearing < 36_000 && elevation <= 9_000,
            ),
            Order::Note { number } => (3, number, true),
        };
        out.push(tag);
        out.extend(word.to_be_bytes());
        in_range
    }
}
