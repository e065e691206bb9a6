//! How long both readers take, in processor time, so that other work of the machine counts as little as may be. For Linux.

use crate::frames::{Case, Frames, Kind};
use crate::proved::Proved;
use crate::reader;
use crate::types::{Cycles, Frame, Order, Ozone, Reading, Refused, Wind};
use std::time::Duration;

/// How often each reader is timed.
pub const RUNS: usize = 5;

/// How many frames one reader reads before the other's turn, so that what else the machine does falls on both alike.
const TURN: usize = 1_000;

/// What is added up of an answer while the readers are timed, so that no part of it is left out.
trait Digest {
    fn digest(&self) -> u64;
}

impl Digest for Reading {
    fn digest(&self) -> u64 {
        u64::from(self.time)
            .wrapping_add(self.height as u64)
            .wrapping_add(self.temperature as u64)
            .wrapping_add(u64::from(self.humidity) << 16)
            .wrapping_add(u64::from(self.pressure))
    }
}

impl Digest for Ozone {
    fn digest(&self) -> u64 {
        u64::from(self.time)
            .wrapping_add(u64::from(self.partial_pressure) << 32)
            .wrapping_add(self.cell_temperature as u64)
    }
}

impl Digest for Wind {
    fn digest(&self) -> u64 {
        u64::from(self.time) + (u64::from(self.direction) << 32) + (u64::from(self.speed) << 48)
    }
}

impl Digest for Order {
    fn digest(&self) -> u64 {
        match *self {
            Order::Tune { khz } => u64::from(khz),
            Order::Point { bearing, elevation } => u64::from(bearing) << 16 | u64::from(elevation),
            Order::Note { number } => u64::from(number) << 2,
        }
    }
}

impl<E: Digest> Digest for Result<Frame<E>, Refused> {
    fn digest(&self) -> u64 {
        match self {
            Ok(Frame::Bare { ack }) => u64::from(*ack),
            Ok(Frame::Laden {
                ack,
                number,
                element,
            }) => (u64::from(*ack) + (u64::from(*number) << 16)).wrapping_add(element.digest()),
            Err(Refused { number, place }) => ((*number as u64) << 32) + *place as u64,
        }
    }
}

/// A time as the C library of 64-bit Linux lays it out.
#[repr(C)]
struct Timespec {
    seconds: i64,
    nanoseconds: i64,
}

unsafe extern "C" {
    fn clock_gettime(clock: i32, time: *mut Timespec) -> i32;
}

/// How long this thread has been running.
fn now() -> Duration {
    const CLOCK_THREAD_CPUTIME_ID: i32 = 3;
    let mut time = Timespec {
        seconds: 0,
        nanoseconds: 0,
    };
    // SAFETY: the clock is one that Linux has, and `time` is laid out as it writes it.
    let status = unsafe { clock_gettime(CLOCK_THREAD_CPUTIME_ID, &mut time) };
    assert_eq!(status, 0, "no clock of the thread");
    Duration::new(time.seconds as u64, time.nanoseconds as u32)
}

/// One of the two readers.
trait Reader {
    fn read<E: Proved>(cycles: Cycles, bytes: &[u8]) -> Result<Frame<E>, Refused>;
}

struct Library;

impl Reader for Library {
    #[inline]
    fn read<E: Proved>(cycles: Cycles, bytes: &[u8]) -> Result<Frame<E>, Refused> {
        E::read(cycles, bytes)
    }
}

struct Other;

impl Reader for Other {
    #[inline]
    fn read<E: Proved>(cycles: Cycles, bytes: &[u8]) -> Result<Frame<E>, Refused> {
        reader::read(cycles, bytes)
    }
}

/// How long one reader took in a run, and the sum of what it answered.
#[derive(Default)]
struct Clock {
    time: Duration,
    sum: u64,
}

impl Clock {
    /// Reads these frames.
    fn read<R: Reader>(&mut self, frames: &Frames, cases: &[Case]) {
        let start = now();
        for case in cases {
            let (cycles, bytes) = (case.cycles, frames.bytes_of(case));
            let digest = match case.kind {
                Kind::Reading => R::read::<Reading>(cycles, bytes).digest(),
                Kind::Ozone => R::read::<Ozone>(cycles, bytes).digest(),
                Kind::Wind => R::read::<Wind>(cycles, bytes).digest(),
                Kind::Order => R::read::<Order>(cycles, bytes).digest(),
            };
            self.sum = self.sum.rotate_left(1).wrapping_add(digest);
        }
        self.time += now() - start;
    }
}

/// Reads all these frames by both readers, in turns; who begins changes from turn to turn.
fn run(frames: &Frames) -> (Clock, Clock) {
    let (mut library, mut other) = (Clock::default(), Clock::default());
    for (turn, cases) in frames.cases.chunks(TURN).enumerate() {
        if turn % 2 == 0 {
            library.read::<Library>(frames, cases);
        }
        other.read::<Other>(frames, cases);
        if turn % 2 == 1 {
            library.read::<Library>(frames, cases);
        }
    }
    (library, other)
}

fn median(times: impl Iterator<Item = Duration>) -> Duration {
    let mut times: Vec<Duration> = times.collect();
    times.sort();
    times[times.len() / 2]
}

/// Times both readers and prints the medians. Answers whether their sums are the same.
pub fn print(frames: &Frames, what: &str) -> bool {
    let runs: Vec<(Clock, Clock)> = (0..RUNS).map(|_| run(frames)).collect();
    let library = median(runs.iter().map(|(library, _)| library.time));
    let other = median(runs.iter().map(|(_, other)| other.time));
    let count = frames.cases.len();
    let each = |time: Duration| time.as_secs_f64() * 1e9 / count as f64;
    println!("{count:>9}  {what}:");
    println!("{:>9.1}  ns a frame, by the library", each(library));
    println!("{:>9.1}  ns a frame, by the other", each(other));
    println!("{:>9.2}  ratio", each(library) / each(other));
    runs.iter().all(|(library, other)| library.sum == other.sum)
}
