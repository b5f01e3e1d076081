//! A device that fails or loses power at each piece, with that piece as it was, or torn.

mod shared;

use mars::{Array, Device, Error, Shape};
use shared::{commits_in, put_all};
use std::io;

const COMMITS: u64 = 4;

/// It stops at its piece `last`, from 0 on.
struct Breaking {
    bytes: Vec<u8>,
    last: usize,
    pieces: usize,
    seed: Option<u64>,
}

impl Breaking {
    fn is_over(&mut self) -> bool {
        self.pieces += 1;
        self.pieces - 1 == self.last
    }

    fn draw(&mut self) -> Option<u64> {
        self.seed = self.seed.map(|seed| seed.wrapping_mul(6_364_136_223_846_793_005).wrapping_add(1));
        self.seed.map(|seed| seed >> 33)
    }
}

impl Device for Breaking {
    fn read(&mut self) -> io::Result<Vec<u8>> {
        self.bytes.read()
    }

    fn write(&mut self, at: u64, bytes: &[u8]) -> io::Result<()> {
        if !self.is_over() {
            return self.bytes.write(at, bytes);
        }
        for (place, byte) in (at as usize..).zip(bytes) {
            match self.draw().map(|drawn| (drawn % 3, drawn as u8)) {
                Some((0, drawn)) => self.bytes[place] = drawn,
                Some((1, _)) => self.bytes[place] = *byte,
                _ => (),
            }
        }
        Err(io::ErrorKind::WriteZero.into())
    }

    fn barrier(&mut self) -> io::Result<()> {
        if self.is_over() {
            return Err(io::ErrorKind::TimedOut.into());
        }
        Ok(())
    }
}

/// Commits until the device stops; whether it does. What it holds then has all commits that were told, whole, and at most one more.
fn stops_at(last: usize, seed: Option<u64>) -> bool {
    let bytes = Shape { callers: 2, entries: 8, pages: 8, ..Shape::default() }.fresh().unwrap();
    let array = Array::open(Breaking { bytes, last, pieces: 0, seed }, 1).unwrap();
    let told = (1..=COMMITS).take_while(|number| put_all(&array, *number).is_ok()).count() as u64;
    if told < COMMITS {
        assert!(matches!(array.sync(), Err(Error::Device(_))));
        assert!(put_all(&array, told + 2).is_err());
    }
    let found = commits_in(&Array::open(array.into_device().bytes, 1).unwrap());
    assert!(found == told || found == told + 1, "piece {}: {} were told, and there are {}", last, told, found);
    told < COMMITS
}

#[test]
fn all_that_was_told_is_there() {
    for seed in [None, Some(7), Some(8)] {
        // The first piece is the barrier of the opening.
        assert!((1..).take_while(|last| stops_at(*last, seed)).count() > 8);
    }
}

#[test]
fn a_device_that_fails_at_the_opening_is_not_opened() {
    let bytes = Shape::default().fresh().unwrap();
    let opened = Array::open(Breaking { bytes, last: 0, pieces: 0, seed: None }, 1);
    assert!(matches!(opened, Err(Error::Device(_))));
}

#[test]
fn a_device_that_panics_has_failed() {
    struct Panics(Vec<u8>);
    impl Device for Panics {
        fn read(&mut self) -> io::Result<Vec<u8>> {
            self.0.read()
        }
        fn write(&mut self, _: u64, _: &[u8]) -> io::Result<()> {
            panic!("as it should")
        }
        fn barrier(&mut self) -> io::Result<()> {
            Ok(())
        }
    }
    let array = Array::open(Panics(Shape::default().fresh().unwrap()), 1).unwrap();
    assert!(std::panic::catch_unwind(std::panic::AssertUnwindSafe(|| put_all(&array, 1))).is_err());
    assert!(matches!(array.sync(), Err(Error::Device(_))));
}
