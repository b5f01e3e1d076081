//! Each status that a caller of this crate can bring about.

mod shared;

use mars::{Array, Error, Result, Shape, Status, MAIN};
use shared::fresh;
use std::collections::HashSet;

fn refused<T>(result: Result<T>, status: Status) {
    match result {
        Ok(_) => panic!("it was not refused, as {:?}", status),
        Err(error) => {
            assert_eq!(error.status(), Some(status), "{}", error);
            assert_eq!(error.to_string(), status.to_string());
        }
    }
}

#[test]
fn each_has_a_text() {
    let texts: HashSet<_> = Status::all().chain([Status::Unknown]).map(|status| status.to_string()).collect();
    assert_eq!(texts.len(), Status::all().count() + 1);
    assert!(texts.iter().all(|text| !text.is_empty()));
}

#[test]
fn of_calls() -> Result<()> {
    let array = fresh(Shape::default());
    array.make("log")?;
    let (mut work, other) = (array.begin(0)?, array.begin(1)?);
    work.put(MAIN, 1, b"a")?;
    refused(array.begin(0), Status::Already);
    refused(array.begin(8), Status::BadCaller);
    refused(other.get(MAIN, 1), Status::Busy);
    refused(work.get("other", 1), Status::NoTable);
    refused(work.get("Other", 1), Status::BadName);
    refused(work.put(MAIN, 1, b""), Status::BadValue);
    refused(work.rows("other", ..), Status::NoTable);
    refused(array.make("other"), Status::InUse);
    refused(array.purge(0), Status::Already);
    let saves: Vec<_> = (0..32).map(|_| work.save().unwrap()).collect();
    refused(work.save(), Status::SavesFull);
    work.back(saves[0])?;
    refused(work.back(saves[1]), Status::NoSave);
    work.abort();
    other.abort();
    refused(array.make("Other"), Status::BadName);
    refused(array.make("log"), Status::NameTaken);
    for name in ["a", "b", "c", "d", "e", "f"] {
        array.make(name)?;
    }
    refused(array.make("g"), Status::TablesFull);
    Ok(())
}

#[test]
fn of_long_bytes() -> Result<()> {
    let array = fresh(Shape::default());
    let mut work = array.begin(0)?;
    work.put(MAIN, 512, b"nonsense")?;
    refused(work.get_bytes(MAIN, 1), Status::Broken);
    refused(work.put_bytes(MAIN, 2, &[0; 16_385]), Status::TooLong);
    refused(work.put_bytes(MAIN, 1 << 55, b""), Status::BadKey);
    refused(work.get_bytes("other", 1), Status::NoTable);
    refused(work.delete_bytes("Other", 1), Status::BadName);
    Ok(())
}

#[test]
fn of_a_full_array() -> Result<()> {
    let array = fresh(Shape { callers: 1, entries: 8, pages: 4, ..Shape::default() });
    refused(array.make("other"), Status::PagesFull);
    let mut work = array.begin(0)?;
    refused((0..).try_for_each(|key| work.put(MAIN, key, b"a")), Status::LogFull);
    work.abort();
    let put_one = |key| {
        let mut work = array.begin(0)?;
        work.put(MAIN, key, b"a")?;
        work.commit().map(|_| ())
    };
    refused((0..).try_for_each(put_one), Status::SlotsFull);
    Ok(())
}

#[test]
fn of_an_opening() -> Result<()> {
    let opened = |change: fn(&mut Vec<u8>), callers| {
        let mut bytes = Shape::default().fresh().unwrap();
        change(&mut bytes);
        Array::open(bytes, callers)
    };
    refused(Shape { loggers: 9, ..Shape::default() }.fresh(), Status::BadShape);
    refused(opened(|_| (), 9), Status::BadCaller);
    refused(Array::open_late(Shape::default().fresh()?, 1, 65), Status::BadDepth);
    refused(opened(Vec::clear, 1), Status::NotMars);
    refused(opened(|bytes| bytes[0] ^= 1, 1), Status::NotMars);
    refused(opened(|bytes| bytes.truncate(bytes.len() - 1), 1), Status::BadShape);
    refused(opened(|bytes| bytes[512..517].copy_from_slice(&[0xc3, 1, 0, 0, 100]), 1), Status::BadRow);
    refused(opened(|bytes| bytes[512 + 16 * 8 + 528 * 8 * 64] ^= 1, 1), Status::Damaged);
    Ok(())
}

#[test]
fn of_a_transaction_after_a_failure() -> Result<()> {
    let array = Array::open(Dead(Shape::default().fresh()?), 1)?;
    let mut work = array.begin(0)?;
    work.put(MAIN, 1, b"a")?;
    assert!(matches!(work.commit(), Err(Error::Device(_))));
    assert!(matches!(array.sync(), Err(Error::Device(_))));
    let mut work = array.begin(0)?;
    refused(work.put(MAIN, 1, b"b"), Status::Media);
    refused(work.put(MAIN, 1, b"b"), Status::Dead);
    Ok(())
}

/// A device that takes no write.
struct Dead(Vec<u8>);

impl mars::Device for Dead {
    fn read(&mut self) -> std::io::Result<Vec<u8>> {
        self.0.read()
    }

    fn write(&mut self, _: u64, _: &[u8]) -> std::io::Result<()> {
        Err(std::io::ErrorKind::Other.into())
    }

    fn barrier(&mut self) -> std::io::Result<()> {
        Ok(())
    }
}
