//! Records and transactions.

mod shared;

use mars::{Array, Device, Shape, MAIN};
use shared::fresh;

fn keys<D: Device>(array: &Array<D>, table: &str) -> Vec<u64> {
    array.begin(0).unwrap().rows(table, ..).unwrap().iter().map(|row| row.0).collect()
}

#[test]
fn a_transaction_is_there_once_it_is_committed() -> mars::Result<()> {
    let array = fresh(Shape::default());
    let mut work = array.begin(0)?;
    work.put(MAIN, 5, b"abc")?;
    work.put(MAIN, 6, b"x")?;
    assert!(work.delete(MAIN, 6)?);
    assert!(!work.delete(MAIN, 6)?);
    assert!(work.get(MAIN, 6)?.is_none());
    assert_eq!(work.commit()?, 1);
    assert_eq!(array.moment(), array.done_up_to());

    let mut work = array.begin(0)?;
    assert_eq!(work.get(MAIN, 5)?.unwrap(), b"abc");
    work.put(MAIN, 7, b"dropped")?;
    drop(work);
    array.begin(0)?.abort();
    assert_eq!(keys(&array, MAIN), [5]);
    Ok(())
}

#[test]
fn it_is_durable_once_it_is_synced() -> mars::Result<()> {
    let array = fresh(Shape::default());
    let mut work = array.begin(0)?;
    work.put(MAIN, 5, b"abc")?;
    work.commit_unsynced()?;
    assert!(array.done_up_to() < array.moment());
    array.sync()?;
    assert_eq!(array.done_up_to(), array.moment());
    assert_eq!(keys(&Array::open(array.into_device(), 8)?, MAIN), [5]);
    Ok(())
}

#[test]
fn rows_of_a_range() -> mars::Result<()> {
    let array = fresh(Shape::default());
    let mut work = array.begin(0)?;
    for key in [0, 3, 9, u64::MAX] {
        work.put(MAIN, key, key.to_string().as_bytes())?;
    }
    let found = |from, to| work.rows(MAIN, (from, to)).unwrap().iter().map(|row| row.0).collect::<Vec<_>>();
    use std::ops::Bound::*;
    assert_eq!(found(Unbounded, Unbounded), [0, 3, 9, u64::MAX]);
    assert_eq!(found(Excluded(0), Included(9)), [3, 9]);
    assert_eq!(found(Included(4), Excluded(9)), []);
    assert_eq!(found(Included(9), Excluded(u64::MAX)), [9]);
    assert_eq!(found(Excluded(u64::MAX), Unbounded), []);
    assert_eq!(found(Unbounded, Excluded(0)), []);
    assert!(work.rows(MAIN, ..)?.iter().all(|(key, value)| *value == key.to_string().as_bytes()));
    Ok(())
}

#[test]
fn a_cursor_reads_row_by_row() -> mars::Result<()> {
    let array = fresh(Shape::default());
    let mut work = array.begin(0)?;
    for key in [0, 3, 9, 70, 71, u64::MAX] {
        work.put(MAIN, key, key.to_string().as_bytes())?;
    }
    let found = |low, high| work.cursor(MAIN, low..high).map(|row| row.unwrap().0).collect::<Vec<_>>();
    assert_eq!(found(0, u64::MAX), [0, 3, 9, 70, 71]);
    assert_eq!(found(4, 71), [9, 70]);
    assert_eq!(found(4, 9), []);
    assert_eq!(found(6, 6), []);
    assert_eq!(work.cursor(MAIN, ..).count(), 6);
    assert!(work.cursor(MAIN, ..).all(|row| row.map_or(false, |(key, value)| value == key.to_string().as_bytes())));
    assert_eq!(work.first(MAIN, 72..)?.map(|row| row.0), Some(u64::MAX));
    assert!(work.first(MAIN, 72..=1000)?.is_none());
    let refused: Vec<_> = work.cursor("other", ..).map(|row| row.unwrap_err().status()).collect();
    assert_eq!(refused, [Some(mars::Status::NoTable)]);
    Ok(())
}

#[test]
fn saves() -> mars::Result<()> {
    let array = fresh(Shape::default());
    let mut work = array.begin(0)?;
    work.put(MAIN, 1, b"a")?;
    let save = work.save()?;
    work.put(MAIN, 1, b"b")?;
    work.back(save)?;
    assert_eq!(work.get(MAIN, 1)?.unwrap(), b"a");
    Ok(())
}

#[test]
fn tables_and_a_purge() -> mars::Result<()> {
    let array = fresh(Shape::default());
    assert_eq!(array.make("log")?, 1);
    assert_eq!(array.tables()?, [MAIN, "log"]);
    let mut work = array.begin(0)?;
    work.put("log", 1, b"a")?;
    work.commit()?;
    assert_eq!((keys(&array, MAIN), keys(&array, "log")), (vec![], vec![1]));
    let mut work = array.begin(0)?;
    work.delete("log", 1)?;
    work.commit()?;
    assert_eq!((array.purge(0)?, array.purge(0)?), (1, 0));
    Ok(())
}

#[test]
fn a_group_is_committed_at_once() -> mars::Result<()> {
    let array = fresh(Shape::default());
    let (mut first, mut second, mut third) = (array.begin(0)?, array.begin(1)?, array.begin(2)?);
    first.put(MAIN, 1, b"a")?;
    second.put(MAIN, 2, b"b")?;
    third.put(MAIN, 3, b"c")?;
    let (first, second, third) = (first.offer()?, second.offer()?, third.offer()?);
    assert_eq!(second.settle()?, 2);
    assert_eq!(first.settle()?, 1);
    drop(third);
    assert_eq!(keys(&array, MAIN), [1, 2, 3]);
    Ok(())
}

#[test]
fn values_of_all_bytes_that_may_be() -> mars::Result<()> {
    let array = fresh(Shape { entries: 64, ..Shape::default() });
    let mut work = array.begin(0)?;
    for byte in 0..=255 {
        assert_eq!(work.put(MAIN, 1, &[byte; 54]).is_ok(), (b'!'..=b'~').contains(&byte));
        if let Some(value) = work.get(MAIN, 1)? {
            assert_eq!(value, [byte.clamp(b'!', b'~'); 54]);
        }
    }
    Ok(())
}

#[test]
fn bytes_of_all_lengths_and_values() -> mars::Result<()> {
    let array = fresh(Shape { loggers: 8, pages: 128, ..Shape::default() });
    for size in [0, 1, 39, 40, 41, 256, 1000, 16_384] {
        let bytes: Vec<u8> = (0..size).map(|at| (at * 167 + size) as u8).collect();
        let mut work = array.begin(0)?;
        work.put_bytes(MAIN, 7, &bytes)?;
        work.commit()?;
        let work = array.begin(0)?;
        assert_eq!(work.get_bytes(MAIN, 7)?.unwrap(), bytes);
        assert_eq!(work.bytes_length(MAIN, 7)?, Some(size as u64));
    }
    let mut work = array.begin(0)?;
    assert!(work.delete_bytes(MAIN, 7)?);
    assert!(!work.delete_bytes(MAIN, 7)?);
    assert!(work.get_bytes(MAIN, 7)?.is_none());
    Ok(())
}

#[test]
fn an_array_goes_to_another_thread() {
    let array = fresh(Shape::default());
    let moment = std::thread::spawn(move || shared::put_all(&array, 1).map(|_| array.moment())).join().unwrap().unwrap();
    assert!(moment > 0);
}
