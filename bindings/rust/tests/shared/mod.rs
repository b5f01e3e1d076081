//! What the tests share.
#![allow(dead_code)]

use mars::{Array, Device, Result, Shape, Transaction, MAIN};
use std::path::PathBuf;
use std::{env, fs, process};

pub const KEYS: [u64; 3] = [1, 2, 3];

pub fn fresh(shape: Shape) -> Array<Vec<u8>> {
    Array::open(shape.fresh().unwrap(), shape.callers).unwrap()
}

/// Puts a number under each key, and commits.
pub fn put_all<D: Device>(array: &Array<D>, number: u64) -> Result<u64> {
    let mut work = array.begin(0)?;
    for key in KEYS {
        work.put(MAIN, key, number.to_string().as_bytes())?;
    }
    work.commit()
}

fn number_at<D: Device>(work: &Transaction<'_, D>, key: u64) -> u64 {
    let value = work.get(MAIN, key).unwrap();
    value.map_or(0, |value| std::str::from_utf8(&value).unwrap().parse().unwrap())
}

/// How many commits an array has, each of which put its number under each key.
pub fn commits_in<D: Device>(array: &Array<D>) -> u64 {
    let work = array.begin(0).unwrap();
    let found = KEYS.map(|key| number_at(&work, key));
    assert_eq!(found, [found[0]; KEYS.len()]);
    found[0]
}

/// A folder that goes with its value.
pub struct Room(PathBuf);

impl Room {
    pub fn new(name: &str) -> Room {
        let room = Room(env::temp_dir().join(format!("mars-{}-{}", name, process::id())));
        fs::create_dir(&room.0).unwrap();
        room
    }

    pub fn image(&self) -> PathBuf {
        self.0.join("image")
    }
}

impl Drop for Room {
    fn drop(&mut self) {
        let _ = fs::remove_dir_all(&self.0);
    }
}
