//! Arrays in files.

mod shared;

use mars::{Array, Error, Shape};
use shared::{commits_in, put_all, Room};
use std::io::ErrorKind;

fn kind<T>(result: mars::Result<T>) -> Option<ErrorKind> {
    match result {
        Err(Error::Device(error)) => Some(error.kind()),
        _ => None,
    }
}

#[test]
fn a_file_has_one_program() -> mars::Result<()> {
    let room = Room::new("lock");
    let image = room.image();
    assert_eq!(kind(Array::open_file(&image, 1)), Some(ErrorKind::NotFound));
    Shape::default().make(&image)?;
    assert_eq!(kind(Shape::default().make(&image)), Some(ErrorKind::AlreadyExists));
    let array = Array::open_file(&image, 1)?;
    assert_eq!(kind(Array::open_file(&image, 1)), Some(ErrorKind::WouldBlock));
    put_all(&array, 1)?;
    drop(array);
    assert_eq!(commits_in(&Array::open_file(&image, 1)?), 1);
    Ok(())
}
