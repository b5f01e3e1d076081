//! MARS from Rust: records under 64-bit keys, in transactions that a loss of power leaves whole or not at all.
//!
//! ```
//! use mars::{Array, Shape, MAIN};
//!
//! # fn main() -> mars::Result<()> {
//! # let folder = std::env::temp_dir().join(format!("mars-doc-{}", std::process::id()));
//! # std::fs::create_dir(&folder)?;
//! # let path = folder.join("image");
//! Shape::default().make(&path)?;
//! let array = Array::open_file(&path, 8)?;
//! let mut work = array.begin(0)?;
//! work.put(MAIN, 5, b"abc")?;
//! work.commit()?;
//!
//! let work = array.begin(0)?;
//! for (key, value) in work.rows(MAIN, 0..10)? {
//!     println!("{key} {value:?}");
//! }
//! # assert!(work.get(MAIN, 5)?.map_or(false, |value| value == *b"abc"));
//! # std::fs::remove_dir_all(&folder)?;
//! # Ok(())
//! # }
//! ```
//!
//! A [`Transaction`] that is not committed is dropped. An array lies on a [`Device`]: a [`File`], bytes in memory, or one of your own. It is a layer
//! over mars.h, whose comments say more, and links `libmars.a` of `dist/`, or of the folder that MARS_LIBRARY_FOLDER names.
#![warn(missing_docs)]

mod array;
mod device;
mod raw;
mod status;
mod transaction;

pub use array::{Array, Shape};
pub use device::{Device, File};
pub use status::{Error, Result, Status};
pub use transaction::{Cursor, Offered, Row, Save, Transaction, Value};

/// The table that each array has.
pub const MAIN: &str = "main";
