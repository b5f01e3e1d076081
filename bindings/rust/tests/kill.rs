//! A program that is killed while it commits. It stands alone, since a process that is being started has the locks of the files of all threads.

mod shared;

use mars::{Array, Shape};
use shared::{commits_in, put_all, Room};
use std::env;
use std::io::{BufRead, BufReader, Read, Write};
use std::process::{Command, Stdio};
use std::thread::sleep;
use std::time::Duration;

#[test]
fn what_was_told_is_there_after_a_kill() -> mars::Result<()> {
    let room = Room::new("kill");
    let image = room.image();
    Shape::default().make(&image)?;
    for pause in [0, 100, 300] {
        let words = ["--exact", "commit_for_ever", "--ignored", "--nocapture"];
        let mut program = Command::new(env::current_exe()?).args(words).env("MARS_IMAGE", &image).stdout(Stdio::piped()).spawn()?;
        let mut output = BufReader::new(program.stdout.take().unwrap());
        let mut said = String::new();
        while !said.contains("told ") && output.read_line(&mut said)? > 0 {}
        sleep(Duration::from_millis(pause));
        program.kill()?;
        program.wait()?;
        output.read_to_string(&mut said)?;
        let told = last_told(&said).expect("it committed");
        let found = commits_in(&Array::open_file(&image, 1)?);
        assert!(found == told || found == told + 1, "{} were told, and there are {}", told, found);
    }
    Ok(())
}

/// The number on the last whole line that tells one.
fn last_told(said: &str) -> Option<u64> {
    let (whole, _) = said.rsplit_once('\n')?;
    whole.lines().filter_map(|line| line.strip_prefix("told ")?.parse().ok()).next_back()
}

#[test]
#[ignore = "it is killed by another one"]
fn commit_for_ever() {
    let image = match env::var_os("MARS_IMAGE") {
        Some(image) => image,
        None => return,
    };
    let array = Array::open_file(image, 1).unwrap();
    for number in commits_in(&array) + 1.. {
        put_all(&array, number).unwrap();
        writeln!(std::io::stdout(), "told {}", number).unwrap();
    }
}
