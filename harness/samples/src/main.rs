//! Writes the sample logs and their page into a directory:
//! `cargo run -p samples -- ../samples`, from the directory of the workspace.

use std::io::{Error, ErrorKind};
use std::path::Path;

fn main() -> std::io::Result<()> {
    let Some(directory) = std::env::args().nth(1) else {
        return Err(Error::new(ErrorKind::InvalidInput, "usage: samples DIRECTORY"));
    };
    let directory = Path::new(&directory);
    std::fs::create_dir_all(directory)?;
    let samples = samples::all();
    for sample in &samples {
        std::fs::write(directory.join(sample.name), &sample.bytes)?;
    }
    std::fs::write(directory.join("README.md"), samples::page(&samples))
}
