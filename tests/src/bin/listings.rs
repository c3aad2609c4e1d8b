//! Writes the runs of the listing program: a folder for each, with its files and the text to print.
//!
//! Usage: listings FOLDER.

use second::listings::runs;
use std::path::Path;
use std::{env, fs, io, process};

fn main() {
    let names: Vec<String> = env::args().skip(1).collect();
    let [folder] = &names[..] else {
        eprintln!("usage: listings FOLDER");
        process::exit(2);
    };
    if let Err(error) = write(Path::new(folder)) {
        eprintln!("{folder}: {error}");
        process::exit(1);
    }
}

fn write(folder: &Path) -> io::Result<()> {
    for run in runs() {
        let place = folder.join(run.name);
        fs::create_dir_all(&place)?;
        for (name, bytes) in run.files() {
            fs::write(place.join(name), bytes)?;
        }
    }
    Ok(())
}
