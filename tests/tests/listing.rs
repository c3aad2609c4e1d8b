//! The listing program, run: on the folders of `listing/`, at the ends of its room, and on random inputs. It has to be built before, by
//! `rt ci` or by `rt run` in crates/listing.

use second::generate::accepted;
use second::listings::{large_runs, runs, Run};
use second::random::Random;
use std::collections::BTreeMap;
use std::path::{Path, PathBuf};
use std::process::Command;
use std::{env, fs, process};

/// How many random inputs are run.
const INPUTS: u64 = 1_000;

/// What the program prints in a folder.
fn printed(folder: &Path) -> String {
    let program = Path::new(env!("CARGO_MANIFEST_DIR")).join("../crates/listing/out/listing");
    let output = Command::new(&program).current_dir(folder).output();
    let output = output.expect("the program, built by `rt run` in crates/listing");
    assert!(output.status.success(), "{:?}: {}", folder, output.status);
    String::from_utf8(output.stdout).expect("text")
}

/// Runs the program on a run's files in a folder of its own.
fn check(run: &Run, name: &str) {
    let folder = env::temp_dir().join(format!("listing-{}-{name}", process::id()));
    fs::create_dir_all(&folder).expect("a folder");
    for (file, bytes) in run.files() {
        fs::write(folder.join(file), bytes).expect("a file");
    }
    let text = printed(&folder);
    fs::remove_dir_all(&folder).expect("no folder");
    assert!(text == run.text(), "{}", run.name);
}

/// The files of a folder, by their names.
fn files_in(folder: &Path) -> BTreeMap<String, Vec<u8>> {
    let entry_name = |path: &PathBuf| path.file_name().expect("a name").to_string_lossy().into_owned();
    let paths = fs::read_dir(folder).expect("a folder").map(|entry| entry.expect("an entry").path());
    paths.map(|path| (entry_name(&path), fs::read(&path).expect("a file"))).collect()
}

#[test]
fn the_folders_hold_the_second_evaluators_answers() {
    let root = Path::new(env!("CARGO_MANIFEST_DIR"));
    for run in runs() {
        let expected: BTreeMap<String, Vec<u8>> =
            run.files().into_iter().map(|(name, bytes)| (name.into(), bytes)).collect();
        assert_eq!(files_in(&root.join("listing").join(run.name)), expected, "{}", run.name);
    }
    let data = files_in(&root.join("../crates/listing/data"));
    let paper = files_in(&root.join("listing/paper"));
    assert_eq!(data["club.tbl"], paper["club.tbl"]);
    assert_eq!(data["club.rpt"], paper["club.rpt"]);
    assert_eq!(fs::read(root.join("../crates/listing/stdout")).expect("a file"), paper["stdout"]);
}

#[test]
fn the_program_prints_the_folders_texts() {
    for run in runs() {
        let folder = Path::new(env!("CARGO_MANIFEST_DIR")).join("listing").join(run.name);
        let expected = fs::read_to_string(folder.join("stdout")).expect("a text");
        assert_eq!(printed(&folder), expected, "{}", run.name);
    }
}

#[test]
fn the_program_has_room_for_the_largest_inputs() {
    for (number, run) in large_runs().iter().enumerate() {
        check(run, &format!("large-{number}"));
    }
}

#[test]
fn the_program_prints_the_listings_of_random_inputs() {
    for seed in 0..INPUTS {
        let input = accepted(&mut Random::new(seed));
        let run = Run { name: "random", set: Some(input.set_bytes()), plan: Some(input.plan_bytes()) };
        check(&run, &format!("random-{seed}"));
    }
}
