//! The converter's program, run in folders of its own: what it writes, what it prints, and that it writes over nothing. It has to be built
//! before, by `rt ci` or by `rt run` in crates/convert.

use second::convert::{convert, Converted, Way};
use second::edges::club;
use second::generate::accepted;
use second::nodes::write_plan_in;
use second::random::Random;
use second::tables::write_set_in;
use second::version::{VERSION_1, VERSION_2};
use second::wide::narrowed;
use std::path::{Path, PathBuf};
use std::process::Command;
use std::{env, fs, process};

/// How many random inputs are taken up and down.
const INPUTS: u64 = 200;

/// The names of the files that the program writes.
const WRITTEN: [&str; 2] = ["converted.tbl", "converted.rpt"];

/// Room for every pair.
const ROOM: usize = 2_000_000;

/// A folder with these two files, made anew.
fn folder(name: &str, set: &[u8], plan: &[u8]) -> PathBuf {
    let folder = env::temp_dir().join(format!("convert-{}-{name}", process::id()));
    let _ = fs::remove_dir_all(&folder);
    fs::create_dir_all(&folder).expect("a folder");
    fs::write(folder.join("club.tbl"), set).expect("a file");
    fs::write(folder.join("club.rpt"), plan).expect("a file");
    folder
}

/// What the program prints in a folder, started with these words.
fn printed(folder: &Path, words: &[&str]) -> String {
    let program = Path::new(env!("CARGO_MANIFEST_DIR")).join("../crates/convert/out/convert");
    let output = Command::new(program).args(words).current_dir(folder).output();
    let output = output.expect("the program, built by `rt run` in crates/convert");
    assert!(output.status.success(), "{:?}: {}", folder, output.status);
    String::from_utf8(output.stdout).expect("text")
}

/// The files that the program wrote; nothing for one that is not there.
fn written(folder: &Path) -> [Option<Vec<u8>>; 2] {
    WRITTEN.map(|name| fs::read(folder.join(name)).ok())
}

/// Runs the program one way and holds it against the second evaluator; gives the pair that it wrote, if any.
fn check(name: &str, way: Way, set: &[u8], plan: &[u8]) -> Option<Converted> {
    let folder = folder(name, set, plan);
    let text = printed(&folder, &[if way == Way::Up { "up" } else { "down" }]);
    let expected = convert(way, set, plan, ROOM, ROOM);
    match &expected {
        Ok(pair) => {
            assert_eq!(text, format!("set {} bytes\nplan {} bytes\n", pair.set.len(), pair.plan.len()), "{name}");
            assert_eq!(written(&folder), [Some(pair.set.clone()), Some(pair.plan.clone())], "{name}");
        }
        Err(number) => {
            assert_eq!(text, format!("refused {number}\n"), "{name}");
            assert_eq!(written(&folder), [None, None], "{name}");
        }
    }
    fs::remove_dir_all(&folder).expect("no folder");
    expected.ok()
}

#[test]
fn random_pairs_are_written_up_and_down() {
    for seed in 0..INPUTS {
        let input = narrowed(accepted(&mut Random::new(8_000_000 + seed)));
        let (set, plan) = (write_set_in(&VERSION_1, &input.tables), write_plan_in(&VERSION_1, &input.plan));
        let up = check("random", Way::Up, &set, &plan).expect("a pair of version 2");
        let down = check("random", Way::Down, &up.set, &up.plan).expect("a pair of version 1");
        assert_eq!((down.set, down.plan), (set, plan), "seed {seed}");
    }
}

#[test]
fn a_pair_that_is_refused_leaves_no_file() {
    let club = club();
    let (set, plan) = (write_set_in(&VERSION_2, &club.tables), write_plan_in(&VERSION_2, &club.plan));
    assert_eq!(check("version", Way::Up, &set, &plan), None);
    let mut large = set.clone();
    large[12] = 1;
    assert_eq!(check("number", Way::Down, &large, &plan), None);
    assert_eq!(check("short", Way::Down, &set[..20], &plan), None);
}

#[test]
fn no_file_is_written_over() {
    let club = club();
    let (set, plan) = (write_set_in(&VERSION_1, &club.tables), write_plan_in(&VERSION_1, &club.plan));
    for taken in 0..WRITTEN.len() {
        let folder = folder("taken", &set, &plan);
        fs::write(folder.join(WRITTEN[taken]), b"kept").expect("a file");
        assert_eq!(printed(&folder, &["up"]), "");
        let mut left = [None, None];
        left[taken] = Some(b"kept".to_vec());
        assert_eq!(written(&folder), left);
        fs::remove_dir_all(&folder).expect("no folder");
    }
}

#[test]
fn without_a_way_it_says_what_it_takes() {
    let folder = folder("way", &[], &[]);
    for words in [&[][..], &["sideways"], &["u"], &["upward"], &[""]] {
        assert_eq!(printed(&folder, words), "convert up|down\n");
        assert_eq!(written(&folder), [None, None]);
    }
    fs::remove_dir_all(&folder).expect("no folder");
}
