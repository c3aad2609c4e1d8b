//! Holds the archive against the second evaluator on as many inputs as asked for.
//!
//! Usage: long SEED COUNT. It prints the counts at the end; the first difference ends it with the seed that shows it.

#[cfg(archive)]
fn main() {
    use second::held::{hold_seeds, Counts};
    let numbers: Vec<u64> = std::env::args().skip(1).filter_map(|word| word.parse().ok()).collect();
    let [seed, count] = numbers[..] else {
        eprintln!("usage: long SEED COUNT");
        std::process::exit(2);
    };
    let mut counts = Counts::default();
    let mut done = 0;
    while done < count {
        let part = (count - done).min(100_000);
        if let Err(difference) = hold_seeds(seed + done, part, &mut counts) {
            eprintln!("{difference}");
            std::process::exit(1);
        }
        done += part;
        eprintln!("{done} inputs");
    }
    print!("{}", counts.lines());
}

#[cfg(not(archive))]
fn main() {
    eprintln!("no archive: `rt lib` in crates/cabi writes it");
    std::process::exit(2);
}
