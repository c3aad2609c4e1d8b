//! include/club.h, compiled as C and as C++, and a C program over it and the archive, held against the second evaluator.
#![cfg(archive)]

use second::build::*;
use second::calls::{check_steps, report, stay_note, unnest, write_steps, ROOMY};
use second::cells::{BLANK, LARGEST, OFF_SCALE};
use second::convert::{convert, Converted, Way};
use second::edges::club;
use second::generate::Input;
use second::plan::Plan;
use second::prizes::{prize, Fund};
use std::path::{Path, PathBuf};
use std::process::Command;
use std::{env, fs};

/// A file of the repository.
fn file(name: &str) -> PathBuf {
    Path::new(env!("CARGO_MANIFEST_DIR")).join("..").join(name)
}

/// A file that this test writes.
fn written(name: &str) -> PathBuf {
    Path::new(env!("CARGO_TARGET_TMPDIR")).join(name)
}

/// Runs a command that must end well, and gives what it printed.
fn run(command: &mut Command) -> String {
    let output = command.output().expect("a command that starts");
    assert!(output.status.success(), "{command:?}: {}", String::from_utf8_lossy(&output.stderr));
    String::from_utf8(output.stdout).expect("text")
}

/// The C compiler, with every warning an error.
fn compiler() -> Command {
    let mut command = Command::new(env::var("CC").unwrap_or_else(|_| "cc".to_string()));
    command.args(["-Wall", "-Wextra", "-Werror", "-pedantic"]).arg("-I").arg(file("include"));
    command
}

/// What the C program has to print.
fn expected(set: &[u8], plan: &[u8]) -> String {
    let mut text = match report(set, plan, ROOMY, ROOMY) {
        Ok(report) => {
            let codes: String = report.codes.iter().map(|code| format!(" {code}")).collect();
            format!("report refusal 0 rows {} columns {}:{codes}\n", report.rows, report.columns)
        }
        Err(number) => format!("report refusal {number} rows 0 columns 0:\n"),
    };
    let left = unnest(set, plan, ROOMY, ROOMY, ROOMY);
    text += &match &left {
        Ok(left) => {
            let steps: String = left.steps.iter().map(|(rule, place)| format!(" U{rule} {place}")).collect();
            format!("unnest refusal 0 bytes {} steps {}:{steps}\n", left.plan.len(), left.steps.len())
        }
        Err(number) => format!("unnest refusal {number} bytes 0 steps 0:\n"),
    };
    // Its own steps and plan are checked; where the input is refused there are none.
    let (steps, theirs) = left.map_or((vec![], vec![]), |left| (write_steps(&left.steps), left.plan));
    let checked = check_steps(set, plan, &steps, &theirs, ROOMY);
    text += &format!("check refusal {}\n", checked.err().unwrap_or(0));
    for place in 0..3 {
        text += &match stay_note(set, plan, place, ROOMY) {
            Ok(Some(position)) => format!("note at {place}: position {position}\n"),
            Ok(None) => format!("note at {place}: none, refusal 0\n"),
            Err(number) => format!("note at {place}: none, refusal {number}\n"),
        };
    }
    for shares in [&[5000, 3000, 2000][..], &[5000, 3000]] {
        text += &prizes(set, plan, &Fund { purse: 1_001, shares: shares.to_vec() });
    }
    let down = convert(Way::Down, set, plan, ROOMY, ROOMY);
    let (old_set, old_plan) = down.clone().map_or((vec![], vec![]), |pair| (pair.set, pair.plan));
    text + &sizes("down", down) + &sizes("up", convert(Way::Up, &old_set, &old_plan, ROOMY, ROOMY))
}

/// What the C program has to print of a prize call.
fn prizes(set: &[u8], plan: &[u8], fund: &Fund) -> String {
    match prize(set, plan, fund, ROOMY, ROOMY) {
        Ok(prizes) => {
            let cells: String = prizes.cells().iter().map(|cell| format!(" {cell}")).collect();
            format!("prizes refusal 0 rows {} club line {}:{cells}\n", prizes.rows.len(), prizes.club_line)
        }
        Err(number) => format!("prizes refusal {number} rows 0 club line 0:\n"),
    }
}

/// What the C program has to print of a conversion.
fn sizes(way: &str, answer: Result<Converted, u8>) -> String {
    let (number, set, plan) = match answer {
        Ok(pair) => (0, pair.set.len(), pair.plan.len()),
        Err(number) => (number, 0, 0),
    };
    format!("{way} refusal {number} set {set} plan {plan}\n")
}

#[test]
fn a_c_program_gets_the_answers() {
    let program = written("club");
    run(compiler().arg("-std=c99").arg(file("tests/c/club.c")).arg(env!("CLUB_ARCHIVE_COPY")).arg("-o").arg(&program));
    // The listing; a Semi with a note, whose sequences differ from position 2 on; a refusal; numbers that do not fit version 1; players and
    // scores, with a tie across the last share, with a club line, and so many rows that two bytes tell them.
    let keys = [one_column(&[1, 2, 4]), one_column(&[1, 2, 3, 5])];
    let noted = semi(0, 1, second::plan::ALWAYS, distinct(&[0], scan(0, 0)), scan(1, 1));
    let inputs = [
        club(),
        Input { tables: keys.to_vec(), plan: noted },
        Input { tables: vec![], plan: select(NEVER, scan(0, 0)) },
        Input { tables: vec![], plan: Plan::Unit },
        Input { tables: vec![one_column(&[2_147_483_647, 5, -LARGEST])], plan: scan(0, 0) },
        Input { tables: vec![table(&[&[7, 70], &[4, 71], &[9, 71], &[2, 71]])], plan: scan(0, 0) },
        Input { tables: vec![table(&[&[OFF_SCALE, BLANK], &[BLANK, -3]])], plan: scan(0, 0) },
        Input { tables: vec![sized(2, 300)], plan: sort(true, &[1], scan(0, 0)) },
    ];
    let (set_file, plan_file) = (written("set"), written("plan"));
    for input in inputs {
        fs::write(&set_file, input.set_bytes()).expect("a file");
        fs::write(&plan_file, input.plan_bytes()).expect("a file");
        let printed = run(Command::new(&program).arg(&set_file).arg(&plan_file));
        assert_eq!(printed, expected(&input.set_bytes(), &input.plan_bytes()));
    }
}

#[test]
fn the_header_is_c_and_cpp() {
    for (language, standard) in [("c", "-std=c99"), ("c", "-std=c11"), ("c++", "-std=c++11")] {
        run(compiler().args(["-fsyntax-only", "-x", language, standard]).arg(file("include/club.h")));
    }
}
