//! The runs of the listing program: what stands in its working folder, and the text it has to print.

use crate::build::*;
use crate::calls::listing;
use crate::cells::{BLANK, LARGEST, OFF_SCALE};
use crate::edges::{club, club_with_project};
use crate::generate::Input;
use crate::nodes::{write_plan, write_plan_in};
use crate::plan::Comparison::NotEqual;
use crate::plan::{Plan, ALWAYS};
use crate::tables::{write_set, write_set_in, Table};
use crate::version::VERSION_1;

/// The scratch cells that the program has. Its other room is enough for every accepted input.
pub const SCRATCH: usize = 262_144;

/// A run under its name. A file may be missing.
pub struct Run {
    pub name: &'static str,
    pub set: Option<Vec<u8>>,
    pub plan: Option<Vec<u8>>,
}

impl Run {
    fn of(name: &'static str, tables: Vec<Table>, plan: Plan) -> Run {
        Run { name, set: Some(write_set(&tables)), plan: Some(write_plan(&plan)) }
    }

    /// The text that the program has to print. A file that cannot be read counts as empty.
    pub fn text(&self) -> String {
        let bytes = |file: &Option<Vec<u8>>| file.clone().unwrap_or_default();
        listing(&bytes(&self.set), &bytes(&self.plan), SCRATCH)
    }

    /// The files of its folder, the expected text among them.
    pub fn files(&self) -> Vec<(&'static str, Vec<u8>)> {
        let mut files = vec![("stdout", self.text().into_bytes())];
        files.extend(self.set.clone().map(|bytes| ("club.tbl", bytes)));
        files.extend(self.plan.clone().map(|bytes| ("club.rpt", bytes)));
        files
    }
}

/// The runs that are kept as files.
pub fn runs() -> Vec<Run> {
    let Input { tables, plan } = club();
    let mut moved = tables.clone();
    moved[1].rows = vec![vec![9, BLANK], vec![7, 36], vec![4, 31], vec![7, 33]];
    let codes = table(&[&[BLANK, OFF_SCALE, -1], &[-LARGEST, LARGEST, 0]]);
    let mut beyond = write_set(&tables);
    beyond[8..16].copy_from_slice(&(LARGEST + 1).to_le_bytes());
    vec![
        Run::of("paper", tables.clone(), plan.clone()),
        Run::of("stay", moved, plan.clone()),
        Run::of("project", tables.clone(), club_with_project().plan),
        Run::of("codes", vec![codes], each(scan(0, 0), select(NEVER, scan(0, 3)))),
        Run::of("unit", vec![], Plan::Unit),
        Run::of("no_rows", vec![sized(2, 0)], scan(0, 0)),
        Run { name: "refused_cell", set: Some(beyond), plan: Some(write_plan(&plan)) },
        Run::of("refused_bound", vec![sized(1, 65), sized(1, 64)], cross(scan(0, 0), scan(1, 1))),
        Run {
            name: "refused_set_of_version_1",
            set: Some(write_set_in(&VERSION_1, &tables)),
            plan: Some(write_plan(&plan)),
        },
        Run {
            name: "refused_plan_of_version_1",
            set: Some(write_set(&tables)),
            plan: Some(write_plan_in(&VERSION_1, &plan)),
        },
        Run { name: "no_set", set: None, plan: Some(write_plan(&plan)) },
        Run { name: "no_plan", set: Some(write_set(&tables)), plan: None },
    ]
}

/// The runs at the ends of the program's room, too large to be kept as files.
pub fn large_runs() -> Vec<Run> {
    let wide = || cross(scan(0, 0), scan(0, 16));
    let full: Vec<Table> = (0..8).map(|_| sized(16, 1000)).collect();
    let mut ninth = write_set(&full);
    ninth.push(b'T');
    let mut longer = ninth.clone();
    longer.extend([0; 5000]);
    let selects = || (0..63).fold(scan(0, 0), |plan, number| select(number_test(number % 5, NotEqual, 6), plan));
    let largest = (0..63).fold(scan(0, 0), |plan, _| select(ALWAYS, plan));
    let mut tail = write_plan(&largest);
    tail.extend([0; 30]);
    vec![
        Run::of("the largest report", vec![sized(16, 64)], wide()),
        Run::of("scratch below the need", vec![sized(16, 64)], sort(false, &[0], wide())),
        // These two needed 268,288 cells and 1,028,096 before request K12.
        Run::of("a Select over the largest report", vec![sized(16, 64)], select(number_test(0, NotEqual, 3), wide())),
        Run::of("63 Selects over the largest table", vec![sized(16, 1000)], selects()),
        Run::of("the largest set", full.clone(), scan(7, 0)),
        Run { name: "a byte after the largest set", set: Some(ninth), plan: Some(write_plan(&scan(7, 0))) },
        Run { name: "a set far too long", set: Some(longer), plan: Some(write_plan(&scan(7, 0))) },
        Run::of("the largest plan", vec![sized(2, 2)], largest),
        Run { name: "a plan far too long", set: Some(write_set(&[sized(2, 2)])), plan: Some(tail) },
    ]
}
