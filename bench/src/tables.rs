//! The tables that are printed.

use crate::measure::{steps, unnesting_time, Clock, Report};
use crate::plain;
use crate::questions::{self, deepest, in_sql, later, more_kinds, with_author, with_review, Question};
use crate::section::{micros, ratio, Section};
use crate::sqlite::Sqlite;
use crate::Told;
use second::calls::{try_steps, unnest_tree};
use second::check::{need, need_before};
use second::nodes::write_plan;
use second::plan::Plan;
use second::tables::{write_set, Table};
use std::hint::black_box;

/// Document 004's questions: nested, unnested once, and as far as it goes.
pub fn nested(told: &Told) -> Section {
    let mut section = Section::new(
        "nested",
        "Nested over unnested: the questions of document 004",
        "Times of the reporting call in microseconds. Joined is the plan after the first step, U1 or U2; grouped the last plan.",
        &["question", "rows", "steps", "nested", "joined", "grouped", "nested / joined", "nested / grouped"],
    );
    for make in [with_review, with_author, later] {
        for height in [100, 1000] {
            nested_line(&mut section, make(height), height, told.clock);
        }
    }
    section
}

fn nested_line(section: &mut Section, question: Question, height: usize, clock: Clock) {
    let (set, plan) = (write_set(&question.tables), write_plan(&question.plan));
    let steps = steps(&set, &plan);
    let line = format!("{}, {height} rows", question.name);
    let mut report = Report::of(&set, &plan);
    let nested = section.time(&line, "nested", report.time(clock));
    let mut after = |what, count: usize| {
        let left = try_steps(&set, &plan, &steps[..count]).expect("an accepted plan");
        let mut report_after = Report::of(&set, &left);
        assert_eq!(report_after.codes(), report.codes(), "unnesting keeps the report");
        section.time(&line, what, report_after.time(clock))
    };
    let joined = after("joined", 1);
    let grouped = (steps.len() > 1).then(|| after("grouped", steps.len()));
    let rules: Vec<String> = steps.iter().map(|(rule, _)| format!("U{rule}")).collect();
    section.line([
        question.name.to_string(),
        height.to_string(),
        rules.join(" "),
        micros(nested),
        micros(joined),
        grouped.map_or("-".to_string(), micros),
        ratio(nested, joined),
        grouped.map_or("-".to_string(), |grouped| ratio(nested, grouped)),
    ]);
}

/// The unnesting call on document 004's questions.
pub fn unnesting(told: &Told) -> Section {
    let mut section = Section::new(
        "unnesting",
        "The unnesting call over the nested report, at 1,000 rows",
        "Times in microseconds. Where the last ratio is below 1, to unnest and then report is quicker than to report as it stands.",
        &["question", "unnesting", "report of the plan left", "nested report", "unnesting / nested", "both / nested"],
    );
    for make in [with_review, with_author, later] {
        let Question { name, tables, plan } = make(1000);
        let (set, plan) = (write_set(&tables), write_plan(&plan));
        let left = try_steps(&set, &plan, &steps(&set, &plan)).expect("an accepted plan");
        let call = section.time(name, "unnesting", unnesting_time(&set, &plan, told.clock));
        let after = section.time(name, "report of the plan left", Report::of(&set, &left).time(told.clock));
        let nested = section.time(name, "nested report", Report::of(&set, &plan).time(told.clock));
        let (alone, both) = (ratio(call, nested), ratio(call + after, nested));
        section.line([name.to_string(), micros(call), micros(after), micros(nested), alone, both]);
    }
    section
}

/// The needs of document 004's questions and of the deepest plan.
pub fn needs(_: &Told) -> Section {
    let mut section = Section::new(
        "needs",
        "Scratch: the need in cells before K12 and now, at 1,000 rows",
        "Select, Project, Semi, Anti, Some and Every count one row of their columns where they counted all rows.",
        &["plan", "before", "now", "before / now"],
    );
    let mut line = |name: String, plan: &Plan, tables: &[Table]| {
        let (before, now) = (need_before(plan, tables), need(plan, tables));
        section.line([name, before.to_string(), now.to_string(), ratio(before as f64, now as f64)]);
    };
    for make in [with_review, with_author, later] {
        let Question { name, tables, plan } = make(1000);
        let (_, passed) = unnest_tree(&plan, &tables);
        line(format!("{name}, nested"), &plan, &tables);
        line(format!("{name}, joined"), &passed[1], &tables);
        if passed.len() > 2 {
            line(format!("{name}, grouped"), &passed[passed.len() - 1], &tables);
        }
    }
    let Question { name, tables, plan } = deepest();
    line(format!("the deepest plan: {name}"), &plan, &tables);
    section
}

/// The kinds at 1,000 rows, over the plain evaluator and over SQLite.
pub fn kinds(told: &Told) -> Section {
    let databases = [(); 2].map(|_| Sqlite::open().filter(|_| told.sqlite));
    let version = match &databases[0] {
        Some(database) => format!("SQLite {}.", database.version()),
        None if !told.sqlite => "SQLite is left out.".to_string(),
        None => "SQLite: skipped, libsqlite3.so.0 is not installed (Debian: apt-get install libsqlite3-0).".to_string(),
    };
    let text = "A ratio above 1: the reporting call takes longer. It reads and checks all bytes each time; plain Rust and SQLite have their tables\n\
        in memory already and the plan or statement prepared, SQLite without an index and with one on the keys. One bucket: all keys, or all rows,\n\
        fall into one bucket of the library's hash.";
    let mut section = Section::new(
        "kinds",
        "The reporting call over others, at 1,000 rows",
        &format!("{text} {version}"),
        &["kind", "rows given", "microseconds", "plain Rust", "/ plain Rust", "/ SQLite", "/ SQLite with an index"],
    );
    for question in questions::kinds(1000).iter().chain(&more_kinds()) {
        let (set, plan) = (write_set(&question.tables), write_plan(&question.plan));
        let mut report = Report::of(&set, &plan);
        let (own, plain) = beside_plain(&mut section, question, &mut report, told.clock);
        let given = report.rows();
        let mut over_sqlite = |database: &Option<Sqlite>, what, indexed| {
            let Some(database) = database else { return "-".to_string() };
            ratio(own, section.time(question.name, what, sqlite_time(database, indexed, question, &given, told.clock)))
        };
        let bare = over_sqlite(&databases[0], "SQLite", false);
        let indexed = over_sqlite(&databases[1], "SQLite with an index", true);
        let name = question.name.to_string();
        section.line([name, given.len().to_string(), micros(own), micros(plain), ratio(own, plain), bare, indexed]);
    }
    section
}

/// The times of the reporting call and of the plain evaluator, which must give the same rows.
fn beside_plain(section: &mut Section, question: &Question, report: &mut Report, clock: Clock) -> (f64, f64) {
    let Question { name, tables, plan } = question;
    let own = section.time(name, "report", report.time(clock));
    let flat = plain::flat(tables);
    let prepared = plain::prepare(plan, tables, &flat);
    assert_eq!(*prepared.rows().cells, *report.codes(), "{name}: the plain evaluator gives the same rows");
    let plain = section.time(name, "plain Rust", clock.time(|| drop(black_box(black_box(&prepared).rows()))));
    (own, plain)
}

/// The time of a question in SQL, whose rows must be these in some order.
fn sqlite_time(database: &Sqlite, indexed: bool, question: &Question, given: &[Vec<i64>], clock: Clock) -> f64 {
    for (name, table) in ["a", "b"].iter().zip(&question.tables) {
        database.fill(name, table, indexed);
    }
    let statement = database.prepare(in_sql(question.name));
    let sorted = |mut rows: Vec<Vec<i64>>| {
        rows.sort();
        rows
    };
    let own = sorted(database.rows(statement));
    assert_eq!(own, sorted(given.to_vec()), "{}: SQLite gives the same rows", question.name);
    clock.time(|| drop(black_box(database.rows(statement))))
}

/// Inner plans that give the same rows for each left row.
pub fn closed(told: &Told) -> Section {
    let text = "A Some or Fold of 1,000 rows over a Scan of 1,000; and four Somes, each over a Scan of 8 rows, with a Scan of 1,000 rows innermost.\n\
        Plain Rust runs an inner plan once for all left rows where it names no column of theirs, and then tests row by row.";
    let mut section = Section::new(
        "closed",
        "Inner plans that are closed",
        text,
        &["plan", "microseconds", "plain Rust", "/ plain Rust"],
    );
    for question in &questions::closed() {
        let (set, plan) = (write_set(&question.tables), write_plan(&question.plan));
        let (own, plain) = beside_plain(&mut section, question, &mut Report::of(&set, &plan), told.clock);
        section.line([question.name.to_string(), micros(own), micros(plain), ratio(own, plain)]);
    }
    section
}

/// The cost of each kind as rows grow.
pub fn growth(told: &Told) -> Section {
    let text = "The time at each number of rows (of both sides, where there are two) over the time at 250. There is one key for three rows, but over\n\
        1,000 rows, the Cross of 1,000 with a table of 2 or 4, no new key. Making the Cross is in the time, so the last column has it in both\n\
        times: the Cross of 1,000 with a table of 4 rows, over the Cross with one of 1 row.";
    let mut section = Section::new(
        "growth",
        "Cost as rows grow",
        text,
        &[
            "kind",
            "microseconds at 250",
            "500",
            "1,000",
            "2,000",
            "4,000",
            "4,000 / 1,000",
            "4,000 / 1,000, Cross in both",
        ],
    );
    let at = [250, 500, 1000, 2000, 4000].map(questions::kinds);
    let crossed = questions::kinds_crossed(1000);
    for number in 0..crossed.len() {
        let name = crossed[number].name;
        let mut time = |what, Question { tables, plan, .. }: &Question| {
            let (set, plan) = (write_set(tables), write_plan(plan));
            section.time(name, what, Report::of(&set, &plan).time(told.clock))
        };
        let first = time("250", &at[0][number]);
        let [second, third, fourth, last] =
            [("500", 1), ("1,000", 2), ("2,000", 3), ("4,000", 4)].map(|(what, place)| time(what, &at[place][number]));
        let third_crossed = time("1,000, Cross", &crossed[number]);
        section.line([
            name.to_string(),
            micros(first),
            ratio(second, first),
            ratio(third, first),
            ratio(fourth, first),
            ratio(last, first),
            ratio(last, third),
            ratio(last, third_crossed),
        ]);
    }
    section
}
