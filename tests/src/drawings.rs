//! The sample club drawn as text: its bytes, its plans as trees with their rows, and the listing; and its plan with a Project between.

use crate::calls::{cell_text, listing, unnest_tree, ROOMY};
use crate::check::{bound, columns, need, need_parts};
use crate::edges::{club, club_with_project};
use crate::evaluate::{rows, Scope};
use crate::nodes::{write_plan, HEADER};
use crate::plan::{Aggregate, Comparison, Form, Keys, Plan, Test, ALWAYS};
use crate::rules::weight;
use crate::tables::{write_table, Table};
use crate::version::VERSION_2;

/// The drawings of the sample club, each under its name.
pub fn drawings() -> Vec<(String, String)> {
    let club = club();
    let (steps, passed) = unnest_tree(&club.plan, &club.tables);
    let mut all = vec![
        ("the set".to_string(), set_drawing(&club.tables)),
        ("the plan".to_string(), plan_drawing(&club.plan, &club.tables)),
    ];
    let after = steps.iter().map(|(rule, place)| format!("after U{rule} at {place}"));
    let names = std::iter::once("the plan given".to_string()).chain(after);
    all.extend(names.zip(&passed).map(|(name, plan)| (name, tree_drawing(plan, &club.tables))));
    let last = passed.last().expect("the given plan");
    all.push(("the last plan".to_string(), plan_drawing(last, &club.tables)));
    all.push(("the listing".to_string(), listing(&club.set_bytes(), &club.plan_bytes(), ROOMY)));
    let with_project = tree_drawing(&club_with_project().plan, &club.tables);
    all.push(("the plan with a Project between".to_string(), with_project));
    all
}

// ---- text

/// Lines of cells, each column as wide as its widest cell, with a gap between columns and no blanks at the end.
fn aligned(lines: &[Vec<String>], gap: &str) -> String {
    let count = lines.iter().map(Vec::len).max().unwrap_or(0);
    let width = |column: usize| lines.iter().filter_map(|line| line.get(column)).map(|cell| cell.chars().count()).max();
    let widths: Vec<usize> = (0..count).map(|column| width(column).unwrap_or(0)).collect();
    let padded = |(cell, width): (&String, &usize)| format!("{cell:<width$}", width = *width);
    let text = |line: &Vec<String>| line.iter().zip(&widths).map(padded).collect::<Vec<_>>().join(gap);
    lines.iter().map(|line| text(line).trim_end().to_string() + "\n").collect()
}

/// How many there are, with the word for one of them.
fn counted(count: usize, one: &str) -> String {
    format!("{count} {one}{}", if count == 1 { "" } else { "s" })
}

/// A number with a comma before every three digits.
fn with_commas(number: u64) -> String {
    match number {
        0..=999 => number.to_string(),
        _ => format!("{},{:03}", with_commas(number / 1000), number % 1000),
    }
}

/// The names of columns.
fn column_names(ids: &[u8]) -> String {
    ids.iter().map(|id| format!("c{id}")).collect::<Vec<_>>().join(" ")
}

/// The cells of a row.
fn cells(row: &[i64]) -> String {
    row.iter().map(|&code| cell_text(code)).collect::<Vec<_>>().join(" ")
}

/// Rows, each in brackets.
fn row_list(rows: &[Vec<i64>]) -> String {
    match rows {
        [] => "none".to_string(),
        _ => rows.iter().map(|row| format!("({})", cells(row))).collect::<Vec<_>>().join(" "),
    }
}

// ---- bytes

/// The width of the widest of these bytes in base ten.
fn byte_width(bytes: &[u8]) -> usize {
    bytes.iter().max().map_or(1, |byte| byte.to_string().len())
}

/// Bytes in base ten, each as wide as asked for.
fn byte_list(bytes: &[u8], width: usize) -> String {
    bytes.iter().map(|byte| format!("{byte:>width$}")).collect::<Vec<_>>().join(" ")
}

/// The letters and the version at the front of a table or a plan.
fn mark(bytes: &[u8]) -> String {
    let letters = String::from_utf8_lossy(&bytes[..3]);
    format!("letters {letters}, version {}", u16::from_le_bytes([bytes[3], bytes[4]]))
}

/// The bytes of a set: a line for each table's header and one for each row.
fn set_drawing(tables: &[Table]) -> String {
    let written: Vec<Vec<u8>> = tables.iter().map(|table| write_table(&VERSION_2, table)).collect();
    let width = byte_width(&written.concat());
    let mut lines = Vec::new();
    for (number, (table, bytes)) in tables.iter().zip(&written).enumerate() {
        let row_size = VERSION_2.cell * table.columns;
        let (header, body) = bytes.split_at(bytes.len() - row_size * table.rows.len());
        let size = format!("{}, {}", counted(table.columns, "column"), counted(table.rows.len(), "row"));
        lines.push(vec![byte_list(header, width), format!("table {number}: {}, {size}", mark(header))]);
        let row_lines = body.chunks(row_size).zip(&table.rows);
        lines.extend(row_lines.map(|(bytes, row)| vec![byte_list(bytes, width), cells(row)]));
    }
    aligned(&lines, "  ")
}

/// The bytes of a plan: a line for its header and one for each node, in groups of eight.
fn plan_drawing(plan: &Plan, tables: &[Table]) -> String {
    let bytes = write_plan(plan);
    let nodes = plan.nodes();
    let width = byte_width(&bytes);
    let (header, body) = bytes.split_at(HEADER);
    let node_size = body.len() / nodes.len();
    let mut first = vec![byte_list(header, width)];
    first.resize(node_size.div_ceil(8), String::new());
    first.push(format!("{}, {}", mark(header), counted(nodes.len(), "node")));
    let mut lines = vec![first];
    for (place, (node, bytes)) in nodes.into_iter().zip(body.chunks(node_size)).enumerate() {
        let mut line: Vec<String> = bytes.chunks(8).map(|group| byte_list(group, width)).collect();
        line.push(format!("place {place}: {}", words(node, tables)));
        lines.push(line);
    }
    aligned(&lines, "   ")
}

// ---- nodes in words

/// A comparison's sign.
fn sign(comparison: Comparison) -> &'static str {
    match comparison {
        Comparison::Equal => "=",
        Comparison::NotEqual => "≠",
        Comparison::Less => "<",
        Comparison::AtMost => "≤",
        Comparison::Greater => ">",
        Comparison::AtLeast => "≥",
    }
}

/// A test in words.
fn test_words(test: &Test) -> String {
    let form = match test.form {
        Form::Always => "always".to_string(),
        Form::Columns(comparison, left, right) => format!("c{left} {} c{right}", sign(comparison)),
        Form::Number(comparison, left, number) => format!("c{left} {} {number}", sign(comparison)),
    };
    format!("{}{form}", if test.not { "not " } else { "" })
}

/// A test in words after a comma; the plain always test has none.
fn and_test(test: &Test) -> String {
    match *test {
        ALWAYS => String::new(),
        _ => format!(", {}", test_words(test)),
    }
}

/// The comparison of two keys.
fn key_words(keys: &Keys) -> String {
    format!("c{} {} c{}", keys.left, sign(keys.comparison), keys.right)
}

/// An aggregate in words, with the id that it gets.
fn aggregate_words(aggregate: Aggregate, new: u8) -> String {
    match aggregate {
        Aggregate::Count => format!("count as c{new}"),
        Aggregate::Sum(id) => format!("sum of c{id} as c{new}"),
        Aggregate::Least(id) => format!("least of c{id} as c{new}"),
        Aggregate::Greatest(id) => format!("greatest of c{id} as c{new}"),
    }
}

/// A node in words, without its children.
pub fn words(node: &Plan, tables: &[Table]) -> String {
    match node {
        Plan::Unit => "Unit".to_string(),
        Plan::Scan { table, .. } => format!("Scan of table {table} as {}", column_names(&columns(node, tables))),
        Plan::Select { test, .. } => format!("Select {}", test_words(test)),
        Plan::Project { list, .. } => format!("Project {}", column_names(list)),
        Plan::Distinct { list, .. } => format!("Distinct {}", column_names(list)),
        Plan::Cross { .. } => "Cross".to_string(),
        Plan::Semi { left_key, right_key, test, .. } => format!("Semi c{left_key} = c{right_key}{}", and_test(test)),
        Plan::Anti { left_key, right_key, test, .. } => format!("Anti c{left_key} = c{right_key}{}", and_test(test)),
        Plan::Some { test, .. } => format!("Some {}", test_words(test)),
        Plan::Every { test, .. } => format!("Every {}", test_words(test)),
        Plan::Fold { aggregate, new, test, .. } => {
            format!("Fold {}{}", aggregate_words(*aggregate, *new), and_test(test))
        }
        Plan::Each { .. } => "Each".to_string(),
        Plan::Pair { aggregate, new, keys, test, .. } => {
            format!("Pair {}, {}{}", key_words(keys), aggregate_words(*aggregate, *new), and_test(test))
        }
        Plan::Group { aggregate, new, keys, test, .. } => {
            format!("Group {}, {}{}", key_words(keys), aggregate_words(*aggregate, *new), and_test(test))
        }
        Plan::Sort { down, list, .. } => {
            format!("Sort {} {}", if *down { "down" } else { "up" }, column_names(list))
        }
    }
}

// ---- trees

/// A tree: a line for each node with its columns, its bound and its rows; then the weight and the need.
pub fn tree_drawing(plan: &Plan, tables: &[Table]) -> String {
    let nodes = plan.nodes();
    let digits = (nodes.len() - 1).to_string().len();
    let mut runs: Vec<Vec<Run>> = nodes.iter().map(|_| Vec::new()).collect();
    add_runs(plan, 0, tables, None, &mut runs);
    let mut branches = Vec::new();
    add_branches(plan, "", "", &mut branches);
    let mut lines = vec![["place", "columns", "bound", "rows"].map(String::from).to_vec()];
    for (place, node) in nodes.iter().enumerate() {
        let ids = columns(node, tables);
        lines.push(vec![
            format!("{place:>digits$}  {}{}", branches[place], words(node, tables)),
            if ids.is_empty() { "none".to_string() } else { column_names(&ids) },
            with_commas(bound(node, tables)),
            rows_in_runs(&runs[place]),
        ]);
    }
    aligned(&lines, "  ") + &sums(plan, tables)
}

/// The line with a plan's weight and the sum that its need is.
fn sums(plan: &Plan, tables: &[Table]) -> String {
    let parts = need_parts(plan, tables).into_iter().map(with_commas).collect::<Vec<_>>().join(" + ");
    format!("weight {}; need {parts} = {}\n", weight(plan), with_commas(need(plan, tables)))
}

/// Adds what stands before each node's words: `own` before this one's, `below` before what its children's begin with.
fn add_branches(plan: &Plan, own: &str, below: &str, all: &mut Vec<String>) {
    all.push(own.to_string());
    let children = plan.children();
    for (number, child) in children.iter().enumerate() {
        let is_last = number + 1 == children.len();
        let (branch, trunk) = if is_last { ("└─ ", "   ") } else { ("├─ ", "│  ") };
        add_branches(child, &format!("{below}{branch}"), &format!("{below}{trunk}"), all);
    }
}

/// One run of a node: the left rows that it is nested in, outermost first, and the rows that it gives there.
struct Run {
    inside: Vec<Vec<i64>>,
    rows: Vec<Vec<i64>>,
}

/// Adds the runs of all nodes to those of their places. The plan's own place is `place`.
fn add_runs(plan: &Plan, place: usize, tables: &[Table], outer: Option<&Scope>, runs: &mut [Vec<Run>]) {
    runs[place].push(Run { inside: rows_around(outer), rows: rows(plan, tables, outer) });
    let children = plan.children();
    let mut start = place + 1;
    for (number, child) in children.iter().enumerate() {
        if number == 1 && plan.is_nested() {
            let ids = columns(children[0], tables);
            for row in rows(children[0], tables, outer) {
                add_runs(child, start, tables, Some(&Scope { ids: &ids, row: &row, outer }), runs);
            }
        } else {
            add_runs(child, start, tables, outer, runs);
        }
        start += child.size();
    }
}

/// The rows in view, outermost first.
fn rows_around(scope: Option<&Scope>) -> Vec<Vec<i64>> {
    let mut all: Vec<Vec<i64>> =
        std::iter::successors(scope, |scope| scope.outer).map(|scope| scope.row.to_vec()).collect();
    all.reverse();
    all
}

/// The rows that a node gives: once where they are the same in all its runs, else for each run. A node that is never
/// run gives none.
fn rows_in_runs(runs: &[Run]) -> String {
    let Some(first) = runs.first() else {
        return row_list(&[]);
    };
    if runs.iter().all(|run| run.rows == first.rows) {
        return row_list(&first.rows);
    }
    let part = |run: &Run| format!("inside {}: {}", row_list(&run.inside), row_list(&run.rows));
    runs.iter().map(part).collect::<Vec<_>>().join("; ")
}
