//! The list of faults, by number.

use super::{alone, beside, change, header, Draft, Fault, Stage};
use crate::build::*;
use crate::nodes::{write_plan_in, Field};
use crate::plan::Comparison::{Equal, Greater, Less};
use crate::plan::{Aggregate, Plan, ALWAYS};
use crate::tables::{write_table, Table};
use crate::version::{VERSION_1, VERSION_2};

/// All faults, by number.
pub fn faults() -> Vec<Fault> {
    let mut all = set_faults();
    all.extend(header_faults());
    all.extend(field_faults());
    all.extend(wide_field_faults());
    all.extend(tree_faults());
    all.extend(table_number_faults());
    all.extend(introduction_faults());
    all.extend(name_faults());
    all.extend(outer_name_faults());
    all.extend(width_faults());
    all.extend(bound_faults());
    all
}

/// Refusals 1 to 5.
fn set_faults() -> Vec<Fault> {
    let set = |number, name, apply| change(number, name, Stage::Set, apply);
    vec![
        set(1, "one letter of a table", |draft, _| draft.after_tables(b"T")),
        set(1, "two letters of a table", |draft, _| draft.after_tables(b"TB")),
        set(1, "seven bytes of a header", |draft, _| draft.after_tables(&draft.header(2, 1)[..7])),
        set(1, "a short header with a wrong mark", |draft, _| draft.after_tables(b"XYZ\x09")),
        set(1, "one byte of the last cell missing", |draft, _| draft.last_with_cells()?.pop().map(|_| ())),
        set(1, "no cells after a header with rows", |draft, _| {
            draft.last_with_cells()?.truncate(8);
            Some(())
        }),
        set(1, "a row more than there is", |draft, _| {
            draft.last_with_cells()?[6] += 1;
            Some(())
        }),
        set(1, "a column more than there is", |draft, _| {
            let part = draft.last_with_cells()?;
            (part[5] < 16).then(|| part[5] += 1)
        }),
        set(1, "1,000 rows of 16 without a cell", |draft, _| draft.after_tables(&draft.header(16, 1000))),
        set(2, "first letter", |draft, random| draft.table_byte(random, 0, b't')),
        set(2, "second letter", |draft, random| draft.table_byte(random, 1, b'P')),
        set(2, "third letter", |draft, random| draft.table_byte(random, 2, b'X')),
        set(2, "version 0", |draft, random| draft.table_byte(random, 3, 0)),
        set(2, "version 3", |draft, random| draft.table_byte(random, 3, 3)),
        set(2, "the other version", |draft, random| draft.table_byte(random, 3, draft.other().number as u8)),
        set(2, "256 versions later", |draft, random| draft.table_byte(random, 4, 1)),
        set(2, "a table of the other version", |draft, _| {
            draft.after_tables(&write_table(&draft.other(), &sized(2, 2)))
        }),
        alone(set(2, "a set of the other version", |draft, _| {
            let other = draft.other();
            draft.parts = draft.tables.iter().map(|table| write_table(&other, table)).collect();
            (!draft.parts.is_empty()).then_some(())
        })),
        set(2, "a plan in the place of a table", |draft, _| {
            let plan = draft.bytes.clone();
            if plan.len() < 8 {
                return None;
            }
            draft.after_tables(&plan)
        }),
        set(3, "no columns", |draft, random| draft.table_byte(random, 5, 0)),
        set(3, "17 columns", |draft, random| draft.table_byte(random, 5, 17)),
        set(3, "255 columns", |draft, random| draft.table_byte(random, 5, 255)),
        set(3, "1,001 rows", |draft, random| draft.table_rows(random, 1001)),
        set(3, "65,535 rows", |draft, random| draft.table_rows(random, 65_535)),
        set(3, "1,024 rows", |draft, random| draft.table_rows(random, 1024)),
        set(3, "no columns and no rows", |draft, _| draft.after_tables(&draft.header(0, 0))),
        set(4, "one over the range", |draft, random| draft.cell(random, |version| version.largest + 1)),
        set(4, "one under the range", |draft, random| draft.cell(random, |version| -version.largest - 1)),
        set(4, "one under off scale", |draft, random| draft.cell(random, |version| version.off_scale - 1)),
        set(4, "one over blank", |draft, random| draft.cell(random, |version| version.blank + 1)),
        set(4, "between range and off scale", |draft, random| {
            draft.cell(random, |version| version.largest + (version.off_scale - version.largest) / 2)
        }),
        set(4, "between blank and range", |draft, random| {
            draft.cell(random, |version| version.blank + (-version.largest - version.blank) / 2)
        }),
        // Off scale and blank with one other bit. In version 2 the upper half of the first is that of off scale.
        set(4, "off scale but for its lowest byte", |draft, random| {
            draft.cell(random, |version| version.off_scale - 255)
        }),
        set(4, "blank but for a bit", |draft, random| draft.cell(random, |version| version.blank + (1 << 20))),
        set(5, "a ninth table", |draft, _| draft.after_eight(&draft.written(2, 1))),
        set(5, "one byte after eight tables", |draft, _| draft.after_eight(b"T")),
        set(5, "a zero byte after eight tables", |draft, _| draft.after_eight(&[0])),
        set(5, "a ninth table with a wrong mark", |draft, _| draft.after_eight(&header(&draft.version, b"TBX", 1, 0))),
        set(5, "a ninth and a tenth table", |draft, _| {
            let one = draft.written(1, 0);
            draft.after_eight(&[one.clone(), one].concat())
        }),
        set(5, "a ninth table of 17 columns", |draft, _| draft.after_eight(&draft.header(17, 0))),
    ]
}

/// Refusals 6, 7 and 8. Their order is 6 (under 6 bytes), 7, 8, 6 (length), so a wrong length
/// ranks after 8.
fn header_faults() -> Vec<Fault> {
    let header = |number, name, apply| change(number, name, Stage::Header, apply);
    let short = |name, apply| alone(header(6, name, apply));
    let mark = |name, apply| header(7, name, apply);
    let count = |name, apply| header(8, name, apply);
    let length = |name, apply| Fault { rank: 85, ..header(6, name, apply) };
    vec![
        short("no bytes", |draft, _| draft.cut_plan(0)),
        short("3 bytes", |draft, _| draft.cut_plan(3)),
        short("5 bytes", |draft, _| draft.cut_plan(5)),
        short("5 bytes with a wrong mark", |draft, _| {
            draft.bytes.truncate(5);
            draft.plan_byte(0, 0)
        }),
        length("one byte missing", |draft, _| draft.bytes.pop().map(|_| ())),
        length("one byte too many", |draft, _| draft.zeros_after_plan(1)),
        length("a node too many for the count", |draft, _| draft.zeros_after_plan(draft.version.node)),
        length("a node too few for the count", |draft, _| {
            let (size, node) = (draft.bytes.len(), draft.version.node);
            (size >= 6 + node).then(|| draft.bytes.truncate(size - node))
        }),
        length("a count one too large", |draft, _| (draft.bytes[5] < 64).then(|| draft.bytes[5] += 1)),
        length("a header without nodes", |draft, _| (draft.bytes[5] > 0).then(|| draft.bytes.truncate(6))),
        length("a byte less than a node too many", |draft, _| draft.zeros_after_plan(draft.version.node - 1)),
        length("as long as in the other version", |draft, _| {
            draft.bytes.resize(6 + draft.other().node * draft.nodes.len(), 0);
            Some(())
        }),
        mark("first letter", |draft, _| draft.plan_byte(0, b'T')),
        mark("second letter", |draft, _| draft.plan_byte(1, b'p')),
        mark("third letter", |draft, _| draft.plan_byte(2, 0)),
        mark("version 0", |draft, _| draft.plan_byte(3, 0)),
        mark("version 3", |draft, _| draft.plan_byte(3, 3)),
        mark("the other version", |draft, _| draft.plan_byte(3, draft.other().number as u8)),
        alone(mark("a plan of the other version", |draft, _| {
            draft.bytes = write_plan_in(&draft.other(), &draft.plan);
            Some(())
        })),
        mark("256 versions later", |draft, _| draft.plan_byte(4, 1)),
        mark("version 256", |draft, _| {
            draft.bytes[3] = 0;
            draft.plan_byte(4, 1)
        }),
        alone(mark("a set in the place of a plan", |draft, _| {
            draft.bytes = draft.written(1, 4);
            Some(())
        })),
        count("count 0 with the nodes there", |draft, _| draft.plan_byte(5, 0)),
        alone(count("count 0 and no nodes", |draft, _| {
            draft.bytes.truncate(6);
            draft.plan_byte(5, 0)
        })),
        count("count 65 with fewer nodes", |draft, _| draft.plan_byte(5, 65)),
        count("count 255 with fewer nodes", |draft, _| draft.plan_byte(5, 255)),
        alone(count("65 nodes", |draft, _| {
            draft.bytes[5] = 65;
            draft.bytes.resize(6 + 65 * draft.version.node, 0);
            Some(())
        })),
        count("count 128 with fewer nodes", |draft, _| draft.plan_byte(5, 128)),
    ]
}

/// Refusal 9.
fn field_faults() -> Vec<Fault> {
    let field = |name, apply| change(9, name, Stage::Nodes, apply);
    fn any(_: &[u8]) -> bool {
        true
    }
    vec![
        field("kind 15", |draft, random| draft.any_node(random, 0, 15)),
        field("kind 255", |draft, random| draft.any_node(random, 0, 255)),
        field("byte 7", |draft, random| {
            let byte = random.between(1, 255) as u8;
            draft.any_node(random, 7, byte)
        }),
        field("byte 1 not listed", |draft, random| draft.unlisted(random, Field::Aggregate, 1, 1)),
        field("byte 2 not listed", |draft, random| draft.unlisted(random, Field::NewId, 2, 9)),
        field("byte 3 not listed", |draft, random| draft.unlisted(random, Field::LeftKey, 3, 1)),
        field("byte 4 not listed", |draft, random| draft.unlisted(random, Field::RightKey, 4, 255)),
        field("byte 5 not listed", |draft, random| draft.unlisted(random, Field::Comparison, 5, 1)),
        field("byte 6 not listed", |draft, random| draft.unlisted(random, Field::AggregateColumn, 6, 1)),
        field("list length not listed", |draft, random| draft.unlisted(random, Field::List, 8, 1)),
        field("list byte not listed", |draft, random| {
            let place = random.between(9, 15);
            draft.unlisted(random, Field::List, place, 1)
        }),
        field("test form not listed", |draft, random| draft.unlisted(random, Field::Test, 16, 1)),
        field("not-mark not listed", |draft, random| draft.unlisted(random, Field::Test, 18, 1)),
        field("byte 23 not listed", |draft, random| draft.unlisted(random, Field::Test, 23, 1)),
        field("a Unit with a table", |draft, _| {
            let node = draft.nodes.iter_mut().find(|node| node[0] == 0)?;
            node[1] = 1;
            Some(())
        }),
        field("aggregate 4", |draft, random| draft.listed(random, Field::Aggregate, any, 1, 4)),
        field("aggregate 255", |draft, random| draft.listed(random, Field::Aggregate, any, 1, 255)),
        field("direction 2", |draft, random| draft.listed(random, Field::Direction, any, 1, 2)),
        field("key comparison 6", |draft, random| draft.listed(random, Field::Comparison, any, 5, 6)),
        field("column with a count", |draft, random| {
            draft.listed(random, Field::AggregateColumn, |node| node[1] == 0, 6, 1)
        }),
        field("list length 0", |draft, random| draft.listed(random, Field::List, any, 8, 0)),
        field("an empty list", |draft, random| {
            draft.node(random, Field::List, any)?[8..16].fill(0);
            Some(())
        }),
        field("list length 8", |draft, random| draft.listed(random, Field::List, any, 8, 8)),
        field("list length 255", |draft, random| draft.listed(random, Field::List, any, 8, 255)),
        field("a byte past the list", |draft, random| draft.listed(random, Field::List, |node| node[8] < 7, 15, 3)),
        field("form 3", |draft, random| draft.listed(random, Field::Test, any, 16, 3)),
        field("not-mark 2", |draft, random| draft.listed(random, Field::Test, any, 18, 2)),
        field("comparison with form 0", |draft, random| draft.listed(random, Field::Test, |node| node[16] == 0, 17, 1)),
        field("left column with form 0", |draft, random| {
            draft.listed(random, Field::Test, |node| node[16] == 0, 19, 1)
        }),
        field("number with form 0", |draft, random| {
            let place = random.between(20, 19 + draft.version.cell);
            draft.listed(random, Field::Test, |node| node[16] == 0, place, 1)
        }),
        field("comparison 6 with form 1", |draft, random| {
            draft.listed(random, Field::Test, |node| node[16] == 1, 17, 6)
        }),
        field("comparison 6 with form 2", |draft, random| {
            draft.listed(random, Field::Test, |node| node[16] == 2, 17, 6)
        }),
        field("byte 21 with form 1", |draft, random| draft.listed(random, Field::Test, |node| node[16] == 1, 21, 1)),
        field("byte 23 with form 1", |draft, random| draft.listed(random, Field::Test, |node| node[16] == 1, 23, 255)),
        field("number one over the range", |draft, random| draft.test_number(random, |version| version.largest + 1)),
        field("number one under the range", |draft, random| draft.test_number(random, |version| -version.largest - 1)),
        field("blank as a number", |draft, random| draft.test_number(random, |version| version.blank)),
        field("off scale as a number", |draft, random| draft.test_number(random, |version| version.off_scale)),
    ]
}

/// Refusal 9 in the bytes that a node has in version 2 alone. They suit no input of version 1.
fn wide_field_faults() -> Vec<Fault> {
    let field = |name, apply| change(9, name, Stage::Nodes, apply);
    vec![
        field("byte 28", |draft, random| draft.any_node(random, 28, 1)),
        field("byte 29", |draft, random| draft.any_node(random, 29, 255)),
        field("byte 30", |draft, random| draft.any_node(random, 30, 128)),
        field("byte 31", |draft, random| draft.any_node(random, 31, 1)),
        field("bytes 28 to 31 of a negative number", |draft, random| {
            let node = draft.node(random, Field::Test, |node| node[16] == 2 && node.len() > 31 && node[27] == 255)?;
            node[28..].fill(255);
            Some(())
        }),
        field("byte 24 not listed", |draft, random| draft.unlisted(random, Field::Test, 24, 1)),
        field("byte 27 not listed", |draft, random| draft.unlisted(random, Field::Test, 27, 128)),
        field("byte 24 with form 0", |draft, random| draft.wide_test(random, |node| node[16] == 0, 24, 1)),
        field("byte 27 with form 0", |draft, random| draft.wide_test(random, |node| node[16] == 0, 27, 255)),
        field("byte 24 with form 1", |draft, random| draft.wide_test(random, |node| node[16] == 1, 24, 1)),
        field("byte 27 with form 1", |draft, random| draft.wide_test(random, |node| node[16] == 1, 27, 128)),
        // The number's lower four bytes stay; those above put it out of range.
        field("byte 26 of a number", |draft, random| draft.wide_test(random, |node| node[16] == 2, 26, 64)),
        field("byte 27 of a number", |draft, random| draft.wide_test(random, |node| node[16] == 2, 27, 127)),
    ]
}

/// Refusal 10.
fn tree_faults() -> Vec<Fault> {
    let tree = |name, apply| change(10, name, Stage::Nodes, apply);
    fn put(draft: &mut Draft, place: usize, node: Vec<u8>) -> Option<()> {
        (draft.nodes.len() < 64).then(|| draft.nodes.insert(place, node))
    }
    fn put_last(draft: &mut Draft, node: Vec<u8>) -> Option<()> {
        put(draft, draft.nodes.len(), node)
    }
    fn replace(draft: &mut Draft, kinds: &[u8], with: u8) -> Option<()> {
        let with = draft.of_kind(with);
        let node = draft.nodes.iter_mut().find(|node| kinds.contains(&node[0]))?;
        *node = with;
        Some(())
    }
    vec![
        tree("a Unit left over", |draft, _| put_last(draft, draft.of_kind(0))),
        tree("the last node twice", |draft, _| put_last(draft, draft.nodes[draft.nodes.len() - 1].clone())),
        tree("a Select left over", |draft, _| put_last(draft, draft.of_kind(2))),
        tree("a Unit in front", |draft, _| put(draft, 0, draft.of_kind(0))),
        tree("the last node missing", |draft, _| {
            if draft.nodes.len() < 2 {
                return None;
            }
            draft.nodes.pop().map(|_| ())
        }),
        tree("a Cross in front without a second child", |draft, _| put(draft, 0, draft.of_kind(5))),
        tree("an Each in front without an inner plan", |draft, _| put(draft, 0, draft.of_kind(11))),
        tree("a Some in front without an inner plan", |draft, _| put(draft, 0, draft.of_kind(8))),
        tree("a leaf made a Select", |draft, _| replace(draft, &[0, 1], 2)),
        tree("a leaf made an Every", |draft, _| replace(draft, &[0, 1], 9)),
        tree("a Select made a Unit", |draft, _| replace(draft, &[2], 0)),
        tree("a Select made a Cross", |draft, _| replace(draft, &[2], 5)),
        tree("a kind with two children made a Select", |draft, _| replace(draft, &[5, 8, 9, 11], 2)),
        alone(tree("one Select", |draft, _| draft.only_nodes(vec![draft.of_kind(2)]))),
        alone(tree("two Units", |draft, _| draft.only_nodes(vec![draft.of_kind(0); 2]))),
        alone(tree("64 Selects", |draft, _| draft.only_nodes(vec![draft.of_kind(2); 64]))),
        alone(tree("a Cross and a Unit", |draft, _| draft.only_nodes(vec![draft.of_kind(5), draft.of_kind(0)]))),
    ]
}

/// Refusal 11.
fn table_number_faults() -> Vec<Fault> {
    vec![
        beside(11, "one past the last table", |draft| Some(scan(draft.tables.len() as u8, draft.fresh(1)?))),
        beside(11, "table 8", |draft| Some(scan(8, draft.fresh(1)?))),
        beside(11, "table 255", |draft| Some(scan(255, draft.fresh(1)?))),
        beside(11, "in the right child of a Cross", |draft| {
            Some(cross(Plan::Unit, scan(draft.tables.len() as u8, draft.fresh(1)?)))
        }),
        beside(11, "in an inner plan", |draft| Some(each(Plan::Unit, select(ALWAYS, scan(9, draft.fresh(1)?))))),
        alone(change(11, "a Scan of the plan changed", Stage::Nodes, |draft, random| {
            let count = draft.tables.len() as u8;
            draft.listed(random, Field::Table, |_| true, 1, count)
        })),
        alone(change(11, "table 0 of none", Stage::Set, |draft, _| {
            draft.parts.clear();
            draft.bytes = write_plan_in(&draft.version, &scan(0, 0));
            Some(())
        })),
    ]
}

/// Refusal 12: ids introduced twice or above 255, lists with an id twice.
fn introduction_faults() -> Vec<Fault> {
    vec![
        beside(12, "two Scans with the same ids", |draft| {
            let (one, _) = draft.scan(2, 1)?;
            Some(cross(one.clone(), one))
        }),
        beside(12, "two Scans that overlap", |draft| {
            let (table, first) = (draft.table(2, 1)?, draft.fresh(3)?);
            Some(cross(scan(table, first), scan(table, first + 1)))
        }),
        beside(12, "an id again that a Project cut off", |draft| {
            let (table, first) = (draft.table(2, 1)?, draft.fresh(3)?);
            Some(cross(project(&[first], scan(table, first)), scan(table, first + 1)))
        }),
        beside(12, "an id again in a Semi's right child", |draft| {
            let (one, first) = draft.scan(2, 1)?;
            Some(semi(first, first, ALWAYS, one.clone(), one))
        }),
        beside(12, "a Fold's new id again", |draft| {
            let (left, first, inner, _) = draft.two_scans()?;
            Some(fold(Aggregate::Count, first, ALWAYS, left, inner))
        }),
        beside(12, "a Fold's new id is its inner plan's", |draft| {
            let (left, _, inner, other) = draft.two_scans()?;
            Some(fold(Aggregate::Count, other, ALWAYS, left, inner))
        }),
        beside(12, "a Pair's new id again", |draft| {
            let (left, first, right, other) = draft.two_scans()?;
            Some(pair(Aggregate::Count, first, keys(first, Equal, other), left, right))
        }),
        beside(12, "a Group's two ids the same", |draft| {
            let ((child, first), new) = (draft.scan(2, 1)?, draft.fresh(1)?);
            Some(group(Aggregate::Count, new, keys(new, Equal, first), child))
        }),
        beside(12, "a Group's value under the key's id", |draft| {
            let ((child, first), new) = (draft.scan(2, 1)?, draft.fresh(1)?);
            Some(group(Aggregate::Count, new, keys(first, Equal, first), child))
        }),
        beside(12, "a Group's new id again", |draft| {
            let ((child, first), value) = (draft.scan(2, 1)?, draft.fresh(1)?);
            Some(group(Aggregate::Count, first + 1, keys(value, Equal, first), child))
        }),
        beside(12, "id 256", |draft| Some(scan(draft.table(2, 1)?, 255))),
        beside(12, "ids 241 to 256", |draft| Some(scan(draft.table(16, 0)?, 241))),
        beside(12, "ids 255 to 270", |draft| Some(scan(draft.table(16, 1)?, 255))),
        beside(12, "an id twice in a Project", |draft| {
            let (child, first) = draft.scan(2, 1)?;
            Some(project(&[first, first], child))
        }),
        beside(12, "an id twice in a Distinct", |draft| {
            let (child, first) = draft.scan(2, 1)?;
            Some(distinct(&[first, first + 1, first], child))
        }),
        beside(12, "an id twice in a Sort", |draft| {
            let (child, first) = draft.scan(2, 1)?;
            Some(sort(false, &[first + 1, first, first], child))
        }),
    ]
}

/// Refusal 12: names of columns that are cut off, of the other child, or nowhere.
fn name_faults() -> Vec<Fault> {
    vec![
        beside(12, "a test's left column nowhere", |draft| {
            let ((child, first), nowhere) = (draft.scan(2, 1)?, draft.fresh(1)?);
            Some(select(columns_test(nowhere, Equal, first), child))
        }),
        beside(12, "a test's right column nowhere", |draft| {
            let ((child, first), nowhere) = (draft.scan(2, 1)?, draft.fresh(1)?);
            Some(select(columns_test(first, Equal, nowhere), child))
        }),
        beside(12, "a test's column with a number nowhere", |draft| {
            let ((child, _), nowhere) = (draft.scan(2, 1)?, draft.fresh(1)?);
            Some(select(number_test(nowhere, Less, 3), child))
        }),
        beside(12, "a Select over a Unit names a column", |draft| {
            Some(select(number_test(draft.fresh(1)?, Less, 3), Plan::Unit))
        }),
        beside(12, "a column that a Project cut off", |draft| {
            let (child, first) = draft.scan(2, 1)?;
            Some(select(number_test(first + 1, Equal, 0), project(&[first], child)))
        }),
        beside(12, "a column that a Distinct cut off", |draft| {
            let (child, first) = draft.scan(2, 1)?;
            Some(project(&[first], distinct(&[first + 1], child)))
        }),
        beside(12, "a column that a Group does not give", |draft| {
            let ((child, first), value, new) = (draft.scan(2, 1)?, draft.fresh(1)?, draft.fresh(1)?);
            let group = group(Aggregate::Count, new, keys(value, Equal, first), child);
            Some(sort(true, &[first], group))
        }),
        beside(12, "a column of a Semi's right child", |draft| {
            let (left, first, right, other) = draft.two_scans()?;
            Some(select(number_test(other, Equal, 0), semi(first, other, ALWAYS, left, right)))
        }),
        beside(12, "a column of a Fold's inner plan", |draft| {
            let ((left, _, inner, other), new) = (draft.two_scans()?, draft.fresh(1)?);
            Some(project(&[other], fold(Aggregate::Count, new, ALWAYS, left, inner)))
        }),
        beside(12, "a Distinct of a column nowhere", |draft| {
            let ((child, _), nowhere) = (draft.scan(2, 1)?, draft.fresh(1)?);
            Some(distinct(&[nowhere], child))
        }),
        beside(12, "a Sort by a column nowhere", |draft| {
            let ((child, first), nowhere) = (draft.scan(2, 1)?, draft.fresh(1)?);
            Some(sort(false, &[first, nowhere], child))
        }),
        beside(12, "a Semi's left key on the right", |draft| {
            let (left, _, right, other) = draft.two_scans()?;
            Some(semi(other, other, ALWAYS, left, right))
        }),
        beside(12, "an Anti's right key on the left", |draft| {
            let (left, first, right, _) = draft.two_scans()?;
            Some(anti(first, first, ALWAYS, left, right))
        }),
        beside(12, "a Pair's keys exchanged", |draft| {
            let ((left, first, right, other), new) = (draft.two_scans()?, draft.fresh(1)?);
            Some(pair(Aggregate::Count, new, keys(other, Less, first), left, right))
        }),
        beside(12, "a Pair's aggregate column on the left", |draft| {
            let ((left, first, right, other), new) = (draft.two_scans()?, draft.fresh(1)?);
            Some(pair(Aggregate::Sum(first), new, keys(first, Less, other), left, right))
        }),
        beside(12, "a Fold's aggregate column on the left", |draft| {
            let ((left, first, inner, _), new) = (draft.two_scans()?, draft.fresh(1)?);
            Some(fold(Aggregate::Least(first), new, ALWAYS, left, inner))
        }),
        beside(12, "a Group's key nowhere", |draft| {
            let ((child, _), value, new) = (draft.scan(2, 1)?, draft.fresh(1)?, draft.fresh(2)?);
            Some(group(Aggregate::Count, new, keys(value, Equal, new + 1), child))
        }),
        beside(12, "a Group's aggregate column is its value", |draft| {
            let ((child, first), value, new) = (draft.scan(2, 1)?, draft.fresh(1)?, draft.fresh(1)?);
            Some(group(Aggregate::Greatest(value), new, keys(value, Equal, first), child))
        }),
        beside(12, "a Fold's test names its new id", |draft| {
            let ((left, first, inner, _), new) = (draft.two_scans()?, draft.fresh(1)?);
            Some(fold(Aggregate::Count, new, columns_test(first, Equal, new), left, inner))
        }),
        beside(12, "a Pair's test names its new id", |draft| {
            let ((left, first, right, other), new) = (draft.two_scans()?, draft.fresh(1)?);
            let pair = pair(Aggregate::Count, new, keys(first, Equal, other), left, right);
            Some(with_test(pair, number_test(new, Equal, 0)))
        }),
        beside(12, "a Group's test names its value", |draft| {
            let ((child, first), value, new) = (draft.scan(2, 1)?, draft.fresh(1)?, draft.fresh(1)?);
            let group = group(Aggregate::Count, new, keys(value, Equal, first), child);
            Some(with_test(group, number_test(value, Greater, 0)))
        }),
    ]
}

/// Refusal 12: names of rows that a node is not nested in, and keys and lists that name outer rows.
fn outer_name_faults() -> Vec<Fault> {
    vec![
        beside(12, "a Cross's right child names the left", |draft| {
            let (left, first, right, _) = draft.two_scans()?;
            Some(cross(left, select(number_test(first, Equal, 0), right)))
        }),
        beside(12, "a Semi's right child names the left", |draft| {
            let (left, first, right, other) = draft.two_scans()?;
            Some(semi(first, other, ALWAYS, left, select(columns_test(first, Equal, other), right)))
        }),
        beside(12, "a Pair's right child names the left", |draft| {
            let ((left, first, right, other), new) = (draft.two_scans()?, draft.fresh(1)?);
            let right = select(columns_test(first, Equal, other), right);
            Some(pair(Aggregate::Count, new, keys(first, Equal, other), left, right))
        }),
        beside(12, "an Each's left child names the inner plan", |draft| {
            let (left, _, inner, other) = draft.two_scans()?;
            Some(each(select(number_test(other, Equal, 0), left), inner))
        }),
        beside(12, "a Some's left child names the inner plan", |draft| {
            let (left, _, inner, other) = draft.two_scans()?;
            Some(some(ALWAYS, select(number_test(other, Equal, 0), left), inner))
        }),
        beside(12, "an inner plan names what e cut off", |draft| {
            let (left, first, inner, other) = draft.two_scans()?;
            let inner = select(columns_test(first + 1, Equal, other), inner);
            Some(every(ALWAYS, project(&[first], left), inner))
        }),
        beside(12, "an Every's test names what f cut off", |draft| {
            let (left, _, inner, other) = draft.two_scans()?;
            Some(every(number_test(other + 1, Equal, 0), left, project(&[other], inner)))
        }),
        beside(12, "a Project of an outer column", |draft| {
            let (left, first, inner, _) = draft.two_scans()?;
            Some(each(left, project(&[first], inner)))
        }),
        beside(12, "a Sort by an outer column", |draft| {
            let (left, first, inner, _) = draft.two_scans()?;
            Some(some(ALWAYS, left, sort(false, &[first], inner)))
        }),
        beside(12, "a Semi's left key of an outer row", |draft| {
            let (left, first, inner, other) = draft.two_scans()?;
            let (more, last) = draft.scan(1, 1)?;
            Some(every(ALWAYS, left, semi(first, last, ALWAYS, with_names(inner, other), more)))
        }),
        beside(12, "a Pair's right key of an outer row", |draft| {
            let (left, first, inner, other) = draft.two_scans()?;
            let ((more, _), new) = (draft.scan(1, 1)?, draft.fresh(1)?);
            Some(each(left, pair(Aggregate::Count, new, keys(other, Equal, first), inner, more)))
        }),
        beside(12, "a Group's key of an outer row", |draft| {
            let (left, first, inner, _) = draft.two_scans()?;
            let (value, new) = (draft.fresh(1)?, draft.fresh(1)?);
            Some(some(ALWAYS, left, group(Aggregate::Count, new, keys(value, Equal, first), inner)))
        }),
        beside(12, "a Fold's aggregate column of an outer row", |draft| {
            let (left, first, inner, _) = draft.two_scans()?;
            let new = draft.fresh(1)?;
            Some(each(left, fold(Aggregate::Sum(first), new, ALWAYS, inner, Plan::Unit)))
        }),
    ]
}

/// The plan under a Select that names one of its columns, which is allowed.
fn with_names(plan: Plan, id: u8) -> Plan {
    select(number_test(id, Less, 100), plan)
}

/// Two Scans of a 16-column table with one row.
fn wide(draft: &mut Draft) -> Option<(Plan, u8)> {
    let table = draft.table(16, 1)?;
    let (one, other) = (draft.fresh(16)?, draft.fresh(16)?);
    Some((cross(scan(table, one), scan(table, other)), one))
}

/// Refusal 13.
fn width_faults() -> Vec<Fault> {
    vec![
        beside(13, "Cross 16 + 16 + 1", |draft| Some(cross(wide(draft)?.0, draft.scan(1, 1)?.0))),
        beside(13, "Cross 1 + 16 + 16", |draft| Some(cross(draft.scan(1, 1)?.0, wide(draft)?.0))),
        beside(13, "Each 16 + 16 + 1", |draft| Some(each(wide(draft)?.0, draft.scan(1, 1)?.0))),
        beside(13, "a Fold over 32 columns", |draft| {
            Some(fold(Aggregate::Count, draft.fresh(1)?, ALWAYS, wide(draft)?.0, Plan::Unit))
        }),
        beside(13, "a Pair over 32 columns", |draft| {
            let ((left, first), (right, other)) = (wide(draft)?, draft.scan(1, 1)?);
            Some(pair(Aggregate::Count, draft.fresh(1)?, keys(first, Equal, other), left, right))
        }),
        beside(13, "33 columns cut by a Project", |draft| {
            let (left, first) = wide(draft)?;
            Some(project(&[first], cross(left, draft.scan(1, 1)?.0)))
        }),
        beside(13, "33 columns of no rows", |draft| Some(cross(wide(draft)?.0, draft.scan(1, 0)?.0))),
        beside(13, "33 columns in an inner plan", |draft| {
            let inner = cross(wide(draft)?.0, draft.scan(1, 1)?.0);
            Some(some(ALWAYS, Plan::Unit, inner))
        }),
        beside(13, "33 columns right of a Semi", |draft| {
            let ((left, key), (right, first)) = (draft.scan(1, 1)?, wide(draft)?);
            Some(semi(key, first, ALWAYS, left, cross(right, draft.scan(1, 1)?.0)))
        }),
    ]
}

/// Two Scans of one column with these many rows.
fn tall(draft: &mut Draft, one: usize, other: usize) -> Option<(Plan, Plan, u8)> {
    let ((left, first), (right, _)) = (draft.scan(1, one)?, draft.scan(1, other)?);
    Some((left, right, first))
}

/// The Cross of two such Scans.
fn product(draft: &mut Draft, one: usize, other: usize) -> Option<Plan> {
    tall(draft, one, other).map(|(left, right, _)| cross(left, right))
}

/// Refusal 14.
fn bound_faults() -> Vec<Fault> {
    vec![
        beside(14, "Cross 65 x 64", |draft| product(draft, 65, 64)),
        beside(14, "Cross 64 x 65", |draft| product(draft, 64, 65)),
        beside(14, "Cross 17 x 241", |draft| product(draft, 17, 241)),
        beside(14, "Each 65 x 64", |draft| tall(draft, 65, 64).map(|(left, inner, _)| each(left, inner))),
        beside(14, "Cross 1,000 x 5", |draft| product(draft, 1000, 5)),
        beside(14, "Cross 17 x 16 x 16", |draft| {
            let table = draft.table(1, 16)?;
            let (one, other) = (draft.fresh(1)?, draft.fresh(1)?);
            Some(cross(draft.scan(1, 17)?.0, cross(scan(table, one), scan(table, other))))
        }),
        // 65,536 is 0 in 16 bits, and 65,792 is 256.
        beside(14, "Cross 64 x 64 x 16", |draft| Some(cross(product(draft, 64, 64)?, draft.scan(1, 16)?.0))),
        beside(14, "Each 16 x (64 x 64)", |draft| Some(each(draft.scan(1, 16)?.0, product(draft, 64, 64)?))),
        beside(14, "Cross 256 x 256", |draft| product(draft, 256, 256)),
        beside(14, "Each 257 x 256", |draft| tall(draft, 257, 256).map(|(left, inner, _)| each(left, inner))),
        beside(14, "Cross 65 x 64 x 0", |draft| Some(cross(product(draft, 65, 64)?, draft.scan(1, 0)?.0))),
        beside(14, "Cross 0 x (65 x 64)", |draft| Some(cross(draft.scan(1, 0)?.0, product(draft, 65, 64)?))),
        beside(14, "an Each of none with 65 x 64", |draft| Some(each(draft.scan(1, 0)?.0, product(draft, 65, 64)?))),
        beside(14, "a Distinct over Cross 65 x 64", |draft| {
            let (left, right, first) = tall(draft, 65, 64)?;
            Some(distinct(&[first], cross(left, right)))
        }),
        beside(14, "a Group beside Cross 65 x 64", |draft| {
            let (left, right, first) = tall(draft, 65, 64)?;
            let (value, new) = (draft.fresh(1)?, draft.fresh(1)?);
            Some(cross(group(Aggregate::Count, new, keys(value, Equal, first), left), right))
        }),
        beside(14, "an Each of 65 rows with 64 that no row passes", |draft| {
            let (left, inner, _) = tall(draft, 65, 64)?;
            Some(each(left, select(NEVER, inner)))
        }),
        beside(14, "Cross 65 x 64 in an inner plan", |draft| Some(some(ALWAYS, Plan::Unit, product(draft, 65, 64)?))),
        beside(14, "Cross of eight tables of 1,000 rows", |draft| {
            let table = draft.table(1, 1000)?;
            let mut plan = scan(table, draft.fresh(1)?);
            for _ in 1..8 {
                plan = cross(plan, scan(table, draft.fresh(1)?));
            }
            Some(plan)
        }),
    ]
}

/// Sets of version 2 with two faults in tables of their own or in one table, each with the number that decides.
pub fn set_pairs() -> Vec<(&'static str, u8, Vec<u8>)> {
    let written = |table: &Table| write_table(&VERSION_2, table);
    let good = written(&sized(2, 2));
    let bad_cell = written(&one_column(&[VERSION_2.largest + 1]));
    let old = write_table(&VERSION_1, &one_column(&[VERSION_1.largest + 1]));
    let header = |mark: &[u8; 3], columns: u8, rows: u16| header(&VERSION_2, mark, columns, rows);
    let eight = vec![good.clone(); 8].concat();
    let mut seven_and_bad = vec![good.clone(); 7].concat();
    seven_and_bad.extend(&bad_cell);
    vec![
        ("1 before 2: short header, wrong mark", 1, header(b"TBX", 1, 0)[..7].to_vec()),
        ("1 before 3: short header, no columns", 1, header(b"TBL", 0, 0)[..7].to_vec()),
        ("2 before 3: wrong mark, 17 columns", 2, header(b"TBX", 17, 1)),
        ("2 before 1: wrong mark, no cells", 2, header(b"XBL", 1, 1)),
        ("2 before 4: wrong mark, bad cell", 2, [b"TBX", &bad_cell[3..]].concat()),
        ("3 before 1: 17 columns, no cells", 3, header(b"TBL", 17, 1)),
        ("3 before 1: 1,001 rows, no cells", 3, header(b"TBL", 1, 1001)),
        ("3 before 4: no columns, bad cell", 3, [&header(b"TBL", 0, 1)[..], &bad_cell[8..]].concat()),
        ("1 before 4: bad cell, cells short", 1, [&header(b"TBL", 1, 2)[..], &bad_cell[8..]].concat()),
        ("1 before 4: bad cell, half a cell more", 1, [&header(b"TBL", 1, 2)[..], &bad_cell[8..], &[0, 0]].concat()),
        ("2 before 4: version 1, bad cell of version 1", 2, old.clone()),
        ("first table: 4, then one of version 1", 4, [&bad_cell[..], &old].concat()),
        ("first table: version 1, then a bad cell", 2, [&old[..], &bad_cell].concat()),
        ("5 before 2: eight tables, then one of version 1", 5, [&eight[..], &old].concat()),
        ("first table: 4, then a wrong mark", 4, [&bad_cell[..], &header(b"TBX", 1, 0)].concat()),
        ("first table: 4, then a short header", 4, [&bad_cell[..], b"TB"].concat()),
        ("first table: 4, then 17 columns", 4, [&bad_cell[..], &header(b"TBL", 17, 0)].concat()),
        ("first table: 3, then a bad cell", 3, [&header(b"TBL", 0, 0)[..], &bad_cell].concat()),
        ("first table: 2, then a short header", 2, [&header(b"TBX", 1, 0)[..], b"TB"].concat()),
        ("second table: 3, third: 2", 3, [&good[..], &header(b"TBL", 1, 2000), &header(b"TBX", 1, 1)].concat()),
        ("eighth table: 4, then a ninth", 4, [&seven_and_bad[..], &good].concat()),
        ("eighth table: 4, then one byte", 4, [&seven_and_bad[..], b"T"].concat()),
        ("5 before 1: eight tables, then a short header", 5, [&eight[..], b"TB"].concat()),
        ("5 before 2: eight tables, then a wrong mark", 5, [&eight[..], &header(b"TBX", 1, 0)].concat()),
        ("5 before 3: eight tables, then 17 columns", 5, [&eight[..], &header(b"TBL", 17, 0)].concat()),
        ("5 before 4: eight tables, then a bad cell", 5, [&eight[..], &bad_cell].concat()),
        ("5 before 1: eight tables, then cells short", 5, [&eight[..], &header(b"TBL", 1, 1)].concat()),
    ]
}
