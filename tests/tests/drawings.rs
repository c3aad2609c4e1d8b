//! The drawings: nodes in words, and rows of nodes in nested plans.

use second::build::*;
use second::drawings::{drawings, tree_drawing, words};
use second::edges::every_kind;
use second::plan::Comparison::{Equal, Less};
use second::plan::{Aggregate, Plan, ALWAYS};

#[test]
fn every_kind_has_its_words() {
    let tables = [sized(2, 4), sized(3, 3)];
    let all: Vec<String> = every_kind().nodes().into_iter().map(|node| words(node, &tables)).collect();
    let expected = [
        "Sort down c43 c0",
        "Cross",
        "Unit",
        "Each",
        "Every c60 ≤ 6",
        "Some c50 > 0",
        "Fold sum of c41 as c43",
        "Anti c1 = c31, c30 ≠ c0",
        "Semi c0 = c23, c22 < 5",
        "Pair c0 ≤ c10, greatest of c12 as c13",
        "Scan of table 0 as c0 c1",
        "Scan of table 1 as c10 c11 c12",
        "Group c23 ≥ c20, least of c21 as c22",
        "Scan of table 0 as c20 c21",
        "Distinct c31 c30",
        "Scan of table 0 as c30 c31",
        "Select c1 = c40",
        "Scan of table 1 as c40 c41 c42",
        "Scan of table 0 as c50 c51",
        "Project c60",
        "Scan of table 0 as c60 c61",
        "Select c70 = c13",
        "Scan of table 0 as c70 c71",
    ];
    assert_eq!(all, expected);
}

#[test]
fn tests_stand_after_the_words_of_their_kinds() {
    let tables = [sized(1, 1)];
    let not = columns_test(0, Less, 1).not_turned();
    let with = |plan: Plan| words(&with_test(plan, not), &tables);
    let pairs = pair(Aggregate::Count, 2, keys(0, Equal, 1), scan(0, 0), scan(0, 1));
    assert_eq!(with(pairs), "Pair c0 = c1, count as c2, not c0 < c1");
    assert_eq!(with(fold(Aggregate::Count, 2, ALWAYS, scan(0, 0), scan(0, 1))), "Fold count as c2, not c0 < c1");
    assert_eq!(words(&select(NEVER, scan(0, 0)), &tables), "Select not always");
    assert_eq!(words(&sort(false, &[0], scan(0, 0)), &tables), "Sort up c0");
}

#[test]
fn nested_rows_stand_inside_their_left_rows() {
    let tables = [one_column(&[1, 2]), one_column(&[2]), one_column(&[])];
    let innermost = cross(select(columns_test(0, Equal, 1), scan(1, 1)), Plan::Unit);
    let inner = each(scan(1, 2), innermost);
    let text = tree_drawing(&every(ALWAYS, each(scan(0, 0), inner), scan(2, 3)), &tables);
    let expected = "\
place                                    columns   bound  rows
0  Every always                          c0 c2 c1  2      (1 2 -) (2 2 2)
1  ├─ Each                               c0 c2 c1  2      (1 2 -) (2 2 2)
2  │  ├─ Scan of table 0 as c0           c0        2      (1) (2)
3  │  └─ Each                            c2 c1     1      inside (1): (2 -); inside (2): (2 2)
4  │     ├─ Scan of table 1 as c2        c2        1      (2)
5  │     └─ Cross                        c1        1      inside (1) (2): none; inside (2) (2): (2)
6  │        ├─ Select c0 = c1            c1        1      inside (1) (2): none; inside (2) (2): (2)
7  │        │  └─ Scan of table 1 as c1  c1        1      (2)
8  │        └─ Unit                      none      1      ()
9  └─ Scan of table 2 as c3              c3        0      none
weight 5; need 3 + 6 + 2 + 2 + 1 + 1 + 1 + 1 + 0 + 0 + 4,096 = 4,113
";
    assert_eq!(text, expected);
}

#[test]
fn drawings_end_their_lines_well() {
    for (name, text) in drawings() {
        assert!(text.ends_with('\n') && text.lines().all(|line| line == line.trim_end()), "{name}");
    }
}
