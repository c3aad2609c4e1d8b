//! Plans of the kinds that pass rows on without a region (request K12): Select, Project, Semi, Anti, Some and Every.
//!
//! Such a node's rows may be kept in place, in the cells where its first child's rows stand, and scratch has no cell more than the need. So
//! a row that is written over another one, or over a cell of its own that is still to be read, shows in the report: all cells of the tables
//! here are different but for the keys.

use crate::build::*;
use crate::calls::report_of;
use crate::check::{bound, columns};
use crate::generate::Input;
use crate::plan::Comparison::{AtLeast, AtMost, Equal, Greater, Less, NotEqual};
use crate::plan::{Aggregate, Plan, Test, ALWAYS};
use crate::tables::Table;
use std::fmt;

/// A kind of node; a Project also by what it lists of its child's columns: all in another order (seven at most), or two of them.
#[derive(Clone, Copy, Debug, PartialEq, Eq)]
pub enum Operator {
    Select,
    ProjectRotated,
    ProjectReversed,
    ProjectShorter,
    Semi,
    Anti,
    Some,
    Every,
    Distinct,
    Sort,
    Group,
    Cross,
    Fold,
    Each,
    Pair,
}

use Operator::{Anti, Cross, Distinct, Each, Every, Fold, Group, Pair, Select, Semi, Sort};
use Operator::{ProjectReversed, ProjectRotated, ProjectShorter};

/// Those of the six kinds.
pub const PASSING: [Operator; 8] =
    [Select, ProjectRotated, ProjectReversed, ProjectShorter, Semi, Anti, Operator::Some, Every];

/// Those of the other kinds that have children.
pub const OTHERS: [Operator; 7] = [Distinct, Sort, Group, Cross, Fold, Each, Pair];

impl Operator {
    /// Whether it has two children.
    pub fn has_two(self) -> bool {
        matches!(self, Semi | Anti | Operator::Some | Every | Cross | Fold | Each | Pair)
    }

    /// Whether its second child is an inner plan.
    fn is_nested(self) -> bool {
        matches!(self, Operator::Some | Every | Fold | Each)
    }
}

/// What a plan is built of: operators over Scans of tables.
#[derive(Clone, Debug, PartialEq, Eq)]
pub enum Tree {
    Table(u8),
    One(Operator, Box<Tree>),
    Two(Operator, Box<Tree>, Box<Tree>),
}

impl fmt::Display for Tree {
    fn fmt(&self, text: &mut fmt::Formatter) -> fmt::Result {
        match self {
            Tree::Table(number) => write!(text, "{number}"),
            Tree::One(operator, child) => write!(text, "{operator:?}({child})"),
            Tree::Two(operator, first, second) => write!(text, "{operator:?}({first}, {second})"),
        }
    }
}

/// An operator over trees. One with a single child does not take the second tree.
pub fn over(operator: Operator, first: Tree, second: Tree) -> Tree {
    match operator.has_two() {
        true => Tree::Two(operator, Box::new(first), Box::new(second)),
        false => Tree::One(operator, Box::new(first)),
    }
}

/// Operators over a table, the first of them at the top. Where they have two children the second one is a Select of the other table.
pub fn chain(operators: &[Operator], table: u8) -> Tree {
    let select = || over(Select, Tree::Table(1 - table), Tree::Table(0));
    operators.iter().rev().fold(Tree::Table(table), |child, &operator| over(operator, child, select()))
}

/// The two tables, of these widths and heights: a key in the first column, and cells that stand nowhere else. Of the keys 1, 3 and 5 stand
/// in both tables.
pub fn tables(widths: [usize; 2], heights: [usize; 2]) -> Vec<Table> {
    let keys: [&[i64]; 2] = [&[2, 1, 3, 2, 5, 1, 4, 3], &[1, 3, 6, 5, 1, 7]];
    let table = |number: usize| {
        let cell = |row: usize, column: usize| match column {
            0 => keys[number][row % keys[number].len()],
            _ => (1000 * (number + 1) + 20 * row + column) as i64,
        };
        let row = |row: usize| (0..widths[number]).map(|column| cell(row, column)).collect();
        Table { columns: widths[number], rows: (0..heights[number]).map(row).collect() }
    };
    vec![table(0), table(1)]
}

/// A plan with the id of its key column.
struct Keyed {
    plan: Plan,
    key: u8,
}

/// Builds the plan of a tree over tables. Tests, lists and aggregates are taken in turn, so that rows at the front, between others and at the
/// end are dropped; in an inner plan they name the left row too.
struct Builder<'a> {
    tables: &'a [Table],
    /// The smallest id that is not yet introduced.
    free: u8,
    /// Moves on by one for each test, list and aggregate.
    turn: usize,
}

/// The plan of a tree, its tests and lists taken from this turn on.
pub fn plan_of(tree: &Tree, tables: &[Table], turn: usize) -> Plan {
    let mut builder = Builder { tables, free: 0, turn };
    builder.build(tree, None).plan
}

impl Builder<'_> {
    /// The next of these.
    fn next<T: Copy>(&mut self, of: &[T]) -> T {
        self.turn += 1;
        of[self.turn % of.len()]
    }

    /// So many ids that are not yet introduced, the first of them.
    fn fresh(&mut self, count: usize) -> u8 {
        let first = self.free;
        self.free += count as u8;
        first
    }

    /// The plan of a tree, nested in a row with the key `outer` if there is one.
    fn build(&mut self, tree: &Tree, outer: Option<u8>) -> Keyed {
        match tree {
            Tree::Table(number) => {
                let first = self.fresh(self.tables[usize::from(*number)].columns);
                Keyed { plan: scan(*number, first), key: first }
            }
            Tree::One(operator, child) => {
                let child = self.build(child, outer);
                self.one(*operator, child, outer)
            }
            Tree::Two(operator, first, second) => {
                let first = self.build(first, outer);
                let inner = if operator.is_nested() { Some(first.key) } else { outer };
                let second = self.build(second, inner);
                self.two(*operator, first, second)
            }
        }
    }

    /// A test of a key, also with that of a left row.
    fn test(&mut self, key: u8, outer: Option<u8>) -> Test {
        let own = self.next(&[number_test(key, NotEqual, 2), number_test(key, Less, 5), number_test(key, AtLeast, 2)]);
        match outer {
            Some(outer) => {
                let of_both = [Equal, AtMost, NotEqual].map(|comparison| columns_test(key, comparison, outer));
                self.next(&[own, of_both[0], of_both[1], of_both[2]])
            }
            None => own,
        }
    }

    /// A node with one child.
    fn one(&mut self, operator: Operator, Keyed { plan, key }: Keyed, outer: Option<u8>) -> Keyed {
        let ids = columns(&plan, self.tables);
        let last = ids[ids.len() - 1];
        match operator {
            Select => Keyed { plan: select(self.test(key, outer), plan), key },
            ProjectRotated => Keyed { plan: project(&rotated(&ids, key), plan), key },
            ProjectReversed => Keyed { plan: project(&reversed(&ids, key), plan), key },
            ProjectShorter => Keyed { plan: project(&shorter(&ids, key), plan), key },
            Distinct => {
                let lists = [vec![key], rotated(&ids, key), shorter(&ids, key)];
                let list = &lists[self.next(&[0, 1, 2])];
                Keyed { plan: distinct(list, plan), key }
            }
            Sort => Keyed { plan: sort(self.next(&[false, true]), &[key], plan), key },
            Group => {
                let value = self.fresh(2);
                let test = self.test(key, outer);
                let aggregate = self.next(&[Aggregate::Sum(last), Aggregate::Count]);
                let grouped = group(aggregate, value + 1, keys(value, self.next(&[Equal, AtMost]), key), plan);
                Keyed { plan: with_test(grouped, test), key: value }
            }
            _ => unreachable!("an operator with one child"),
        }
    }

    /// A node with two children.
    fn two(&mut self, operator: Operator, Keyed { plan: first, key }: Keyed, second: Keyed) -> Keyed {
        let (right, ids) = (second.key, columns(&second.plan, self.tables));
        let last = ids[ids.len() - 1];
        let second = second.plan;
        let of_both = |comparison| columns_test(key, comparison, right);
        let aggregates = [Aggregate::Sum(last), Aggregate::Count, Aggregate::Greatest(last)];
        let plan = match operator {
            Semi => semi(key, right, self.next(&[ALWAYS, of_both(AtMost), number_test(right, Less, 5)]), first, second),
            Anti => anti(key, right, self.next(&[ALWAYS, of_both(AtMost), number_test(right, Less, 3)]), first, second),
            Operator::Some => {
                some(self.next(&[of_both(Equal), of_both(Greater), number_test(key, NotEqual, 2)]), first, second)
            }
            Every => every(self.next(&[of_both(NotEqual), number_test(key, Less, 5)]), first, second),
            Cross => cross(first, second),
            Each => each(first, second),
            Fold => {
                let (new, test) = (self.fresh(1), self.next(&[ALWAYS, of_both(Equal), of_both(NotEqual)]));
                fold(self.next(&aggregates), new, test, first, second)
            }
            Pair => {
                let (new, by) = (self.fresh(1), self.next(&[Equal, AtMost, NotEqual]));
                pair(self.next(&aggregates), new, keys(key, by, right), first, second)
            }
            _ => unreachable!("an operator with two children"),
        };
        Keyed { plan, key }
    }
}

/// The most ids that a list has.
const LIST: usize = 7;

/// The ids one place on, the first one last; of more than seven the last ones, and the key in any case.
fn rotated(ids: &[u8], key: u8) -> Vec<u8> {
    with_key([&ids[1..], &ids[..1]].concat(), key)
}

/// The ids backwards; of more than seven the last ones, and the key in any case.
fn reversed(ids: &[u8], key: u8) -> Vec<u8> {
    with_key(ids.iter().rev().copied().collect(), key)
}

/// At most seven of the ids, the key among them.
fn with_key(mut list: Vec<u8>, key: u8) -> Vec<u8> {
    if list.len() > LIST {
        list.retain(|&id| id != key);
        list.truncate(LIST - 1);
        list.push(key);
    }
    list
}

/// The last id that is not the key, and the key; the key alone where there is no other.
fn shorter(ids: &[u8], key: u8) -> Vec<u8> {
    ids.iter().rev().copied().find(|&id| id != key).into_iter().chain([key]).collect()
}

/// So many turns lead to different plans.
pub const TURNS: usize = 12;

/// An input of a tree over tables of these widths and heights. Of all turns it takes the one by which most rows are left; where none is
/// dropped they count half.
fn input(tree: &Tree, widths: [usize; 2], heights: [usize; 2]) -> Input {
    let tables = tables(widths, heights);
    let rows_left = |plan: &Plan| match report_of(plan, &tables).rows {
        rows if (rows as u64) < bound(plan, &tables) => 2 * rows,
        rows => rows,
    };
    let plans = (0..TURNS).map(|turn| plan_of(tree, &tables, turn));
    let plan = plans.max_by_key(rows_left).expect("a turn");
    Input { tables, plan }
}

/// All edges of the six kinds.
pub fn edges() -> Vec<(String, Input)> {
    let mut all = Vec::new();
    let mut add = |trees: Vec<Tree>, widths: [usize; 2], heights: [usize; 2]| {
        for tree in trees {
            let name = format!("{tree} over {} x {} and {} x {}", heights[0], widths[0], heights[1], widths[1]);
            all.push((name, input(&tree, widths, heights)));
        }
    };
    // Tables of no row, of one and of several, on either side.
    for heights in [[0, 5], [1, 5], [8, 0], [8, 6]] {
        add(single_operators(), [3, 2], heights);
    }
    for heights in [[8, 6], [1, 5], [7, 1], [5, 0]] {
        add(both_children(), [3, 3], heights);
    }
    for width in [2, 3, 4, 5, 6, 7, 16] {
        add(reordered(), [width, 2], [5, 3]);
    }
    for width in [1, 7, 16] {
        add(PASSING.map(|operator| chain(&[operator], 0)).to_vec(), [width, 1], [8, 6]);
    }
    add(kept_rows(), [3, 2], [8, 6]);
    add(nested(), [3, 2], [8, 6]);
    all.extend(rows_of_no_columns());
    all.extend(with_rules());
    all.extend(at_a_room());
    all
}

/// Edges over tables of several rows.
fn of_several_rows<const COUNT: usize>(plans: [(&str, Plan); COUNT]) -> Vec<(String, Input)> {
    plans.map(|(name, plan)| (name.to_string(), Input { tables: tables([3, 2], [8, 6]), plan })).to_vec()
}

/// The six kinds over rows of no columns, which count nothing.
fn rows_of_no_columns() -> Vec<(String, Input)> {
    let unit = || select(ALWAYS, Plan::Unit);
    let chain = || project(&[2, 0, 1], select(number_test(0, NotEqual, 2), scan(0, 0)));
    of_several_rows([
        ("a Select over a Unit", unit()),
        ("a Select that drops a Unit", select(NEVER, unit())),
        ("Some over a Unit", some(number_test(0, Equal, 5), unit(), chain())),
        ("Every over a Unit", every(number_test(0, Equal, 5), cross(unit(), unit()), chain())),
        ("a Cross of a Select of a Unit", cross(unit(), chain())),
        ("a Cross with a Select of a Unit", cross(chain(), unit())),
        ("an Each of a Select of a Unit", each(unit(), chain())),
        ("a Fold of a Select of a Unit", fold(Aggregate::Sum(1), 9, ALWAYS, unit(), chain())),
    ])
}

/// Plans with chains of the six kinds on both sides where rules fit, or where U3, U4 or U6 stays: unnesting and stay notes take the values of
/// e and the right keys within the need too.
fn with_rules() -> Vec<(String, Input)> {
    let chain = |first: u8| project(&[first + 2, first], select(number_test(first, NotEqual, 2), scan(0, first)));
    let e = || distinct(&[0], chain(0));
    let same = || select(columns_test(0, Equal, 10), chain(10));
    let late = || number_test(12, Greater, 1050);
    // The right keys without 5.
    let fewer = || select(ALWAYS, select(number_test(10, NotEqual, 5), chain(10)));
    let sum = Aggregate::Sum(12);
    of_several_rows([
        ("U3 over chains", semi(0, 10, ALWAYS, e(), chain(10))),
        ("U4 over chains", anti(0, 10, late(), e(), chain(10))),
        ("U6 over chains", pair(sum, 20, keys(0, AtMost, 10), e(), chain(10))),
        ("U8 over chains", each(chain(0), select(number_test(10, Less, 4), chain(10)))),
        ("U1 to U3 over chains", some(late(), e(), same())),
        ("U2 to U4 over chains", every(late(), e(), same())),
        ("U5 and U6 over chains", fold(sum, 20, late(), e(), project(&[12], same()))),
        ("a Semi that stays over chains", semi(0, 10, ALWAYS, e(), fewer())),
        ("an Anti that stays over chains", anti(0, 10, ALWAYS, e(), fewer())),
        ("a Pair that stays over chains", pair(sum, 20, keys(0, Equal, 10), e(), fewer())),
    ])
}

/// Each operator alone, over two Scans.
fn single_operators() -> Vec<Tree> {
    PASSING.iter().chain(&OTHERS).map(|&operator| over(operator, Tree::Table(0), Tree::Table(1))).collect()
}

/// Each operator with two children over chains of the six kinds on both sides.
fn both_children() -> Vec<Tree> {
    let of_two = [Semi, Anti, Operator::Some, Every, Cross, Fold, Each, Pair];
    let passing = |place: usize| PASSING[place % PASSING.len()];
    let tree = |(place, operator): (usize, Operator)| {
        let first = chain(&[passing(place), passing(place + 3)], 0);
        let second = chain(&[passing(2 * place + 1), passing(place + 5)], 1);
        over(operator, first, second)
    };
    of_two.into_iter().enumerate().map(tree).collect()
}

/// Projects that list all columns in another order, over several rows.
fn reordered() -> Vec<Tree> {
    [
        &[ProjectRotated][..],
        &[ProjectReversed],
        &[ProjectRotated, ProjectReversed],
        &[Distinct, ProjectRotated],
        &[ProjectReversed, Select, ProjectRotated],
        &[ProjectRotated, Distinct, ProjectReversed],
    ]
    .map(|operators| chain(operators, 0))
    .to_vec()
}

/// Chains that drop rows, over a Cross and an Each, and under the other kinds.
fn kept_rows() -> Vec<Tree> {
    let mut all = Vec::new();
    let joined = |operator| over(operator, chain(&[Select], 0), chain(&[ProjectRotated, Select], 1));
    for (place, operator) in [Select, Semi, Anti, Operator::Some, Every].into_iter().enumerate() {
        let below = joined([Cross, Each][place % 2]);
        all.push(over(operator, below.clone(), chain(&[Select], 1)));
        all.push(over(
            Select,
            over(operator, over(ProjectReversed, below, Tree::Table(0)), Tree::Table(1)),
            Tree::Table(0),
        ));
    }
    for operator in OTHERS {
        all.push(over(operator, chain(&[Select, Semi], 0), chain(&[Select, ProjectRotated], 1)));
        all.push(over(operator, chain(&[ProjectRotated, Every, Select], 0), chain(&[Anti], 1)));
    }
    all.push(chain(&[Select, Semi, Operator::Some, Every, Select], 0));
    all.push(chain(&[Every, Operator::Some, Anti, ProjectReversed, Select], 0));
    all.push(chain(&[Semi, ProjectRotated, Semi, ProjectRotated, Semi], 0));
    all
}

/// Nested nodes whose inner plans are chains of the six kinds, or nested nodes again, up to three deep.
fn nested() -> Vec<Tree> {
    let nested = [Operator::Some, Every, Fold, Each];
    let mut all = Vec::new();
    for (place, operator) in nested.into_iter().enumerate() {
        let passing = |number: usize| PASSING[(place + number) % PASSING.len()];
        let inner = chain(&[passing(0), Select, passing(3)], 1);
        let left = || chain(&[passing(2), Select], 0);
        all.push(over(operator, left(), inner.clone()));
        let two_deep =
            over(nested[(place + 1) % 4], chain(&[Select, passing(4)], 1), over(Select, inner, Tree::Table(0)));
        all.push(over(operator, left(), two_deep.clone()));
        all.push(over(operator, chain(&[Select], 0), over(nested[(place + 2) % 4], chain(&[Select], 0), two_deep)));
    }
    all
}

/// Plans that need as many cells as the program has that `--bin reports` writes cases for, 16,384, and one more. Before the request both
/// needed more.
fn at_a_room() -> Vec<(String, Input)> {
    // A Cross of 256 rows of 32 columns, 8,192 cells, over two Scans of 256; above it a Select, a Semi and a Select of 32 and a Project of 4.
    let product = select(number_test(3, NotEqual, 2), cross(scan(0, 0), scan(0, 16)));
    // Right of it twelve Sorts and a Scan of 256 each, a Project and a Select of 2.
    let sorts = (0..12).fold(scan(0, 32), |plan, _| sort(false, &[33], plan));
    let right = select(number_test(33, Less, 4), project(&[33, 32], sorts));
    let cut = project(&[31, 0, 16, 1], select(ALWAYS, semi(0, 32, ALWAYS, product, right)));
    // An Every of 4 with a Scan of the rest.
    let plan = every(ALWAYS, cut, scan(1, 60));
    [("16,384 cells needed", 148), ("16,385 cells needed", 149)]
        .map(|(name, rest)| (name.into(), Input { tables: vec![sized(16, 16), sized(1, rest)], plan: plan.clone() }))
        .to_vec()
}
