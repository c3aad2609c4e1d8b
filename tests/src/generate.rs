//! Random tables and random accepted plans, biased so that each of the eight rules fits often.

use crate::between::linked_key;
use crate::build::*;
use crate::cells::{BLANK, LARGEST, OFF_SCALE};
use crate::check::{bound, check_tree, columns};
use crate::downward::keeping_equal_rows;
use crate::evaluate::{column_cells, first_occurrences};
use crate::in_place::{self, Tree, OTHERS, PASSING, TURNS};
use crate::keys::AROUND_POWERS;
use crate::nodes::write_plan;
use crate::plan::{Aggregate, Comparison, Form, Keys, Plan, Test, ALWAYS, COMPARISONS};
use crate::random::Random;
use crate::rules::{fitting_steps, try_step};
use crate::tables::{write_set, Table};

/// Tables and a plan over them.
#[derive(Clone, Debug)]
pub struct Input {
    pub tables: Vec<Table>,
    pub plan: Plan,
}

impl Input {
    /// The bytes of the set.
    pub fn set_bytes(&self) -> Vec<u8> {
        write_set(&self.tables)
    }

    /// The bytes of the plan.
    pub fn plan_bytes(&self) -> Vec<u8> {
        write_plan(&self.plan)
    }
}

/// A random accepted input. Most are small; a few are at a limit of ids, nodes or bounds.
pub fn accepted(random: &mut Random) -> Input {
    loop {
        let input = match random.below(100) {
            0 => all_ids_taken(random),
            1 => bound_grows(random),
            2..=3 => with_trees(random),
            _ => drawn(random),
        };
        let small = input.plan.size() <= 64 && cost(&input.plan, &input.tables) < 20_000;
        if small && check_tree(&input.plan, &input.tables).is_ok() {
            return input;
        }
    }
}

/// A random accepted input with nodes that pass rows on without a region below both children of others.
pub fn in_place(random: &mut Random) -> Input {
    loop {
        let input = with_trees(random);
        if cost(&input.plan, &input.tables) < 20_000 && check_tree(&input.plan, &input.tables).is_ok() {
            return input;
        }
    }
}

/// A random tree of operators, three in four of them of the kinds that pass rows on, over tables of up to seven columns and eight rows. It may
/// be refused for its width or bounds.
fn with_trees(random: &mut Random) -> Input {
    let widths = [0; 2].map(|_| random.between(1, 7));
    let heights = [0; 2].map(|_| if random.chance(10) { random.below(2) } else { random.between(2, 8) });
    let tables = in_place::tables(widths, heights);
    let size = random.between(3, 8);
    let tree = random_tree(random, size);
    let plan = in_place::plan_of(&tree, &tables, random.below(TURNS));
    Input { tables, plan }
}

/// A tree of so many operators.
fn random_tree(random: &mut Random, size: usize) -> Tree {
    if size == 0 {
        return Tree::Table(random.below(2) as u8);
    }
    let operator = if random.chance(75) { random.pick(&PASSING) } else { random.pick(&OTHERS) };
    let second = if operator.has_two() { random.below(size) } else { 0 };
    let first = random_tree(random, size - 1 - second);
    in_place::over(operator, first, random_tree(random, second))
}

/// A random input drawn top down. It may be refused for its width, bounds or node count.
fn drawn(random: &mut Random) -> Input {
    let (tables, keyed) = related_tables(random);
    let depth = random.between(1, 5);
    let ids = Ids::new(random);
    let mut maker = Maker { random, tables: &tables, keyed: &keyed, ids };
    let (mut plan, _) = maker.plan(depth, &[]);
    // Now and then so many nodes that a rule which adds one cannot fit.
    if random.chance(3) {
        let wanted = random.between(62, 64);
        while plan.size() < wanted {
            plan = Plan::Select { test: ALWAYS, child: Box::new(plan) };
        }
    }
    Input { tables, plan }
}

/// A rough count of the rows looked at, so that no drawn plan takes long.
fn cost(plan: &Plan, tables: &[Table]) -> u64 {
    let children = plan.children();
    let costs: Vec<u64> = children.iter().map(|child| cost(child, tables)).collect();
    let own = bound(plan, tables).saturating_add(1);
    match plan.kind() {
        8..=11 => costs[0].saturating_add(
            bound(children[0], tables).saturating_mul(costs[1].saturating_add(bound(children[1], tables))),
        ),
        5..=7 | 12 => costs[0]
            .saturating_add(costs[1])
            .saturating_add(bound(children[0], tables).saturating_mul(bound(children[1], tables))),
        13 => costs[0].saturating_add(own.saturating_mul(own)),
        _ => costs.iter().sum::<u64>().saturating_add(own),
    }
    .saturating_add(own)
}

/// A table's column whose first occurrences are the shared key sequence.
type KeyColumn = (usize, usize);

/// Random small tables. Many columns run through one shared sequence of keys, with repeats, so
/// that first occurrences are often equal in sequence; these columns are told too.
pub fn related_tables(random: &mut Random) -> (Vec<Table>, Vec<KeyColumn>) {
    let keys = key_sequence(random);
    let count = match random.below(20) {
        0 => 0,
        1 => 8,
        _ => random.between(1, 4),
    };
    let mut tables = Vec::new();
    let mut keyed = Vec::new();
    for number in 0..count {
        let width = if random.chance(4) { random.between(5, 16) } else { random.between(1, 4) };
        let height = match random.below(10) {
            0 => 0,
            1 => random.between(0, 12),
            _ => random.between(keys.len(), keys.len() + 3),
        };
        let mut rows = vec![vec![0; width]; height];
        for column in 0..width {
            let in_sequence = random.chance(65) && height >= keys.len() && (height == 0 || !keys.is_empty());
            let cells = if in_sequence {
                keyed.push((number, column));
                run_through(random, &keys, height)
            } else {
                (0..height).map(|_| code(random)).collect()
            };
            for (row, cell) in rows.iter_mut().zip(cells) {
                row[column] = cell;
            }
        }
        tables.push(Table { columns: width, rows });
    }
    (tables, keyed)
}

/// A few different codes, most of them small numbers.
fn key_sequence(random: &mut Random) -> Vec<i64> {
    let mut keys = Vec::new();
    for _ in 0..random.between(0, 5) {
        let key = code(random);
        if !keys.contains(&key) {
            keys.push(key);
        }
    }
    keys
}

/// A column of a given height whose first occurrences are the keys.
fn run_through(random: &mut Random, keys: &[i64], height: usize) -> Vec<i64> {
    let mut seen = 0;
    let mut cells = Vec::new();
    while cells.len() < height {
        let left = height - cells.len();
        if seen < keys.len() && (seen == 0 || left <= keys.len() - seen || random.chance(50)) {
            seen += 1;
            cells.push(keys[seen - 1]);
        } else {
            cells.push(keys[random.below(seen)]);
        }
    }
    cells
}

/// A code of a cell: mostly small numbers, some blank, off scale, at the ends of the range, around powers of two, or alike with a small one in
/// their lower 32 bits.
pub fn code(random: &mut Random) -> i64 {
    match random.below(40) {
        0..=3 => BLANK,
        4..=5 => OFF_SCALE,
        6..=7 => random.pick(&[LARGEST, LARGEST - 1, -LARGEST, 1 - LARGEST]),
        8..=9 => random.pick(&[30, 31, 36, -30]),
        10 => random.pick(&AROUND_POWERS),
        11 => alike_with_small(random),
        _ => small(random),
    }
}

/// A small number.
fn small(random: &mut Random) -> i64 {
    random.below(7) as i64 - 2
}

/// A number that is alike with a small one in its lower 32 bits.
fn alike_with_small(random: &mut Random) -> i64 {
    small(random) + (random.pick(&[-2_000_000, -1, 1, 2_000_000]) << 32)
}

/// A number for a test.
fn number(random: &mut Random) -> i64 {
    match random.below(24) {
        0..=1 => random.pick(&[LARGEST, -LARGEST, LARGEST - 1]),
        2..=3 => 30,
        4 => random.pick(&AROUND_POWERS),
        5 => alike_with_small(random),
        _ => small(random),
    }
}

/// The ids that a plan under way has introduced, and which of the others are taken next: the first, the last, or any.
pub struct Ids {
    used: [bool; 256],
    style: usize,
}

impl Ids {
    /// None introduced yet.
    pub fn new(random: &mut Random) -> Ids {
        Ids { used: [false; 256], style: random.below(4) }
    }

    /// So many ids in a row that are not yet introduced; none when no run is left.
    pub fn fresh(&mut self, random: &mut Random, width: usize) -> Option<u8> {
        let free = |start: usize| (start..start + width).all(|id| !self.used[id]);
        let starts: Vec<usize> = (0..=256 - width).filter(|&start| free(start)).collect();
        if starts.is_empty() {
            return None;
        }
        let start = match self.style {
            0 => starts[0],
            1 => starts[starts.len() - 1],
            _ => random.pick(&starts),
        };
        for id in start..start + width {
            self.used[id] = true;
        }
        Some(start as u8)
    }
}

/// Draws plans whose names are all in view.
struct Maker<'a> {
    random: &'a mut Random,
    tables: &'a [Table],
    keyed: &'a [KeyColumn],
    ids: Ids,
}

/// A plan with the columns it gives.
type Drawn = (Plan, Vec<u8>);

impl Maker<'_> {
    /// A plan at most so deep, nested in rows with the columns `outer`.
    fn plan(&mut self, depth: usize, outer: &[u8]) -> Drawn {
        if depth == 0 {
            return self.leaf();
        }
        match self.random.below(100) {
            0..=7 => self.leaf(),
            8..=27 => self.over_one(depth, outer),
            28..=33 => self.cross(depth, outer),
            34..=55 => self.matching(depth, outer),
            56..=72 => self.quantified(depth, outer),
            73..=81 => self.folded(depth, outer),
            82..=89 => self.each(depth, outer),
            _ => self.paired(depth, outer),
        }
    }

    /// So many ids in a row that no plan part has yet introduced; none when no run is left.
    fn fresh(&mut self, width: usize) -> Option<u8> {
        self.ids.fresh(self.random, width)
    }

    /// Scan mostly, else Unit.
    fn leaf(&mut self) -> Drawn {
        if self.tables.is_empty() || self.random.chance(4) {
            return (Plan::Unit, vec![]);
        }
        let table = self.random.below(self.tables.len());
        self.scan(table)
    }

    /// Scan of one table under fresh ids.
    fn scan(&mut self, table: usize) -> Drawn {
        let width = self.tables[table].columns;
        match self.fresh(width) {
            Some(first) => {
                let ids = (0..width as u8).map(|column| first + column).collect();
                (Plan::Scan { table: table as u8, first }, ids)
            }
            None => (Plan::Unit, vec![]),
        }
    }

    /// A test over columns in view.
    fn test(&mut self, view: &[u8]) -> Test {
        let comparison = self.comparison();
        let form = match self.random.below(10) {
            _ if view.is_empty() => Form::Always,
            0..=1 => Form::Always,
            2..=5 => Form::Columns(comparison, self.random.pick(view), self.random.pick(view)),
            _ => {
                let number = number(self.random);
                Form::Number(comparison, self.random.pick(view), number)
            }
        };
        Test { form, not: self.random.chance(25) }
    }

    fn comparison(&mut self) -> Comparison {
        self.random.pick(&COMPARISONS)
    }

    /// A list of one to four different ids out of some.
    fn list(&mut self, ids: &[u8]) -> Vec<u8> {
        let mut list = Vec::new();
        let longest = if self.random.chance(5) { 7 } else { 4 };
        for _ in 0..self.random.between(1, longest) {
            let id = self.random.pick(ids);
            if !list.contains(&id) {
                list.push(id);
            }
        }
        list
    }

    /// An aggregate over some columns.
    fn aggregate(&mut self, ids: &[u8]) -> Aggregate {
        if ids.is_empty() {
            return Aggregate::Count;
        }
        let id = self.random.pick(ids);
        match self.random.below(4) {
            0 => Aggregate::Count,
            1 => Aggregate::Sum(id),
            2 => Aggregate::Least(id),
            _ => Aggregate::Greatest(id),
        }
    }

    /// Select, Project, Distinct, Group or Sort.
    fn over_one(&mut self, depth: usize, outer: &[u8]) -> Drawn {
        let (child, ids) = self.plan(depth - 1, outer);
        let view = [&ids, outer].concat();
        let child = Box::new(child);
        let kind = if ids.is_empty() { 0 } else { self.random.below(6) };
        match kind {
            0 | 1 => (Plan::Select { test: self.test(&view), child }, ids),
            2 => {
                let list = self.list(&ids);
                (Plan::Project { list: list.clone(), child }, list)
            }
            3 => {
                let list = self.list(&ids);
                (Plan::Distinct { list: list.clone(), child }, list)
            }
            4 => (Plan::Sort { down: self.random.chance(50), list: self.list(&ids), child }, ids),
            _ => {
                let (Some(value), Some(new)) = (self.fresh(1), self.fresh(1)) else {
                    return (*child, ids);
                };
                let keys = Keys { left: value, comparison: self.comparison(), right: self.random.pick(&ids) };
                let aggregate = self.aggregate(&ids);
                let test = self.test(&view);
                (Plan::Group { aggregate, new, keys, test, child }, vec![value, new])
            }
        }
    }

    fn cross(&mut self, depth: usize, outer: &[u8]) -> Drawn {
        let (left, left_ids) = self.plan(depth - 1, outer);
        let (right, right_ids) = self.plan(depth - 1, outer);
        (Plan::Cross { left: Box::new(left), right: Box::new(right) }, [left_ids, right_ids].concat())
    }

    /// A closed plan with a column whose first occurrences are often the shared keys.
    fn keyed_source(&mut self, depth: usize) -> Option<(Plan, Vec<u8>, u8)> {
        if self.keyed.is_empty() {
            return None;
        }
        let (table, column) = self.random.pick(self.keyed);
        let (scan, ids) = self.scan(table);
        let key = *ids.get(column)?;
        if depth == 0 {
            return Some((scan, ids, key));
        }
        let left = Box::new(scan);
        let (plan, ids) = match self.random.below(12) {
            0 => {
                let (right, more) = self.plan(depth - 1, &[]);
                (Plan::Cross { left, right: Box::new(right) }, [ids, more].concat())
            }
            1 => {
                let (inner, more) = self.plan(depth - 1, &ids);
                (Plan::Each { left, inner: Box::new(inner) }, [ids, more].concat())
            }
            2 => {
                let new = self.fresh(1)?;
                let (inner, more) = self.keyed_inner(depth - 1, &ids, &[]);
                let test = self.test(&[ids.clone(), more.clone()].concat());
                let aggregate = self.aggregate(&more);
                (Plan::Fold { aggregate, new, test, left, inner: Box::new(inner) }, [ids, vec![new]].concat())
            }
            3 => (Plan::Select { test: self.test(&ids), child: left }, ids),
            4 => (Plan::Project { list: vec![key], child: left }, vec![key]),
            5 => {
                let (inner, more) = self.keyed_inner(depth - 1, &ids, &[]);
                let test = self.test(&[ids.clone(), more].concat());
                (Plan::Every { test, left, inner: Box::new(inner) }, ids)
            }
            6 => (Plan::Sort { down: self.random.chance(30), list: vec![key], child: left }, ids),
            _ => (*left, ids),
        };
        Some((plan, ids, key))
    }

    /// A left side for Semi, Anti and Pair: often a Distinct of one key over a closed plan.
    fn left_side(&mut self, depth: usize, outer: &[u8]) -> (Plan, Vec<u8>, Option<u8>) {
        if self.random.chance(70) {
            let below = self.random.below(depth + 1);
            if let Some((child, ids, key)) = self.keyed_source(below) {
                let list = if self.random.chance(92) { vec![key] } else { self.list(&ids) };
                return (Plan::Distinct { list: list.clone(), child: Box::new(child) }, list, Some(key));
            }
        }
        let (plan, ids) = self.plan(depth, outer);
        (plan, ids, None)
    }

    /// A right side: often a closed plan with a key column, sometimes under a Select.
    fn right_side(&mut self, depth: usize, outer: &[u8]) -> (Plan, Vec<u8>, Option<u8>) {
        let below = self.random.below(depth + 1);
        let keyed = if self.random.chance(75) { self.keyed_source(below) } else { None };
        let (plan, ids, key) = match keyed {
            Some((plan, ids, key)) => (plan, ids, Some(key)),
            None => {
                let (plan, ids) = self.plan(depth, outer);
                (plan, ids, None)
            }
        };
        if self.random.chance(30) {
            let view = if self.random.chance(85) { ids.clone() } else { [&ids, outer].concat() };
            return (Plan::Select { test: self.test(&view), child: Box::new(plan) }, ids, key);
        }
        (plan, ids, key)
    }

    /// One of the columns, mostly the key.
    fn key_of(&mut self, ids: &[u8], key: Option<u8>) -> u8 {
        match key {
            Some(key) if ids.contains(&key) && self.random.chance(95) => key,
            _ => self.random.pick(ids),
        }
    }

    /// Semi or Anti: shapes for U3, U4 and U7.
    fn matching(&mut self, depth: usize, outer: &[u8]) -> Drawn {
        let (left, left_ids, left_key) = self.left_side(depth - 1, outer);
        let (right, right_ids, right_key) = self.right_side(depth - 1, outer);
        if left_ids.is_empty() || right_ids.is_empty() {
            return (left, left_ids);
        }
        let test = match self.random.below(10) {
            0..=4 => ALWAYS,
            5..=7 => self.test(&right_ids),
            _ => self.test(&[&left_ids, &right_ids, outer].concat()),
        };
        let left_key = self.key_of(&left_ids, left_key);
        let right_key = self.key_of(&right_ids, right_key);
        let (left, right) = (Box::new(left), Box::new(right));
        if self.random.chance(50) {
            (Plan::Semi { left_key, right_key, test, left, right }, left_ids)
        } else {
            (Plan::Anti { left_key, right_key, test, left, right }, left_ids)
        }
    }

    /// An inner plan for rows with the columns `left`: often a Select that compares one of them
    /// with a column of its child, as U1, U2 and U5 need it.
    fn keyed_inner(&mut self, depth: usize, left: &[u8], outer: &[u8]) -> Drawn {
        let nested = [left, outer].concat();
        if left.is_empty() || self.random.chance(15) {
            return self.plan(depth, &nested);
        }
        let view = if self.random.chance(85) { outer } else { &nested };
        let (child, ids, key) = self.right_side(depth, view);
        if ids.is_empty() {
            return (child, ids);
        }
        let own = self.random.pick(left);
        let other = self.key_of(&ids, key);
        let comparison = if self.random.chance(60) { Comparison::Equal } else { self.comparison() };
        let form = if self.random.chance(50) {
            Form::Columns(comparison, own, other)
        } else {
            Form::Columns(comparison, other, own)
        };
        let test = Test { form, not: self.random.chance(5) };
        (Plan::Select { test, child: Box::new(child) }, ids)
    }

    /// Some or Every: shapes for U1 and U2, and for U7 and U3 or U4 after them.
    fn quantified(&mut self, depth: usize, outer: &[u8]) -> Drawn {
        let (left, left_ids, _) = self.left_side(depth - 1, outer);
        let (inner, inner_ids) = self.keyed_inner(depth - 1, &left_ids, outer);
        let test = match self.random.below(10) {
            0..=1 => ALWAYS,
            2..=6 => self.test(&inner_ids),
            _ => self.test(&[&left_ids, &inner_ids, outer].concat()),
        };
        let (left, inner) = (Box::new(left), Box::new(inner));
        if self.random.chance(50) {
            (Plan::Some { test, left, inner }, left_ids)
        } else {
            (Plan::Every { test, left, inner }, left_ids)
        }
    }

    /// Fold: shapes for U5, and for U6 after it.
    fn folded(&mut self, depth: usize, outer: &[u8]) -> Drawn {
        let (left, left_ids, _) = self.left_side(depth - 1, outer);
        let (inner, inner_ids) = self.keyed_inner(depth - 1, &left_ids, outer);
        let Some(new) = self.fresh(1) else {
            return (left, left_ids);
        };
        let view = match self.random.below(10) {
            0..=6 => inner_ids.clone(),
            _ => [&left_ids, &inner_ids, outer].concat(),
        };
        let test = self.test(&view);
        let aggregate = self.aggregate(&inner_ids);
        let ids = [left_ids, vec![new]].concat();
        (Plan::Fold { aggregate, new, test, left: Box::new(left), inner: Box::new(inner) }, ids)
    }

    /// Each: the inner plan often closed, as U8 needs it.
    fn each(&mut self, depth: usize, outer: &[u8]) -> Drawn {
        let (left, left_ids) = self.plan(depth - 1, outer);
        let view = match self.random.below(10) {
            0..=5 => vec![],
            _ => [&left_ids, outer].concat(),
        };
        let (inner, inner_ids) = self.plan(depth - 1, &view);
        (Plan::Each { left: Box::new(left), inner: Box::new(inner) }, [left_ids, inner_ids].concat())
    }

    /// Pair: shapes for U6.
    fn paired(&mut self, depth: usize, outer: &[u8]) -> Drawn {
        let (left, left_ids, left_key) = self.left_side(depth - 1, outer);
        let (right, right_ids, right_key) = self.right_side(depth - 1, outer);
        if left_ids.is_empty() || right_ids.is_empty() {
            return (left, left_ids);
        }
        let Some(new) = self.fresh(1) else {
            return (left, left_ids);
        };
        let keys = Keys {
            left: self.key_of(&left_ids, left_key),
            comparison: self.comparison(),
            right: self.key_of(&right_ids, right_key),
        };
        let view = match self.random.below(10) {
            0..=6 => right_ids.clone(),
            _ => [&left_ids, &right_ids, outer].concat(),
        };
        let test = self.test(&view);
        let aggregate = self.aggregate(&right_ids);
        let ids = [left_ids, vec![new]].concat();
        (Plan::Pair { aggregate, new, keys, test, left: Box::new(left), right: Box::new(right) }, ids)
    }
}

/// A Semi or Anti that is right for U3 or U4 but for the ids: all 256 are introduced, or one is
/// left (then it is c).
pub fn all_ids_taken(random: &mut Random) -> Input {
    let codes: Vec<i64> = (0..16).map(|_| code(random)).collect();
    let wide = Table { columns: 16, rows: vec![codes] };
    let key = random.below(16) as u8;
    let left = Plan::Distinct { list: vec![key], child: Box::new(Plan::Scan { table: 0, first: 0 }) };
    let right = Plan::Scan { table: 0, first: 16 };
    let right_key = 16 + if random.chance(80) { key } else { random.below(16) as u8 };
    let (left, right) = (Box::new(left), Box::new(right));
    let mut plan = if random.chance(50) {
        Plan::Semi { left_key: key, right_key, test: ALWAYS, left, right }
    } else {
        Plan::Anti { left_key: key, right_key, test: ALWAYS, left, right }
    };
    let last_is_narrow = random.chance(50);
    for number in 2..16u8 {
        let narrow = last_is_narrow && number == 15;
        let scan = Plan::Scan { table: u8::from(narrow), first: 16 * number };
        let cut = Plan::Project { list: vec![16 * number], child: Box::new(scan) };
        plan = Plan::Cross { left: Box::new(plan), right: Box::new(cut) };
    }
    let narrow = Table { columns: 15, rows: vec![vec![BLANK; 15]] };
    Input { tables: vec![wide, narrow], plan }
}

/// A Semi, Anti or Pair that is right for its rule, below a Cross or Each whose bound grows with
/// the step, sometimes over 4,096.
pub fn bound_grows(random: &mut Random) -> Input {
    let keys: Vec<i64> = (0..4).collect();
    let short = one_column(&keys);
    let height = random.between(62, 66);
    let long = one_column(&run_through(random, &keys, height));
    let other = one_column(&vec![1; random.between(63, 65)]);
    let (left, right) = (Box::new(of_two_columns(random)), Box::new(Plan::Scan { table: 2, first: 9 }));
    let plan = if random.chance(50) { Plan::Cross { left, right } } else { Plan::Each { left, inner: right } };
    Input { tables: vec![short, long, other], plan }
}

/// A Semi, Anti or Pair of a Distinct of table 0 with table 1, each of one column, that is right for its rule if the sequences
/// are equal.
fn of_two_columns(random: &mut Random) -> Plan {
    of_two_keys(random, (distinct(&[0], scan(0, 0)), 0), (scan(1, 1), 1))
}

/// A Semi, Anti or Pair of two plans, each with its key. Neither plan introduces the id 2.
fn of_two_keys(random: &mut Random, (left, left_key): (Plan, u8), (right, right_key): (Plan, u8)) -> Plan {
    match random.below(3) {
        0 => semi(left_key, right_key, ALWAYS, left, right),
        1 => anti(left_key, right_key, ALWAYS, left, right),
        _ => {
            let keys = keys(left_key, random.pick(&COMPARISONS), right_key);
            pair(Aggregate::Sum(right_key), 2, keys, left, right)
        }
    }
}

/// A Semi, Anti or Pair whose sequences have a beginning in common, now and then a long one. After it each has up to three
/// cells of its own.
pub fn common_beginning(random: &mut Random) -> Input {
    let beginning = match random.below(20) {
        0 => (0..random.between(100, 990) as i64).collect(),
        _ => key_sequence(random),
    };
    let mut column = || {
        let height = if beginning.is_empty() { 0 } else { beginning.len() + random.below(4) };
        let mut cells = run_through(random, &beginning, height);
        cells.extend((0..random.below(4)).map(|_| code(random)));
        one_column(&cells)
    };
    let tables = vec![column(), column()];
    Input { tables, plan: of_two_columns(random) }
}

/// A Fold, a Pair or a Group, mostly of a sum, over cells that are often blank, off scale or at the ends of the range.
pub fn totals(random: &mut Random) -> Input {
    let tables = vec![scores(random), scores(random)];
    let (rows, key, cell) = rows_to_sum(random);
    let aggregate = match random.below(20) {
        0 => Aggregate::Count,
        1 => Aggregate::Least(cell),
        2 => Aggregate::Greatest(cell),
        _ => Aggregate::Sum(cell),
    };
    let comparison = if random.chance(60) { Comparison::Equal } else { random.pick(&COMPARISONS) };
    let test = match random.below(3) {
        0 => {
            let test = number_test(random.pick(&[key, cell]), random.pick(&COMPARISONS), number(random));
            Test { not: random.chance(50), ..test }
        }
        _ => ALWAYS,
    };
    let left = distinct(&[0], scan(random.below(2) as u8, 0));
    let plan = match random.below(3) {
        0 => fold(aggregate, 50, test, left, select(columns_test(0, comparison, key), rows)),
        1 => with_test(pair(aggregate, 50, keys(0, comparison, key), left, rows), test),
        _ => with_test(group(aggregate, 50, keys(51, comparison, key), rows), test),
    };
    Input { tables, plan }
}

/// A table of a key, out of four or blank, and two cells. Those of a key are blank or one of two codes.
fn scores(random: &mut Random) -> Table {
    let codes = [BLANK, OFF_SCALE, OFF_SCALE, LARGEST, LARGEST, LARGEST, -LARGEST, 1];
    let cells = [0; 4].map(|_| [BLANK, random.pick(&codes), random.pick(&codes)]);
    let height = if random.chance(10) { 0 } else { random.between(6, 16) };
    let mut row = || {
        let key = random.below(4);
        let code = if random.chance(10) { BLANK } else { key as i64 };
        vec![code, random.pick(&cells[key]), random.pick(&cells[key])]
    };
    Table { columns: 3, rows: (0..height).map(|_| row()).collect() }
}

/// Rows with the ids of a key and of a cell: those of table 1, or an Each of table 0 with them, or table 0 with sums over them.
fn rows_to_sum(random: &mut Random) -> (Plan, u8, u8) {
    let cell = random.pick(&[11, 12]);
    match random.below(5) {
        0 => (each(scan(0, 20), select(columns_test(20, Comparison::Equal, 10), scan(1, 10))), 20, cell),
        1 => {
            let keys = keys(20, random.pick(&COMPARISONS), 10);
            (pair(Aggregate::Sum(cell), 30, keys, scan(0, 20), scan(1, 10)), 20, 30)
        }
        _ => (scan(1, 10), 10, cell),
    }
}

/// A plan whose first node compares, mostly by ≠, cells that are often blank or off scale: in its test, in that of its inner plan, or as
/// keys.
pub fn unequal(random: &mut Random) -> Input {
    let tables = vec![scores(random), scores(random)];
    let comparison = if random.chance(80) { Comparison::NotEqual } else { random.pick(&COMPARISONS) };
    let key: u8 = random.pick(&[10, 11, 12]);
    // The left rows are the values of the right key, as U3, U4 and U6 need them, or those of the other table.
    let (left, own) = if random.chance(60) {
        (distinct(&[key - 10], scan(1, 0)), key - 10)
    } else {
        (scan(0, 0), random.pick(&[0, 1, 2]))
    };
    let form = match random.below(3) {
        0 => columns_test(own, comparison, 12),
        1 => columns_test(12, comparison, 11),
        _ => number_test(12, comparison, random.pick(&[1, LARGEST, -LARGEST])),
    };
    let test = Test { not: random.chance(30), ..form };
    let (right, own_test) = (scan(1, 10), random.pick(&[ALWAYS, test]));
    let aggregate = random.pick(&[Aggregate::Count, Aggregate::Sum(12), Aggregate::Least(12)]);
    let sides = if random.chance(50) { columns_test(own, comparison, key) } else { columns_test(key, comparison, own) };
    let same_key = select(columns_test(own, Comparison::Equal, key), right.clone());
    let plan = match random.below(10) {
        0..=1 => select(test, cross(left, right)),
        2 => some(test, left, same_key),
        3 => every(test, left, same_key),
        4 => semi(own, key, test, left, right),
        5 => anti(own, key, test, left, right),
        6 => fold(aggregate, 50, own_test, left, select(Test { not: random.chance(10), ..sides }, right)),
        7 => with_test(pair(aggregate, 50, keys(own, comparison, key), left, right), own_test),
        _ => group(aggregate, 50, keys(51, comparison, key), right),
    };
    Input { tables, plan }
}

/// A plan with a downward Sort over rows that are often equal in all listed columns. Their order decides the report of a node above it, or
/// the sequences of a Semi, an Anti or a Pair, so that U3, U4 or U6 fits or does not.
pub fn downward(random: &mut Random) -> Input {
    let mut tables = vec![equal_scores(random)];
    let list = downward_list(random, 10);
    if random.chance(40) {
        return Input { tables, plan: over_list(random, list) };
    }
    // A table of the players, or of the numbers, in the list's order or in that of a list which keeps equal rows as they came.
    let key = random.pick(&[11, 12]);
    let order = if random.chance(50) { list.clone() } else { keeping_equal_rows(&list) };
    let values = first_occurrences(&column_cells(&order, key, &tables));
    let height = if values.is_empty() { 0 } else { values.len() + random.below(3) };
    tables.push(one_column(&run_through(random, &values, height)));
    // The list stands in f, in e, or in both, there as two lists of one table.
    let (e, f) = match random.below(3) {
        0 => ((distinct(&[0], scan(1, 0)), 0), (list, key)),
        1 => ((distinct(&[key], list), key), (scan(1, 0), 0)),
        _ => ((distinct(&[key], list), key), (downward_list(random, 20), key + 10)),
    };
    let of_f = number_test(f.1, random.pick(&COMPARISONS), number(random));
    let test = if random.chance(30) { of_f } else { ALWAYS };
    Input { tables, plan: with_test(of_two_keys(random, e, f), test) }
}

/// A table of a score and a player, each out of a few codes, and of the row's number, which tells equal rows apart.
fn equal_scores(random: &mut Random) -> Table {
    let scores = [0; 2].map(|_| random.pick(&[BLANK, OFF_SCALE, 31, 36]));
    let players = [code(random), code(random), code(random), 5, 6];
    let height = if random.chance(5) { random.below(3) } else { random.between(3, 10) };
    let row = |number: usize| vec![random.pick(&scores), random.pick(&players), number as i64];
    Table { columns: 3, rows: (0..height).map(row).collect() }
}

/// A downward Sort of table 0, whose ids begin here: mostly alone, else over a Sort or under one.
fn downward_list(random: &mut Random, first: u8) -> Plan {
    let (score, player) = (first, first + 1);
    let lists = [vec![score], vec![score], vec![player], vec![score, player], vec![player, score]];
    let (own, other) = (random.pick(&lists), random.pick(&lists));
    let down = |child| sort(true, &own, child);
    match random.below(8) {
        0 => down(down(scan(0, first))),
        1 => down(sort(random.chance(50), &other, scan(0, first))),
        2 => sort(random.chance(50), &other, down(scan(0, first))),
        _ => down(scan(0, first)),
    }
}

/// A node over a list of table 0 whose rows come in an order that the list decides, or the list itself.
fn over_list(random: &mut Random, list: Plan) -> Plan {
    let ids = random.pick(&[vec![10], vec![11], vec![12], vec![11, 10], vec![12, 11]]);
    match random.below(6) {
        0 => list,
        1 => project(&ids, list),
        2 | 3 => distinct(&ids, list),
        4 => sort(random.chance(50), &ids, list),
        _ => group(Aggregate::Sum(12), 50, keys(51, random.pick(&COMPARISONS), 11), list),
    }
}

/// A random accepted input with something between a Some, an Every or a Fold and the Select that links its inner plan: a Project that lists
/// the key, one that does not, two Projects, a Distinct or a Sort.
pub fn with_between(random: &mut Random) -> Input {
    loop {
        let Input { tables, plan } = accepted(random);
        let with_between = put_between(random, &plan, &tables);
        if with_between != plan && with_between.size() <= 64 && check_tree(&with_between, &tables).is_ok() {
            return Input { tables, plan: with_between };
        }
    }
}

/// The plan with something between most of its nested nodes and the Selects that link their inner plans.
fn put_between(random: &mut Random, plan: &Plan, tables: &[Table]) -> Plan {
    let mut all = plan.clone();
    // From the last place on, so that the places before stay as they are.
    for place in (0..plan.size()).rev() {
        let node = all.at_mut(place).expect("a place of the plan");
        if let Some(key) = linked_key(node, tables) {
            let named = named_of_inner(node);
            let inner = &mut *node.children_mut()[1];
            *inner = under_between(random, inner, &named, key, tables);
        }
    }
    all
}

/// The ids that a nested node names where it may name columns of its inner plan: in its test and its aggregate.
fn named_of_inner(node: &Plan) -> Vec<u8> {
    let aggregated = match node {
        Plan::Fold { aggregate, .. } => aggregate.column(),
        _ => None,
    };
    node.test().map_or(vec![], Test::names).into_iter().chain(aggregated).collect()
}

/// An inner plan, a Select with this key, under something that keeps the named ones of its columns; now and then the plan itself.
fn under_between(random: &mut Random, inner: &Plan, named: &[u8], key: u8, tables: &[Table]) -> Plan {
    let ids = columns(inner, tables);
    let others: Vec<u8> = ids.iter().copied().filter(|&id| id != key).collect();
    let named: Vec<u8> = ids.iter().copied().filter(|id| named.contains(id)).collect();
    let child = inner.clone();
    match random.below(10) {
        0..=1 => project(&longer_list(random, &[&named[..], &[key]].concat(), &ids), child),
        // A key that is named, or the only column, must be listed.
        2..=5 if !others.is_empty() => project(&longer_list(random, &named, &others), child),
        2..=5 => project(&[key], child),
        6 => {
            let upper = longer_list(random, &named, &ids);
            project(&upper, project(&longer_list(random, &upper, &ids), child))
        }
        7 => distinct(&longer_list(random, &named, &ids), child),
        8 => sort(random.chance(50), &longer_list(random, &[], &ids), child),
        _ => child,
    }
}

/// A list of these ids, which are at most seven, and of a few out of some others; none twice, in any order.
fn longer_list(random: &mut Random, first: &[u8], others: &[u8]) -> Vec<u8> {
    let mut list = Vec::new();
    let few: Vec<u8> = (0..random.between(usize::from(first.is_empty()), 3)).map(|_| random.pick(others)).collect();
    for &id in first.iter().chain(&few) {
        if list.len() < 7 && !list.contains(&id) {
            list.insert(random.below(list.len() + 1), id);
        }
    }
    list
}

/// A list of steps to try on a plan: some fit where they stand, some do not.
pub fn steps(random: &mut Random, input: &Input) -> Vec<(u8, u8)> {
    let mut plan = input.plan.clone();
    let mut steps = Vec::new();
    for _ in 0..random.between(0, 12) {
        let fitting = fitting_steps(&plan, &input.tables);
        let (rule, place) = if !fitting.is_empty() && random.chance(60) {
            random.pick(&fitting)
        } else {
            (random.below(10) as u8, random.below(plan.size() + 3) as u8)
        };
        steps.push((rule, place));
        plan = try_step(&plan, rule, usize::from(place), &input.tables);
    }
    steps
}
