//! Random inputs with many rows, tables of up to 1,000 and Crosses of up to 4,096, and what of them was met.
//!
//! They are for what may be done otherwise where there are many rows: keys looked up by a hash and not row by row, rows sorted by merging,
//! an inner plan run once where no left row can change it.

use crate::build::*;
use crate::cells::{BLANK, LARGEST, OFF_SCALE};
use crate::check::{bound, check_tree, columns};
use crate::evaluate::rows;
use crate::generate::{code, Ids, Input};
use crate::keys::{anywhere, bucket, column, pool, rows_in_one_bucket};
use crate::plan::Comparison::Equal;
use crate::plan::{Aggregate, Comparison, Form, Keys, Plan, Test, COMPARISONS};
use crate::random::Random;
use crate::rules::{is_closed, names_from_outside};
use crate::tables::Table;

/// Numbers of rows around powers of two, around 32, and at the ends.
pub const HEIGHTS: [usize; 23] =
    [0, 1, 2, 3, 4, 5, 31, 32, 33, 63, 64, 65, 127, 128, 129, 255, 256, 257, 511, 512, 513, 999, 1000];

/// A random accepted input with many rows, whose work is below a limit.
pub fn large(random: &mut Random, limit: u64) -> Input {
    loop {
        let keys = pool(random);
        let tables = tables(random, &keys);
        // Heights that suit a plan are rare where the limit is low, so some plans are tried over each set.
        for _ in 0..4 {
            let ids = Ids::new(random);
            let mut maker = Maker { random, tables: &tables, numbers: &keys, ids };
            let depth = maker.random.pick(&[1, 2, 2, 3, 3]);
            let Some(Drawn { plan, .. }) = maker.node(depth, &[]) else { continue };
            if work(&plan, &tables) < limit && check_tree(&plan, &tables).is_ok() {
                return Input { tables, plan };
            }
        }
    }
}

/// How many rows, or pairs of rows, the second evaluator looks at.
pub fn work(plan: &Plan, tables: &[Table]) -> u64 {
    let children = plan.children();
    let below: Vec<u64> = children.iter().map(|child| work(child, tables)).collect();
    let bounds: Vec<u64> = children.iter().map(|child| bound(child, tables)).collect();
    let [first, second] = [0, 1].map(|number| bounds.get(number).copied().unwrap_or(1));
    let own = match plan.kind() {
        // First occurrences are looked for among all earlier rows.
        4 | 13 => first.saturating_mul(first),
        14 => first.saturating_mul(16),
        0 | 1 => bound(plan, tables),
        _ => first.saturating_mul(second),
    };
    let runs = if plan.is_nested() { first } else { 1 };
    let inner = below.get(1).map_or(0, |work| work.saturating_mul(runs));
    own.saturating_add(inner).saturating_add(below.first().copied().unwrap_or(0))
}

/// Four tables: two large ones, one of up to 64 rows, and one of very few.
fn tables(random: &mut Random, keys: &[i64]) -> Vec<Table> {
    let heights = [height(random, 1000), height(random, 1000), height(random, 64), random.below(4)];
    let wide = random.chance(8);
    heights.map(|height| table(random, keys, height, wide)).to_vec()
}

/// A number of rows up to a most.
fn height(random: &mut Random, most: usize) -> usize {
    match random.below(10) {
        0..=5 => random.pick(&HEIGHTS).min(most),
        6 => most,
        _ => random.between(0, most),
    }
}

/// A table of up to five columns, now and then of 16. Most columns have keys, others cells of all sorts, cells near
/// one end of the range, or the row's number.
fn table(random: &mut Random, keys: &[i64], height: usize, wide: bool) -> Table {
    let width = if wide && height <= 64 { 16 } else { random.between(1, 5) };
    let one_column = |random: &mut Random| match random.below(10) {
        0..=4 => column(random, keys, height),
        5..=6 => (0..height).map(|_| code(random)).collect(),
        7 => column(random, &keys[..keys.len().min(2)], height),
        8 => near_one_end(random, height),
        _ => (0..height as i64).collect(),
    };
    let mut cells: Vec<Vec<i64>> = (0..width).map(|_| one_column(random)).collect();
    if width >= 2 && random.chance(15) {
        let count = random.between(2, 40);
        let shared = rows_in_one_bucket(random, count);
        let drawn: Vec<[i64; 2]> = (0..height).map(|_| random.pick(&shared)).collect();
        cells[0] = drawn.iter().map(|row| row[0]).collect();
        cells[1] = drawn.iter().map(|row| row[1]).collect();
    }
    Table { columns: width, rows: (0..height).map(|row| cells.iter().map(|column| column[row]).collect()).collect() }
}

/// A column of cells most of which are near one end of the range, so that sums of many rows leave 64 bits.
fn near_one_end(random: &mut Random, height: usize) -> Vec<i64> {
    let (end, others) = (random.pick(&[-1, 1]), random.pick(&[0, 2, 10]));
    let mut cell = || match random.below(100) {
        number if number < others => anywhere(random),
        _ => end * (LARGEST - random.below(4) as i64),
    };
    (0..height).map(|_| cell()).collect()
}

/// A plan, the columns that it gives, and one of them that is compared mostly.
struct Drawn {
    plan: Plan,
    ids: Vec<u8>,
    key: u8,
}

/// Draws plans whose names are all in view. There is none where the ids run out.
struct Maker<'a> {
    random: &'a mut Random,
    tables: &'a [Table],
    numbers: &'a [i64],
    ids: Ids,
}

impl Maker<'_> {
    /// A node over others, at most so deep, nested in rows of which it may name the columns `outer`.
    fn node(&mut self, depth: usize, outer: &[u8]) -> Option<Drawn> {
        match self.random.below(100) {
            0..=18 => self.matching(depth, outer),
            19..=34 => self.paired(depth, outer),
            35..=47 => self.grouped(depth, outer),
            48..=58 => self.distinct(depth, outer),
            59..=68 => self.sorted(depth, outer),
            69..=73 => self.selected(depth, outer),
            74..=79 => self.of_one_table(),
            _ => self.nested(depth, outer),
        }
    }

    /// A Scan, a Cross, or another node below a node. A large one has one of the two large tables.
    fn source(&mut self, depth: usize, large: bool, outer: &[u8]) -> Option<Drawn> {
        match self.random.below(100) {
            0..=14 => self.cross(large),
            15..=49 if depth > 1 => self.node(depth - 1, outer),
            _ => self.scan(large),
        }
    }

    fn scan(&mut self, large: bool) -> Option<Drawn> {
        let number = self.random.below(2) + if large { 0 } else { 2 };
        self.scan_of(number)
    }

    /// A Scan of a table under new ids.
    fn scan_of(&mut self, number: usize) -> Option<Drawn> {
        let width = self.tables[number].columns;
        let first = self.ids.fresh(self.random, width)?;
        let ids: Vec<u8> = (0..width as u8).map(|column| first + column).collect();
        let key = if self.random.chance(60) { first } else { self.random.pick(&ids) };
        Some(Drawn { plan: scan(number as u8, first), ids, key })
    }

    /// A Cross of two Scans, the large table on either side.
    fn cross(&mut self, large: bool) -> Option<Drawn> {
        let (left, right) = if self.random.chance(50) { (large, false) } else { (false, large) };
        let (left, right) = (self.scan(left)?, self.scan(right)?);
        let key = self.random.pick(&[left.key, right.key]);
        Some(Drawn { plan: cross(left.plan, right.plan), ids: [left.ids, right.ids].concat(), key })
    }

    /// The two children of a node that is not nested; small right sides are looked up in another way, so they are drawn often too.
    fn both(&mut self, depth: usize, outer: &[u8]) -> Option<(Drawn, Drawn)> {
        let (left, right) = self.random.pick(&[(true, true), (true, true), (true, false), (false, true)]);
        Some((self.source(depth, left, outer)?, self.source(depth, right, outer)?))
    }

    /// A test whose sides are in any of the views.
    fn test(&mut self, views: &[&[u8]]) -> Test {
        let views: Vec<&[u8]> = views.iter().copied().filter(|view| !view.is_empty()).collect();
        if views.is_empty() || self.random.chance(30) {
            return Test { form: Form::Always, not: self.random.chance(5) };
        }
        let comparison = self.random.pick(&COMPARISONS);
        let [left, right] = [0; 2].map(|_| {
            let view = self.random.pick(&views);
            self.random.pick(view)
        });
        let form = if self.random.chance(50) {
            Form::Columns(comparison, left, right)
        } else {
            Form::Number(comparison, left, self.number())
        };
        Test { form, not: self.random.chance(25) }
    }

    /// A number for a test: a key, or a small one.
    fn number(&mut self) -> i64 {
        let small = self.random.below(9) as i64 - 3;
        let key = self.random.pick(self.numbers);
        self.random.pick(&[small, key])
    }

    /// The key mostly, else any column.
    fn key_of(&mut self, drawn: &Drawn) -> u8 {
        if self.random.chance(85) {
            drawn.key
        } else {
            self.random.pick(&drawn.ids)
        }
    }

    fn comparison(&mut self) -> Comparison {
        if self.random.chance(60) {
            Equal
        } else {
            self.random.pick(&COMPARISONS)
        }
    }

    /// An aggregate over some columns.
    fn aggregate(&mut self, ids: &[u8]) -> Aggregate {
        let id = self.random.pick(ids);
        self.random.pick(&[Aggregate::Count, Aggregate::Sum(id), Aggregate::Least(id), Aggregate::Greatest(id)])
    }

    /// A list of one to seven columns, mostly with the key.
    fn list(&mut self, drawn: &Drawn) -> Vec<u8> {
        let most = self.random.pick(&[1, 2, 3, 7]);
        let mut list = if self.random.chance(80) { vec![drawn.key] } else { vec![self.random.pick(&drawn.ids)] };
        for _ in 1..most {
            let id = self.random.pick(&drawn.ids);
            if !list.contains(&id) {
                list.insert(self.random.below(list.len() + 1), id);
            }
        }
        list
    }

    /// Semi or Anti.
    fn matching(&mut self, depth: usize, outer: &[u8]) -> Option<Drawn> {
        let (left, right) = self.both(depth, outer)?;
        let test = self.test(&[&left.ids, &right.ids, outer]);
        let (left_key, right_key) = (self.key_of(&left), self.key_of(&right));
        let by = if self.random.chance(50) { semi } else { anti };
        Some(Drawn { plan: by(left_key, right_key, test, left.plan, right.plan), ..left })
    }

    fn paired(&mut self, depth: usize, outer: &[u8]) -> Option<Drawn> {
        let (left, right) = self.both(depth, outer)?;
        let new = self.ids.fresh(self.random, 1)?;
        let test = self.test(&[&left.ids, &right.ids, outer]);
        let keys = Keys { left: self.key_of(&left), comparison: self.comparison(), right: self.key_of(&right) };
        let aggregate = self.aggregate(&right.ids);
        let plan = with_test(pair(aggregate, new, keys, left.plan, right.plan), test);
        Some(Drawn { plan, ids: [left.ids, vec![new]].concat(), key: left.key })
    }

    fn grouped(&mut self, depth: usize, outer: &[u8]) -> Option<Drawn> {
        let child = self.source(depth, true, outer)?;
        let (value, new) = (self.ids.fresh(self.random, 1)?, self.ids.fresh(self.random, 1)?);
        let test = self.test(&[&child.ids, outer]);
        let keys = Keys { left: value, comparison: self.comparison(), right: self.key_of(&child) };
        let plan = with_test(group(self.aggregate(&child.ids), new, keys, child.plan), test);
        Some(Drawn { plan, ids: vec![value, new], key: value })
    }

    fn distinct(&mut self, depth: usize, outer: &[u8]) -> Option<Drawn> {
        let child = self.source(depth, true, outer)?;
        let list = self.list(&child);
        let key = if list.contains(&child.key) { child.key } else { list[0] };
        Some(Drawn { plan: distinct(&list, child.plan), ids: list, key })
    }

    fn sorted(&mut self, depth: usize, outer: &[u8]) -> Option<Drawn> {
        let child = self.source(depth, true, outer)?;
        let list = self.list(&child);
        Some(Drawn { plan: sort(self.random.chance(50), &list, child.plan), ..child })
    }

    /// A Select, or a Project of up to seven columns.
    fn selected(&mut self, depth: usize, outer: &[u8]) -> Option<Drawn> {
        let child = self.source(depth, true, outer)?;
        if self.random.chance(60) {
            let test = self.test(&[&child.ids, outer]);
            return Some(Drawn { plan: select(test, child.plan), ..child });
        }
        let list = self.list(&child);
        let key = if list.contains(&child.key) { child.key } else { list[0] };
        Some(Drawn { plan: project(&list, child.plan), ids: list, key })
    }

    /// A node over the keys of a table and its rows, so that its rules fit, U3, U4 and U6 among them; or over some of the keys, or in another
    /// order, so that these stay.
    fn of_one_table(&mut self) -> Option<Drawn> {
        let number = self.random.below(4);
        let (keys_of, rows) = (self.scan_of(number)?, self.scan_of(number)?);
        let new = self.ids.fresh(self.random, 1)?;
        let place = self.random.below(keys_of.ids.len());
        let (key, right) = (keys_of.ids[place], rows.ids[place]);
        let of_keys = match self.random.below(10) {
            0..=1 => sort(self.random.chance(50), &[key], keys_of.plan),
            2..=3 => select(self.test(&[&keys_of.ids]), keys_of.plan),
            _ => keys_of.plan,
        };
        let left = distinct(&[key], of_keys);
        let test = self.test(&[&rows.ids]);
        let linked = select(columns_test(key, Equal, right), rows.plan.clone());
        let aggregate = self.aggregate(&rows.ids);
        let plan = match self.random.below(6) {
            0 => semi(key, right, test, left, rows.plan),
            1 => anti(key, right, test, left, rows.plan),
            2 => some(test, left, linked),
            3 => every(test, left, linked),
            4 => fold(aggregate, new, test, left, linked),
            _ => with_test(pair(aggregate, new, keys(key, self.comparison(), right), left, rows.plan), test),
        };
        let ids = columns(&plan, self.tables);
        Some(Drawn { plan, ids, key })
    }

    /// Some, Every, Fold or Each.
    fn nested(&mut self, depth: usize, outer: &[u8]) -> Option<Drawn> {
        let large = self.random.chance(25);
        let left = self.source(depth, large, outer)?;
        // What the inner plan may name: nothing, rows further out alone, the left row, or all.
        let view = match self.random.below(10) {
            0..=1 => vec![],
            2..=5 if !outer.is_empty() => outer.to_vec(),
            2..=7 => left.ids.clone(),
            _ => [&left.ids, outer].concat(),
        };
        let inner = match depth > 1 && self.random.chance(60) {
            true => self.nested(depth - 1, &view)?,
            false => self.inner(depth, &view)?,
        };
        let test = self.test(&[&left.ids, &inner.ids, outer]);
        let aggregate = self.aggregate(&inner.ids);
        let key = left.key;
        let plan = match self.random.below(4) {
            0 => some(test, left.plan, inner.plan),
            1 => every(test, left.plan, inner.plan),
            2 => fold(aggregate, self.ids.fresh(self.random, 1)?, test, left.plan, inner.plan),
            _ => each(left.plan, inner.plan),
        };
        let ids = columns(&plan, self.tables);
        Some(Drawn { plan, ids, key })
    }

    /// An inner plan: a Select that may compare with what is in view, or another node; now and then it gives no rows.
    fn inner(&mut self, depth: usize, view: &[u8]) -> Option<Drawn> {
        let drawn = if depth == 1 || self.random.chance(40) {
            let large = self.random.chance(50);
            let child = self.source(1, large, view)?;
            let linked = self.linked(&child, view);
            Drawn { plan: select(linked, child.plan), ..child }
        } else {
            self.node(depth - 1, view)?
        };
        if self.random.chance(10) {
            return Some(Drawn { plan: select(NEVER, drawn.plan), ..drawn });
        }
        Some(drawn)
    }

    /// A test that compares the key with a column in view, or any other test.
    fn linked(&mut self, child: &Drawn, view: &[u8]) -> Test {
        if view.is_empty() || self.random.chance(30) {
            return self.test(&[&child.ids, view]);
        }
        columns_test(self.random.pick(view), self.comparison(), child.key)
    }
}

/// What the nodes of some plans were given. Those over a plan that names rows further out are not looked at, but for inner plans.
#[derive(Clone, Default, Debug)]
pub struct Met {
    /// Semis and Antis, Pairs by =, Groups by = and Distincts, by the rows that keys are looked up in: none, up to 32, more.
    pub looked_up: [[usize; 3]; 4],
    /// Those of them, with more than 32 rows, where blank stands on both sides; off scale on both; different keys in one bucket; and where
    /// all keys are equal; all different; where different ones are alike in the lower 32 bits. In a Distinct the keys are its rows.
    pub keys: [usize; 6],
    /// Sorts by their rows: up to 1, to 32, to 255, to 999, more.
    pub sorts: [usize; 5],
    /// Those of them with rows equal in all listed columns.
    pub equal_rows: usize,
    /// Inner plans that name nothing from outside; rows further out alone; the left row; the left row in inner plans of their own alone.
    pub inner: [usize; 4],
    /// Those that name nothing and give no rows.
    pub empty: usize,
}

impl Met {
    /// Counts what an accepted plan has of these.
    pub fn count(&mut self, plan: &Plan, tables: &[Table]) {
        for node in plan.nodes() {
            if node.is_nested() {
                self.count_inner(node, tables);
            } else if node.children().iter().all(|child| is_closed(child, tables)) {
                self.count_keys(node, tables);
                self.count_sort(node, tables);
            }
        }
    }

    /// Counts the keys that a node looks up by =.
    fn count_keys(&mut self, node: &Plan, tables: &[Table]) {
        let Some((kind, (left, right))) = keys_by_equal(node, tables) else { return };
        let size = match right.len() {
            0 => 0,
            1..=32 => 1,
            _ => 2,
        };
        self.looked_up[kind][size] += 1;
        if size < 2 {
            return;
        }
        let on_both = |code: i64| [&left, &right].iter().all(|side| side.contains(&vec![code]));
        let keys = different(right.clone());
        let buckets = different(keys.iter().map(|key| bucket(key)).collect());
        let one_bucket = buckets.len() < keys.len();
        let lower: Vec<Vec<u32>> = keys.iter().map(|key| key.iter().map(|&cell| cell as u32).collect()).collect();
        let alike_below = different(lower).len() < keys.len();
        let (one, all) = (keys.len() == 1, keys.len() == right.len());
        let met = [on_both(BLANK), on_both(OFF_SCALE), one_bucket, one, all, alike_below];
        self.keys.iter_mut().zip(met).for_each(|(count, met)| *count += usize::from(met));
    }

    /// Counts a Sort.
    fn count_sort(&mut self, node: &Plan, tables: &[Table]) {
        let Plan::Sort { list, child, .. } = node else { return };
        let listed = rows(&project(list, child.as_ref().clone()), tables, None);
        let size = [1, 32, 255, 999].iter().filter(|&&most| listed.len() > most).count();
        self.sorts[size] += 1;
        self.equal_rows += usize::from(different(listed.clone()).len() < listed.len());
    }

    /// Counts an inner plan.
    fn count_inner(&mut self, node: &Plan, tables: &[Table]) {
        let [left, inner] = node.children()[..] else { return };
        let left_ids = columns(left, tables);
        let of_left = |ids: Vec<u8>| ids.iter().any(|id| left_ids.contains(id));
        let named = names_from_outside(inner, tables);
        let kind = match named.is_empty() {
            true => 0,
            false if !of_left(named) => 1,
            false if of_left(own_names(inner)) => 2,
            false => 3,
        };
        self.inner[kind] += 1;
        self.empty += usize::from(kind == 0 && rows(inner, tables, None).is_empty());
    }

    /// The counts as lines of text.
    pub fn lines(&self) -> String {
        self.key_lines() + &self.sort_line() + &self.inner_line()
    }

    /// The counts of keys, as two lines of text.
    pub fn key_lines(&self) -> String {
        let kinds = ["Semis and Antis", "Pairs by =", "Groups by =", "Distincts"];
        let of_kind = |(kind, [none, few, many]): (&str, [usize; 3])| format!("{kind} {none}, {few}, {many}");
        let looked_up: Vec<String> = kinds.into_iter().zip(self.looked_up).map(of_kind).collect();
        let [blank, off_scale, shared, equal, different, alike_below] = self.keys;
        format!("keys looked up in no rows, in up to 32, in more: {}\n", looked_up.join("; "))
            + &format!("of those in more: blank on both sides {blank}, off scale on both {off_scale}, ")
            + &format!("different keys in one bucket {shared}, all equal {equal}, all different {different}, ")
            + &format!("different keys alike in their lower 32 bits {alike_below}\n")
    }

    /// The counts of Sorts, as a line of text.
    pub fn sort_line(&self) -> String {
        let [one, few, some, many, most] = self.sorts;
        format!("Sorts of up to 1 row {one}, to 32 {few}, to 255 {some}, to 999 {many}, of more {most}, ")
            + &format!("with rows equal in all listed columns {}\n", self.equal_rows)
    }

    /// The counts of inner plans, as a line of text.
    pub fn inner_line(&self) -> String {
        let [closed, further, left, deep] = self.inner;
        format!("inner plans that name nothing from outside {closed} (without rows {}), ", self.empty)
            + &format!("rows further out alone {further}, the left row {left}, ")
            + &format!("the left row in inner plans of their own alone {deep}\n")
    }
}

/// Rows of keys that are looked up, and those that they are looked up in.
type Sides = (Vec<Vec<i64>>, Vec<Vec<i64>>);

/// The keys that a node compares by =, for a Semi or an Anti (0), a Pair (1), a Group (2) and a Distinct (3). Of the last two both sides are of
/// the child.
fn keys_by_equal(node: &Plan, tables: &[Table]) -> Option<(usize, Sides)> {
    let cells = |child: &Plan, list: &[u8]| rows(&project(list, child.clone()), tables, None);
    match node {
        Plan::Semi { left_key, right_key, left, right, .. } | Plan::Anti { left_key, right_key, left, right, .. } => {
            Some((0, (cells(left, &[*left_key]), cells(right, &[*right_key]))))
        }
        Plan::Pair { keys, left, right, .. } if keys.comparison == Equal => {
            Some((1, (cells(left, &[keys.left]), cells(right, &[keys.right]))))
        }
        Plan::Group { keys, child, .. } if keys.comparison == Equal => {
            let all = cells(child, &[keys.right]);
            Some((2, (all.clone(), all)))
        }
        Plan::Distinct { list, child } => {
            let all = cells(child, list);
            Some((3, (all.clone(), all)))
        }
        _ => None,
    }
}

/// The different ones of some values.
fn different<T: Ord>(mut values: Vec<T>) -> Vec<T> {
    values.sort_unstable();
    values.dedup();
    values
}

/// The ids that the tests in a plan name, but for those in inner plans.
fn own_names(plan: &Plan) -> Vec<u8> {
    let children = plan.children();
    let outside = if plan.is_nested() { &children[..1] } else { &children[..] };
    let below = outside.iter().flat_map(|child| own_names(child));
    plan.test().map_or(vec![], Test::names).into_iter().chain(below).collect()
}
