//! The tables and plans that are measured.

use crate::bucket;
use second::build::*;
use second::plan::Comparison::{Equal, Greater, Less};
use second::plan::{Aggregate, Plan, Test, ALWAYS};
use second::random::Random;
use second::tables::Table;

/// A name, the tables, and a plan over them.
pub struct Question {
    pub name: &'static str,
    pub tables: Vec<Table>,
    pub plan: Plan,
}

/// A table of so many rows.
fn of_rows(height: usize, mut row: impl FnMut(usize) -> Vec<i64>) -> Table {
    let rows: Vec<Vec<i64>> = (0..height).map(&mut row).collect();
    Table { columns: rows[0].len(), rows }
}

/// Document 004, section 3.1: the books that have a review.
pub fn with_review(height: usize) -> Question {
    let random = &mut Random::new(1);
    let books = of_rows(height, |row| vec![row as i64]);
    let reviews = of_rows(height, |_| vec![random.below(2 * height) as i64]);
    let plan = some(ALWAYS, scan(0, 0), select(columns_test(0, Equal, 1), scan(1, 1)));
    Question { name: "3.1 books with a review", tables: vec![books, reviews], plan }
}

/// Section 3.2: the books that have a certain author. A row is a book and one of its two authors.
pub fn with_author(height: usize) -> Question {
    let random = &mut Random::new(2);
    let authors = of_rows(height, |row| vec![(row / 2) as i64, random.below(50) as i64]);
    let inner = select(columns_test(0, Equal, 2), scan(0, 2));
    let plan = some(number_test(3, Equal, 7), distinct(&[0], scan(0, 0)), inner);
    Question { name: "3.2 books by an author", tables: vec![authors], plan }
}

/// Section 3.3: the authors whose books are all later than 1993. A row is an author and a year.
pub fn later(height: usize) -> Question {
    let random = &mut Random::new(3);
    let years = of_rows(height, |_| vec![random.below(height / 5) as i64, 1975 + random.below(30) as i64]);
    let inner = select(columns_test(0, Equal, 2), scan(0, 2));
    let plan = every(number_test(3, Greater, 1993), distinct(&[0], scan(0, 0)), inner);
    Question { name: "3.3 authors with late books only", tables: vec![years], plan }
}

/// The deepest plan, 63 Selects over a Scan, over the largest table.
pub fn deepest() -> Question {
    let table = of_rows(1000, |row| (0..16).map(|column| (row + column) as i64).collect());
    let plan = (0..63).fold(scan(0, 0), |plan, _| select(ALWAYS, plan));
    Question { name: "63 Selects over a Scan of 16 columns", tables: vec![table], plan }
}

/// A left and a right side of so many rows each: a key out of a third as many, and a number up to 999. Over 1,000 rows they are the
/// Cross of 1,000 with a table of 2 or 4, whose rows are numbered.
struct Sides {
    tables: Vec<Table>,
    left: Plan,
    right: Plan,
    /// The columns of the left side.
    ids: Vec<u8>,
}

fn sides(height: usize) -> Sides {
    if height > 1000 {
        return crossed(height);
    }
    let random = &mut Random::new(4);
    let mut table = || of_rows(height, |_| vec![random.below(height / 3) as i64, random.below(1000) as i64]);
    Sides { tables: vec![table(), table()], left: scan(0, 0), right: scan(1, 10), ids: vec![0, 1] }
}

/// The sides of 1,000, or of so many thousands, with a Cross also where it is one thousand.
fn crossed(height: usize) -> Sides {
    let Sides { mut tables, left, right, .. } = sides(1000);
    tables.push(of_rows(height / 1000, |row| vec![row as i64]));
    Sides { tables, left: cross(left, scan(2, 2)), right: cross(right, scan(2, 12)), ids: vec![0, 1, 2] }
}

/// One question for each of the kinds that are compared, over so many rows.
pub fn kinds(height: usize) -> Vec<Question> {
    kinds_over(|| sides(height))
}

/// The same over so many thousands, with a Cross also where it is one thousand.
pub fn kinds_crossed(height: usize) -> Vec<Question> {
    kinds_over(|| crossed(height))
}

/// The key is column 0 or 10, the number column 1 or 11.
fn kinds_over(sides: impl Fn() -> Sides) -> Vec<Question> {
    let late = number_test(11, Greater, 500);
    let inner = |right| select(columns_test(0, Equal, 10), right);
    let question = |name, make: &dyn Fn(Plan, Plan, &[u8]) -> Plan| {
        let Sides { tables, left, right, ids } = sides();
        Question { name, tables, plan: make(left, right, &ids) }
    };
    vec![
        question("Select", &|left, _, _| select(number_test(1, Greater, 500), left)),
        question("Project", &|left, _, ids| project(&ids.iter().rev().copied().collect::<Vec<u8>>(), left)),
        question("Some", &|left, right, _| some(late, left, inner(right))),
        question("Every", &|left, right, _| every(late, left, inner(right))),
        question("Semi", &|left, right, _| semi(0, 10, late, left, right)),
        question("Anti", &|left, right, _| anti(0, 10, late, left, right)),
        question("Pair =", &|left, right, _| pair(Aggregate::Sum(11), 20, keys(0, Equal, 10), left, right)),
        question("Group =", &|left, _, _| group(Aggregate::Sum(1), 20, keys(21, Equal, 0), left)),
        question("Distinct", &|left, _, ids| distinct(ids, left)),
        question("Sort", &|left, _, ids| sort(false, ids, left)),
    ]
}

/// More questions at 1,000 rows: other comparisons, and rows that are the best or the worst for a kind.
pub fn more_kinds() -> Vec<Question> {
    let of_sides = |name, make: &dyn Fn(Plan, Plan) -> Plan| {
        let Sides { tables, left, right, .. } = sides(1000);
        Question { name, tables, plan: make(left, right) }
    };
    let of_table = |name, table, make: &dyn Fn(&[u8], Plan) -> Plan| Question {
        name,
        tables: vec![table],
        plan: make(&[0, 1], scan(0, 0)),
    };
    let sorted = |ids: &[u8], child| sort(false, ids, child);
    vec![
        of_sides("Pair <", &|left, right| pair(Aggregate::Sum(11), 20, keys(0, Less, 10), left, right)),
        of_sides("Group <", &|left, _| group(Aggregate::Sum(1), 20, keys(21, Less, 0), left)),
        semi_in_one_bucket(),
        of_table("Distinct, all rows different", different(), &distinct),
        of_table("Distinct, one bucket", in_one_bucket(), &distinct),
        of_table("Sort, rows sorted", of_rows(1000, |row| vec![row as i64 / 3, row as i64]), &sorted),
        of_table("Sort, rows reversed", of_rows(1000, |row| vec![333 - row as i64 / 3, 999 - row as i64]), &sorted),
        of_table("Sort, rows equal", of_rows(1000, |_| vec![7, 500]), &sorted),
        of_wide("Pair =, wide numbers", pair(Aggregate::Sum(11), 20, keys(0, Equal, 10), scan(0, 0), scan(1, 10))),
        of_wide("Group =, wide numbers", group(Aggregate::Sum(1), 20, keys(21, Equal, 0), scan(0, 0))),
        of_wide("Sort, wide numbers", sort(false, &[0, 1], scan(0, 0))),
    ]
}

/// A question over two tables of keys from end to end of the range, one for three rows, and numbers of up to 13 digits: the sum of 1,000 of
/// them is in the range.
fn of_wide(name: &'static str, plan: Plan) -> Question {
    let random = &mut Random::new(9);
    let mut key = |count: usize| random.below(count) as i64 - count as i64 / 2;
    let mut table = || of_rows(1000, |_| vec![54_000_000_000_000 * key(333), key(18_000_000_000_000)]);
    Question { name, tables: vec![table(), table()], plan }
}

/// Rows that differ in their key.
fn different() -> Table {
    let random = &mut Random::new(5);
    // 617 has no divisor in common with 1,000, so each key comes once
    of_rows(1000, |row| vec![(617 * row % 1000) as i64, random.below(1000) as i64])
}

/// Different rows that the library's hash puts into one bucket.
fn in_one_bucket() -> Table {
    Table { columns: 2, rows: bucket::rows(&mut Random::new(6), 1000) }
}

/// A Semi with different keys on each side, all in one bucket of the library's hash. One left key in two has a right row.
fn semi_in_one_bucket() -> Question {
    let random = &mut Random::new(7);
    let keys = bucket::keys(random, 1500);
    let mut side = |first: usize| of_rows(1000, |row| vec![keys[first + row], random.below(1000) as i64]);
    let tables = vec![side(0), side(500)];
    Question {
        name: "Semi, one bucket",
        tables,
        plan: semi(0, 10, number_test(11, Greater, 500), scan(0, 0), scan(1, 10)),
    }
}

/// The kinds' questions in SQL, over tables a and b with columns k and v.
pub fn in_sql(name: &str) -> &'static str {
    match name {
        "Select" => "SELECT k, v FROM a WHERE v > 500",
        "Project" => "SELECT v, k FROM a",
        "Some" => "SELECT k, v FROM a WHERE EXISTS (SELECT 1 FROM b WHERE b.k = a.k AND b.v > 500)",
        "Every" => "SELECT k, v FROM a WHERE NOT EXISTS (SELECT 1 FROM b WHERE b.k = a.k AND NOT b.v > 500)",
        "Semi" | "Semi, one bucket" => "SELECT k, v FROM a WHERE k IN (SELECT k FROM b WHERE v > 500)",
        "Anti" => "SELECT k, v FROM a WHERE k NOT IN (SELECT k FROM b WHERE v > 500)",
        "Pair =" | "Pair =, wide numbers" => "SELECT a.k, a.v, coalesce(t.s, 0) FROM a LEFT JOIN (SELECT k, sum(v) AS s FROM b GROUP BY k) t ON t.k = a.k",
        "Pair <" => "SELECT k, v, (SELECT coalesce(sum(b.v), 0) FROM b WHERE a.k < b.k) FROM a",
        "Group =" | "Group =, wide numbers" => "SELECT k, sum(v) FROM a GROUP BY k",
        "Group <" => "SELECT k, (SELECT coalesce(sum(a.v), 0) FROM a WHERE t.k < a.k) FROM (SELECT DISTINCT k FROM a) t",
        _ if name.starts_with("Distinct") => "SELECT DISTINCT k, v FROM a",
        _ if name.starts_with("Sort") => "SELECT k, v FROM a ORDER BY k, v",
        _ => unreachable!("a kind that is compared"),
    }
}

/// Questions whose inner plan names no column of the left row, so that it gives the same rows for each.
pub fn closed() -> Vec<Question> {
    let random = &mut Random::new(8);
    let left = of_rows(1000, |_| vec![random.below(333) as i64, random.below(1000) as i64]);
    let right = of_rows(1000, |_| vec![random.below(333) as i64, random.below(500) as i64]);
    let question = |name, plan| Question { name, tables: vec![left.clone(), right.clone()], plan };
    let same_key = columns_test(0, Equal, 10);
    vec![
        question("Some, column 1 < column 11", some(columns_test(1, Less, 11), scan(0, 0), scan(1, 10))),
        question("Fold, count where 0 = 10", fold(Aggregate::Count, 20, same_key, scan(0, 0), scan(1, 10))),
        question("Fold, sum where 0 = 10", fold(Aggregate::Sum(11), 20, same_key, scan(0, 0), scan(1, 10))),
        four_deep("four Somes, all closed", number_test(40, Greater, 50)),
        four_deep("four Somes, the innermost test names the outermost row", columns_test(0, Less, 40)),
    ]
}

/// Some over Some over Some over Some, each over a Scan of 8 rows. The innermost plan is a Scan of 1,000, of which only the last row passes.
fn four_deep(name: &'static str, innermost: Test) -> Question {
    let tables = vec![of_rows(8, |row| vec![row as i64]), of_rows(1000, |row| vec![if row < 999 { -1 } else { 99 }])];
    let fourth = some(innermost, scan(0, 30), scan(1, 40));
    let plan = some(ALWAYS, scan(0, 0), some(ALWAYS, scan(0, 10), some(ALWAYS, scan(0, 20), fourth)));
    Question { name, tables, plan }
}
