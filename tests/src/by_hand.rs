//! Calls for the prize fund table (request K4) whose answers were worked out by hand. The second evaluator and the archive are both held to them.

use crate::build::*;
use crate::cases::one_of_each_refusal;
use crate::cells::{BLANK, LARGEST, OFF_SCALE};
use crate::nodes::write_plan;
use crate::plan::Comparison::Less;
use crate::plan::Plan;
use crate::prizes::{Fund, Prizes, LARGEST_PURSE};
use crate::tables::{write_set, Table};

/// A call with the room that it has, and its answer.
#[derive(Clone)]
pub struct Example {
    pub name: &'static str,
    pub set: Vec<u8>,
    pub plan: Vec<u8>,
    pub fund: Fund,
    pub out_cells: usize,
    pub scratch_cells: usize,
    pub answer: Result<Prizes, u8>,
}

/// Three shares and four that sum to 10,000.
const THREE: [u32; 3] = [5000, 3000, 2000];
const FOUR: [u32; 4] = [4000, 3000, 2000, 1000];

/// All of them: tables first, then refusals.
pub fn examples() -> Vec<Example> {
    [ties(), no_ties(), gaps(), places(), purses(), cells(), other_plans(), refused(), in_order(), after_the_input()]
        .concat()
}

/// A table of players and scores.
fn list(rows: &[[i64; 2]]) -> Table {
    Table { columns: 2, rows: rows.iter().map(|row| row.to_vec()).collect() }
}

/// The prize fund table of a Scan of such a table, with no more room than is needed: two cells a row, and in scratch 4,096 more.
fn paid(name: &'static str, rows: &[[i64; 2]], purse: u64, shares: &[u32], pence: &[u64], club_line: u64) -> Example {
    assert_eq!(rows.len(), pence.len(), "{name}");
    let players = rows.iter().map(|row| row[0]);
    Example {
        name,
        set: write_set(&[list(rows)]),
        plan: write_plan(&scan(0, 0)),
        fund: Fund { purse, shares: shares.to_vec() },
        out_cells: 2 * rows.len(),
        scratch_cells: 4096 + 2 * rows.len(),
        answer: Ok(Prizes { rows: players.zip(pence.iter().copied()).collect(), club_line }),
    }
}

/// Rows that pool their pence.
fn ties() -> Vec<Example> {
    vec![
        // 500.5, 300.3 and 200.2 rounded down leave a penny, which goes to the first place: 501, 300, 200. Players 4 and 9 pool 300 and 200. The
        // fourth place has no share.
        paid("a tie", &[[7, 70], [4, 71], [9, 71], [2, 73]], 1_001, &THREE, &[501, 250, 250, 0], 0),
        // 402, 301.5, 201 and 100.5 leave a penny: 403, 301, 201, 100. Player 4 has no score, so 301 are the club's. The three after pool 201,
        // 100 and 0, which are 301: 100 each, and the odd penny to the first of them.
        paid(
            "a blank, and a tie across the last share",
            &[[7, 68], [4, BLANK], [9, 70], [2, 70], [5, 70]],
            1_005,
            &FOUR,
            &[403, 0, 101, 100, 100],
            301,
        ),
        // 60.6 and 40.4 leave a penny: 61, 40. Three pool 40 and twice 0: 13 each, and the odd penny to the first. The fifth is past it all.
        paid(
            "one share for three",
            &[[1, 60], [2, 61], [3, 61], [4, 61], [5, 62]],
            101,
            &[6000, 4000],
            &[61, 14, 13, 13, 0],
            0,
        ),
        // 50, 30 and 20: all 100 for six, 16 each, and the four odd pence to the first four.
        paid("all equal", &[[1, 8], [2, 8], [3, 8], [4, 8], [5, 8], [6, 8]], 100, &THREE, &[17, 17, 17, 17, 16, 16], 0),
        // Two pools beside each other: 40 and 30 are 70, and 20 and 10 are 30.
        paid("two ties", &[[1, 5], [2, 5], [3, 6], [4, 6]], 100, &FOUR, &[35, 35, 15, 15], 0),
        // Past the last share there is nothing to pool.
        paid("a tie past the last share", &[[1, 70], [2, 71], [3, 71]], 9, &[10_000], &[9, 0, 0], 0),
        // 19 places of 1 penny and one of 0, as 0.95 are rounded down. The last two pool 1 penny.
        paid("odd penny of the last share", &last_two_equal(), 19, &[500; 20], &[&[1; 19][..], &[0]].concat(), 0),
    ]
}

/// Twenty rows, of which only the last two have equal scores.
fn last_two_equal() -> Vec<[i64; 2]> {
    (1..=20).map(|row| [row, row.min(19)]).collect()
}

/// Rows that do not pool.
fn no_ties() -> Vec<Example> {
    vec![
        // 300, 180 and 120, each alone: the two scores of 70 are not adjacent.
        paid("equal scores that are not adjacent", &[[1, 70], [2, 71], [3, 70]], 600, &THREE, &[300, 180, 120], 0),
        // The same amounts: the first row is the best, whatever its score is.
        paid("scores in no order", &[[1, 90], [2, 70], [3, 80]], 600, &THREE, &[300, 180, 120], 0),
        // The players are equal, and the scores are not. They do not pool: 300, 180, 120.
        paid("a player three times", &[[1, 70], [1, 71], [1, 72]], 600, &THREE, &[300, 180, 120], 0),
    ]
}

/// Blank and off-scale scores.
fn gaps() -> Vec<Example> {
    let mut all = Vec::new();
    for gap in [BLANK, OFF_SCALE] {
        // 400, 300, 200, 100: the first two pool 700, the third place's 200 are the club's, the last two pool 100 and 0.
        let inside = [[1, 70], [2, 70], [3, gap], [4, 70], [5, 70]];
        all.push(paid("no score inside a tie", &inside, 1_000, &FOUR, &[350, 350, 0, 50, 50], 200));
        // 400 and 300 are the club's; the two scores after them pool 200 and 100. Nobody moves up.
        let first = [[1, gap], [2, gap], [3, 70], [4, 70], [5, gap]];
        all.push(paid("no score twice in front", &first, 1_000, &FOUR, &[0, 0, 150, 150, 0], 700));
        // The odd penny: 101 for two.
        let last = [[1, 70], [2, 70], [3, gap], [4, gap]];
        all.push(paid("no score twice at the end", &last, 101, &[10_000], &[51, 50, 0, 0], 0));
    }
    // Nobody has a score: all is the club's, also what is left over: 33.33, 33.33 and 33.34 leave a penny.
    let none = [[1, BLANK], [2, BLANK], [3, OFF_SCALE], [4, OFF_SCALE], [5, BLANK]];
    all.push(paid("nobody has a score", &none, 100, &[3333, 3333, 3334], &[0; 5], 100));
    // A blank beside an off-scale score: 400 and 300 are the club's, 200 are paid, and the fourth place is past the last row.
    let both = [[1, OFF_SCALE], [2, BLANK], [3, -70]];
    all.push(paid("both in front", &both, 1_000, &FOUR, &[0, 0, 200], 800));
    all
}

/// More shares than rows, more rows than shares, and pence left over.
fn places() -> Vec<Example> {
    vec![
        // 50 and 30 are paid; 15 and 5 are the club's.
        paid("more shares than rows", &[[3, 80], [8, 81]], 100, &[5000, 3000, 1500, 500], &[50, 30], 20),
        // As the two are equal they pool 80, and still not the places past the last row.
        paid("more shares than rows that tie", &[[3, 80], [8, 80]], 100, &[5000, 3000, 1500, 500], &[40, 40], 20),
        paid("more rows than shares", &[[1, 60], [2, 61], [3, 62], [4, 63]], 100, &[7000, 3000], &[70, 30, 0, 0], 0),
        paid("no rows", &[], 1_001, &THREE, &[], 1_001),
        paid("no rows and no purse", &[], 0, &[10_000], &[], 0),
        // 0.833 five times and 0.835 leave all five pence: one each to the first five places, of which rows reach two.
        paid("left over where no row is", &[[1, 70], [2, 71]], 5, &[1666, 1666, 1666, 1666, 1666, 1670], &[1, 1], 3),
        // 0, 0.5 and 0.5: the penny left over is the first place's, though its share is 0.
        paid("left over to a share of 0", &[[1, 70], [2, 71], [3, 72]], 1, &[0, 5000, 5000], &[1, 0, 0], 0),
        // 0 and 1: nothing is left over.
        paid("a first share of 0", &[[1, 70], [2, 71]], 1, &[0, 10_000], &[0, 1], 0),
        // 3 for the last place. 0, 0, 0, 3 leave nothing, and rows do not reach it.
        paid("the last share alone", &[[1, 70], [2, 71], [3, 72]], 3, &[0, 0, 0, 10_000], &[0, 0, 0], 3),
        // 1.667 and twice 1.6665 leave two: 2, 2, 1.
        paid(
            "rounded down and not to the nearest",
            &[[1, 70], [2, 71], [3, 72]],
            5,
            &[3334, 3333, 3333],
            &[2, 2, 1],
            0,
        ),
        // 2.5 twice: 3 and 2.
        paid("halves", &[[1, 70], [2, 71]], 5, &[5000, 5000], &[3, 2], 0),
    ]
}

/// The ends of what purses and shares may be.
fn purses() -> Vec<Example> {
    let twentieth = LARGEST_PURSE / 20;
    let twenty: Vec<[i64; 2]> = (1..=20).map(|row| [row, 100 + row]).collect();
    vec![
        paid("no purse", &[[1, 70], [2, 70], [3, BLANK]], 0, &THREE, &[0, 0, 0], 0),
        paid("a penny", &[[1, 70], [2, 71]], 1, &[5000, 5000], &[1, 0], 0),
        paid("a penny for two", &[[1, 70], [2, 70]], 1, &[5000, 5000], &[1, 0], 0),
        paid("the largest purse for one", &[[5, -9]], LARGEST_PURSE, &[10_000], &[LARGEST_PURSE], 0),
        paid("the largest purse for the club", &[[5, OFF_SCALE]], LARGEST_PURSE, &[10_000], &[0], LARGEST_PURSE),
        paid("20 shares", &twenty, LARGEST_PURSE, &[500; 20], &[twentieth; 20], 0),
        // 9,999.9999 and 99,989,999.0001 leave a penny.
        paid("one hundredth of a per cent", &[[1, 1], [2, 2]], 99_999_999, &[1, 9_999], &[10_000, 99_989_999], 0),
        thousands_of_equal_rows(),
    ]
}

/// Scores and players of every sort.
fn cells() -> Vec<Example> {
    vec![
        // 5.5 twice: 6 and 5, of 11 pooled again 6 and 5.
        paid(
            "scores below zero, players that are no numbers",
            &[[BLANK, -3], [OFF_SCALE, -3], [-LARGEST, -2], [LARGEST, BLANK]],
            11,
            &[5000, 5000],
            &[6, 5, 0, 0],
            0,
        ),
        paid("scores of 0", &[[0, 0], [0, 0]], 7, &[10_000], &[4, 3], 0),
        // The two at the least number pool 40 and 30, the two at the largest 20 and 10.
        paid(
            "scores at the ends of the range",
            &[[1, -LARGEST], [2, -LARGEST], [3, LARGEST], [4, LARGEST], [5, OFF_SCALE]],
            100,
            &FOUR,
            &[35, 35, 15, 15, 0],
            0,
        ),
        // Alike in their lower 32 bits, or in all but the lowest, and not equal.
        paid("scores of 64 bits", &[[1, 7], [2, 7 + (1 << 32)]], 10, &[8000, 2000], &[8, 2], 0),
        paid(
            "scores one apart",
            &[[1, 1 - LARGEST], [2, -LARGEST], [3, LARGEST - 1], [4, LARGEST]],
            100,
            &FOUR,
            &[40, 30, 20, 10],
            0,
        ),
    ]
}

/// The largest purse for 4,096 rows of one score, a Cross of 64 rows of two columns and 64 of one. 100,000,000 are 4,096 times 24,414 and 256 more.
fn thousands_of_equal_rows() -> Example {
    let players: Vec<[i64; 2]> = (1..=64).map(|player| [player, 80]).collect();
    let row = |number: i64| (1 + number / 64, if number < 256 { 24_415 } else { 24_414 });
    Example {
        name: "4,096 equal rows",
        set: write_set(&[list(&players), sized(1, 64)]),
        plan: write_plan(&cross(scan(0, 0), scan(1, 2))),
        out_cells: 8_192,
        // 4,096 rows of three columns, 64 of two and 64 of one.
        scratch_cells: 4_096 + 12_288 + 128 + 64,
        answer: Ok(Prizes { rows: (0..4_096).map(row).collect(), club_line: 0 }),
        ..paid("", &[], LARGEST_PURSE, &[10_000], &[], 0)
    }
}

/// The table of a tie, read in other ways than by a Scan of two columns.
fn other_plans() -> Vec<Example> {
    let downward = [[1, 30], [2, 36], [3, 36], [4, 31]];
    // Equal rows of a downward list come in reverse order: players 3, 2, 4 and 1. The first two pool 501 and 300: 401, and 400.
    let sorted = Example {
        plan: write_plan(&sort(true, &[1], scan(0, 0))),
        scratch_cells: 4_096 + 8 + 8,
        answer: Ok(Prizes { rows: vec![(3, 401), (2, 400), (4, 200), (1, 0)], club_line: 0 }),
        ..paid("a downward list", &downward, 1_001, &THREE, &[0; 4], 0)
    };
    // Other columns are passed over: those after the score, and in the table also those in front.
    let cards = table(&[&[9, 70, 7, 1], &[8, 71, 4, 2], &[7, 71, 9, 3], &[6, 73, 2, 3]]);
    let wide = |name, plan: Plan, cells: usize, players: [i64; 4]| Example {
        set: write_set(std::slice::from_ref(&cards)),
        plan: write_plan(&plan),
        scratch_cells: 4_096 + cells,
        answer: Ok(Prizes { rows: players.into_iter().zip([501, 250, 250, 0]).collect(), club_line: 0 }),
        ..paid(name, &[[0, 0]; 4], 1_001, &THREE, &[0; 4], 0)
    };
    // Three rows are left, and only for these there has to be room. A Select and a Project count one row of their columns in the need.
    let tie = [[7, 70], [4, 71], [9, 71], [2, 73]];
    let selected = Example {
        plan: write_plan(&select(number_test(1, Less, 72), scan(0, 0))),
        out_cells: 6,
        scratch_cells: 4_096 + 2 + 8,
        answer: Ok(Prizes { rows: vec![(7, 501), (4, 250), (9, 250)], club_line: 0 }),
        ..paid("rows that a Select leaves", &tie, 1_001, &THREE, &[0; 4], 0)
    };
    vec![
        sorted,
        selected,
        wide("columns after the score", scan(0, 0), 16, [9, 8, 7, 6]),
        wide("a Project", project(&[2, 1], scan(0, 0)), 2 + 16, [7, 4, 9, 2]),
        wide("a Project of more", project(&[2, 1, 0, 3], scan(0, 0)), 4 + 16, [7, 4, 9, 2]),
    ]
}

/// Two rows with a right fund and no more room than is needed.
fn two_rows() -> Example {
    paid("two rows", &[[1, 70], [2, 71]], 100, &[6000, 4000], &[60, 40], 0)
}

/// Two rows with another fund, refused 17.
fn wrong_fund(name: &'static str, purse: u64, shares: &[u32]) -> Example {
    Example { name, fund: Fund { purse, shares: shares.to_vec() }, answer: Err(17), ..two_rows() }
}

/// A plan of fewer than two columns over the two rows, refused 18. It has room for any answer.
fn few_columns(name: &'static str, plan: Plan) -> Example {
    Example { name, plan: write_plan(&plan), out_cells: 9, scratch_cells: 5_000, answer: Err(18), ..two_rows() }
}

/// Each of 15 to 18 alone.
fn refused() -> Vec<Example> {
    let most = u32::MAX;
    let short = |name, out_cells| Example { name, out_cells, answer: Err(15), ..two_rows() };
    let no_scratch = |name, scratch_cells| Example { name, scratch_cells, answer: Err(16), ..two_rows() };
    vec![
        two_rows(),
        wrong_fund("a purse over the largest", LARGEST_PURSE + 1, &[6000, 4000]),
        wrong_fund("a purse of 2^32", 1 << 32, &[6000, 4000]),
        wrong_fund("the largest purse of 64 bits", u64::MAX, &[6000, 4000]),
        wrong_fund("no shares", 100, &[]),
        wrong_fund("no shares and no purse", 0, &[]),
        wrong_fund("21 shares", 100, &[&[500; 19][..], &[250; 2]].concat()),
        wrong_fund("21 shares, the last of them 0", 100, &[&[500; 20][..], &[0]].concat()),
        wrong_fund("21 shares, the last of them over the whole", 100, &[&[500; 20][..], &[500]].concat()),
        wrong_fund("257 shares", 100, &[&[10_000][..], &[0; 256]].concat()),
        wrong_fund("shares of 9,999", 100, &[5999, 4000]),
        wrong_fund("shares of 10,001", 100, &[6000, 4001]),
        wrong_fund("shares of 0", 100, &[0, 0]),
        wrong_fund("one share of 9,999", 100, &[9_999]),
        wrong_fund("shares of 20,000", 100, &[10_000, 10_000]),
        wrong_fund("shares of 2^16 + 10,000", 100, &[65_536, 10_000]),
        wrong_fund("one share of 2^16 + 10,000", 100, &[75_536]),
        wrong_fund("shares of 2^32 + 10,000", 100, &[most, 10_001]),
        wrong_fund("shares of 2^32 + 10,000 and no purse", 0, &[10_001, most]),
        wrong_fund("shares of 2^33 + 10,000", 100, &[most, most, 10_002]),
        wrong_fund("20 of the largest shares", 100, &[most; 20]),
        few_columns("one column", project(&[0], scan(0, 0))),
        few_columns("one column and no rows", select(NEVER, project(&[1], scan(0, 0)))),
        Example { set: write_set(&[sized(1, 0)]), ..few_columns("a table of one column and no rows", scan(0, 0)) },
        few_columns("no columns", Plan::Unit),
        few_columns("no columns and no rows", select(NEVER, Plan::Unit)),
        short("a cell short", 3),
        short("room for one row", 2),
        short("no room", 0),
        no_scratch("a cell of scratch short", 4_099),
        no_scratch("no scratch", 0),
    ]
}

/// Every two of 16, 17, 18 and 15, in which the first one tested decides; and all four.
fn in_order() -> Vec<Example> {
    let (one_column, with_rows) = (write_plan(&project(&[0], scan(0, 0))), two_rows());
    let no_rows = write_set(&[sized(1, 0)]);
    let wrong = Fund { purse: 100, shares: vec![6000, 4001] };
    let with = |name, [number, other]: [u8; 2], more: &[u8]| {
        let faults = [&[number, other], more].concat();
        let has = |fault: u8| faults.contains(&fault);
        // Of one column the need is 4,096 cells, 4 for the Scan and 1 for the Project.
        let (plan, need) = if has(18) { (one_column.clone(), 4_101) } else { (with_rows.plan.clone(), 4_100) };
        Example {
            name,
            plan,
            fund: if has(17) { wrong.clone() } else { with_rows.fund.clone() },
            out_cells: if has(15) { 3 } else { 4 },
            scratch_cells: if has(16) { need - 1 } else { need },
            answer: Err(number),
            ..with_rows.clone()
        }
    };
    vec![
        with("16 before 17", [16, 17], &[]),
        with("16 before 18", [16, 18], &[]),
        with("16 before 15", [16, 15], &[]),
        with("17 before 18", [17, 18], &[]),
        with("17 before 15", [17, 15], &[]),
        with("18 before 15", [18, 15], &[]),
        with("16 before all", [16, 17], &[18, 15]),
        with("17 before the rest", [17, 18], &[15]),
        Example { set: no_rows, plan: with_rows.plan.clone(), ..with("17 before 18 with no rows", [17, 18], &[]) },
    ]
}

/// Inputs that are refused for each of 1 to 14, with a right fund and room, and with a wrong fund and none.
fn after_the_input() -> Vec<Example> {
    let mut all = Vec::new();
    for (number, set, plan) in one_of_each_refusal() {
        let refused =
            Example { name: "refused input", set, plan, scratch_cells: 9_000, answer: Err(number), ..two_rows() };
        let wrong = Fund { purse: u64::MAX, shares: vec![] };
        all.push(Example {
            name: "refused input and wrong fund",
            fund: wrong,
            out_cells: 0,
            scratch_cells: 0,
            ..refused.clone()
        });
        all.push(refused);
    }
    all
}
