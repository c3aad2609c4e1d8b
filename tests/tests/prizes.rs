//! The prize call of request K4, against its readings: how a purse is shared out, what is refused and in which order. None of it needs the archive.

use second::build::*;
use second::by_hand::examples;
use second::calls::{need_of, read, report_of, Report, ROOMY};
use second::cases::fault_case;
use second::cells::{is_number, BLANK, OFF_SCALE};
use second::damage::faults;
use second::edges::{club, edges};
use second::funds::{fund, many_rows, prize_day, purse, shares, FundSort, Met, FUND_SORTS, PURSES};
use second::generate::{accepted, Input};
use second::prizes::{prize, prize_word, prizes_within, Fund, Prizes, LARGEST_PURSE, MOST_SHARES, WHOLE};
use second::random::Random;
use second::tables::Table;

/// The prize call on an input.
fn prizes(input: &Input, fund: &Fund, out: usize, scratch: usize) -> Result<Prizes, u8> {
    prize(&input.set_bytes(), &input.plan_bytes(), fund, out, scratch)
}

// ---- by hand

#[test]
fn examples_by_hand_are_answered() {
    let mut counts = [0; 19];
    for example in examples() {
        let answer = prize(&example.set, &example.plan, &example.fund, example.out_cells, example.scratch_cells);
        assert_eq!(answer, example.answer, "{}", example.name);
        counts[answer.err().map_or(0, usize::from)] += 1;
    }
    println!("examples by hand: answered {}, refused {:?}", counts[0], &counts[1..]);
    assert!(counts.iter().all(|&count| count > 0), "{counts:?}");
}

#[test]
fn examples_by_hand_have_the_least_room() {
    for example in examples() {
        let Ok(due) = example.answer else { continue };
        let with = |out, scratch| prize(&example.set, &example.plan, &example.fund, out, scratch);
        let (out, scratch) = (example.out_cells, example.scratch_cells);
        assert_eq!(due.cells().len(), out, "{}", example.name);
        assert_eq!(need_of(&example.set, &example.plan), Ok(scratch as u64), "{}", example.name);
        assert_eq!(with(out, scratch - 1), Err(16), "{}", example.name);
        if out > 0 {
            assert_eq!(with(out - 1, scratch), Err(15), "{}", example.name);
        }
        assert_eq!(with(ROOMY, ROOMY), Ok(due), "{}", example.name);
    }
}

#[test]
fn words_have_rows_and_club_line_or_the_number_alone() {
    let prizes = Prizes { rows: vec![(7, 403), (4, 0), (9, 101)], club_line: 301 };
    assert_eq!(prize_word(&Ok(prizes.clone())), 3 * 256 + 301 * 16_777_216);
    assert_eq!(prize_word(&Ok(Prizes { rows: vec![(0, 0); 4096], club_line: LARGEST_PURSE })), 0x5_f5e1_0010_0000);
    assert_eq!(prize_word(&Ok(Prizes { rows: vec![], club_line: 0 })), 0);
    assert_eq!(prize_word(&Err(17)), 17);
    assert_eq!(prizes.cells(), [7, 403, 4, 0, 9, 101]);
    assert_eq!(prizes.paid(), 504);
}

#[test]
fn places_are_rounded_down_and_then_get_what_is_left_over() {
    let places = |purse, shares: &[u32]| Fund { purse, shares: shares.to_vec() }.places();
    // 0.7, 0.2 and 0.1 of a penny leave one; of 9 pence 6.3, 1.8 and 0.9 leave two; 10 leave none.
    assert_eq!(places(1, &[7000, 2000, 1000]), [1, 0, 0]);
    assert_eq!(places(9, &[7000, 2000, 1000]), [7, 2, 0]);
    assert_eq!(places(10, &[7000, 2000, 1000]), [7, 2, 1]);
    // A share of 0 has its turn like any other.
    assert_eq!(places(9, &[0, 0, 0, 7000, 2000, 1000]), [1, 1, 0, 6, 1, 0]);
    // The most that can be left over is one less than there are shares.
    assert_eq!(places(19, &[500; 20]), [&[1; 19][..], &[0]].concat());
    assert_eq!(places(LARGEST_PURSE, &[10_000]), [LARGEST_PURSE]);
}

#[test]
fn funds_are_right_or_not() {
    let right = |purse, shares: &[u32]| Fund { purse, shares: shares.to_vec() }.is_right();
    assert!(right(0, &[10_000]) && right(LARGEST_PURSE, &[500; 20]) && right(5, &[0, 0, 10_000]));
    assert!(!right(LARGEST_PURSE + 1, &[10_000]) && !right(0, &[]) && !right(0, &[0]));
    let mut random = Random::new(12_000_000);
    for sort in FUND_SORTS.iter().cycle().take(13 * 300) {
        let fund = fund(&mut random, *sort);
        assert_eq!(fund.is_right(), *sort == FundSort::Right, "{sort:?}, {fund:?}");
    }
}

// ---- refusals

#[test]
fn faults_of_every_sort_come_before_the_fund() {
    let mut random = Random::new(12_100_000);
    for fault in faults() {
        let case = fault_case(&mut random, &fault);
        for (sort, room) in FUND_SORTS.iter().flat_map(|&sort| [(sort, 0), (sort, ROOMY)]) {
            let fund = fund(&mut random, sort);
            let answer = prize(&case.set, &case.plan, &fund, room, room);
            assert_eq!(answer, Err(fault.number), "{}, {sort:?}", fault.name);
        }
    }
}

#[test]
fn the_sample_club_has_one_column() {
    let right = Fund { purse: 100, shares: vec![10_000] };
    // Its plan gives players alone. Its second table has cards: 36, blank, 31 and 33.
    assert_eq!(prizes(&club(), &right, ROOMY, ROOMY), Err(18));
    let cards = Input { plan: sort(true, &[1], scan(1, 0)), ..club() };
    let rows = vec![(7, 100), (7, 0), (4, 0), (9, 0)];
    assert_eq!(prizes(&cards, &right, ROOMY, ROOMY), Ok(Prizes { rows, club_line: 0 }));
}

#[test]
fn eighteen_goes_by_columns_and_not_by_rows() {
    let right = Fund { purse: 7, shares: vec![10_000] };
    for (columns, height) in [(1, 0), (1, 5), (2, 0), (2, 5), (16, 0), (16, 5)] {
        let input = Input { tables: vec![sized(columns, height)], plan: scan(0, 0) };
        let answer = prizes(&input, &right, ROOMY, ROOMY).map(|prizes| (prizes.rows.len(), prizes.paid()));
        let due = if columns < 2 { Err(18) } else { Ok((height, if height == 0 { 0 } else { 7 })) };
        assert_eq!(answer, due, "{columns} columns, {height} rows");
    }
}

// ---- random funds and reports

/// The row's pence worked out for it alone: where its run of equal scores begins and ends, and how many pence the places of these have.
fn pence_of(scores: &[i64], places: &[u64], row: usize) -> u64 {
    let score = scores[row];
    if !is_number(score) {
        return 0;
    }
    let before = scores[..row].iter().rev().take_while(|&&other| other == score).count();
    let after = scores[row..].iter().take_while(|&&other| other == score).count();
    let pool: u64 = (row - before..row + after).map(|place| places.get(place).copied().unwrap_or(0)).sum();
    // Dealt out in turns the row is reached with every penny whose number leaves its own when divided by the number of rows.
    let (own, rows) = (before as u64, (before + after) as u64);
    (pool + rows - 1 - own) / rows
}

/// Checks what a table has to be for any report and fund.
fn check_table(report: &Report, fund: &Fund, prizes: &Prizes) {
    let scores: Vec<i64> = report.codes.chunks(report.columns).map(|row| row[1]).collect();
    let players: Vec<i64> = report.codes.chunks(report.columns).map(|row| row[0]).collect();
    let pence: Vec<u64> = prizes.rows.iter().map(|row| row.1).collect();
    assert_eq!(prizes.cells().len(), 2 * report.rows);
    assert!(prizes.rows.iter().map(|row| row.0).eq(players));
    assert_eq!(prizes.paid() + prizes.club_line, fund.purse);
    let places = fund.places();
    for row in 1..report.rows {
        if scores[row] == scores[row - 1] && is_number(scores[row]) {
            assert!(pence[row] <= pence[row - 1], "row {row} is paid more than the one before it");
            let last = (row..report.rows).take_while(|&other| scores[other] == scores[row]).last().expect("the row");
            assert!(pence[row - 1] - pence[last] <= 1, "rows {} and {last} differ by more than a penny", row - 1);
        }
    }
    // Looking for each row's run takes long where all rows are equal.
    for row in (0..report.rows).step_by(1 + report.rows / 100) {
        assert_eq!(pence[row], pence_of(&scores, &places, row), "row {row}");
    }
    let unpaid = |place: usize| scores.get(place).is_none_or(|&score| !is_number(score));
    let club: u64 = (0..places.len()).filter(|&place| unpaid(place)).map(|place| places[place]).sum();
    assert_eq!(prizes.club_line, club);
}

/// Checks the places' pence of a right fund: no place is a whole penny from its exact share, and only those from the first on are above it.
fn check_places(fund: &Fund) {
    let places = fund.places();
    let exact = fund.shares.iter().map(|&share| fund.purse * u64::from(share));
    let more: Vec<bool> = places.iter().zip(exact.clone()).map(|(&pence, exact)| pence != exact / WHOLE).collect();
    assert!(places.iter().zip(exact).all(|(&pence, exact)| (pence * WHOLE).abs_diff(exact) <= WHOLE));
    assert!(more.windows(2).all(|two| two[0] || !two[1]), "{fund:?}");
    assert_eq!(places.iter().sum::<u64>(), fund.purse);
}

#[test]
fn payments_and_club_line_add_up_to_the_purse() {
    let mut met = Met::default();
    let mut answered = 0;
    for seed in 0..6_000 {
        let mut random = Random::new(12_200_000 + seed);
        let input = match seed % 50 {
            0 => many_rows(&mut random),
            1..=9 => accepted(&mut random),
            _ => prize_day(&mut random),
        };
        let (tables, tree) = read(&input.set_bytes(), &input.plan_bytes()).expect("an accepted plan");
        let report = report_of(&tree, &tables);
        for _ in 0..4 {
            let fund = fund(&mut random, FundSort::Right);
            check_places(&fund);
            met.count(&report, 0, &fund, 2 * report.rows, 0);
            match prizes_within(&report, 0, &fund, 2 * report.rows, 0) {
                Ok(prizes) => {
                    answered += 1;
                    check_table(&report, &fund, &prizes);
                }
                Err(number) => assert!(number == 18 && report.columns < 2, "seed {seed}"),
            }
        }
    }
    print!("prize fund tables {answered}; {}", met.table_lines());
    assert!(answered > 15_000, "{answered}");
    assert!([met.across, met.inside, met.odd_pence, met.players].iter().all(|&count| count > 1_000), "{met:?}");
    assert!(met.left_over.iter().chain(&met.club_lines).all(|&count| count > 1_000), "{met:?}");
}

#[test]
fn every_small_purse_adds_up_for_every_number_of_shares() {
    let mut random = Random::new(12_300_000);
    // A tie of three, no score twice, a tie of two, and others alone.
    let scores = [70, 70, 70, BLANK, OFF_SCALE, 71, 71, 72, 70, 73];
    let row = |place: usize| vec![place as i64, scores[place % 10]];
    for rows in [0, 1, 2, 5, 10, 20, 23] {
        let input = Input { tables: vec![Table { columns: 2, rows: (0..rows).map(row).collect() }], plan: scan(0, 0) };
        let report = report_of(&input.plan, &input.tables);
        for count in 1..=MOST_SHARES {
            for purse in (0..60).chain(PURSES).chain([purse(&mut random)]) {
                let fund = Fund { purse, shares: shares(&mut random, count) };
                check_places(&fund);
                check_table(&report, &fund, &Prizes::of(&report, &fund));
            }
        }
    }
}

#[test]
fn the_call_answers_as_its_parts_do() {
    let mut counts = [0usize; 19];
    let edges = edges().into_iter().map(|(_, input)| input);
    let random = (0..1_000).map(|seed| prize_day(&mut Random::new(12_400_000 + seed)));
    let mut random_rooms = Random::new(12_500_000);
    for input in edges.chain(random) {
        let need = need_of(&input.set_bytes(), &input.plan_bytes()).expect("an accepted plan") as usize;
        let report = report_of(&input.plan, &input.tables);
        for sort in [FundSort::Right, random_rooms.pick(&FUND_SORTS)] {
            let fund = fund(&mut random_rooms, sort);
            let cells = 2 * report.rows;
            for (out, scratch) in [(cells, need), (cells.saturating_sub(1), need), (cells, need - 1), (0, 0)] {
                let answer = prizes(&input, &fund, out, scratch);
                let due = match report.columns {
                    _ if scratch < need => Err(16),
                    _ if sort != FundSort::Right => Err(17),
                    0 | 1 => Err(18),
                    _ if out < cells => Err(15),
                    _ => Ok(Prizes::of(&report, &fund)),
                };
                counts[due.as_ref().err().map_or(0, |&number| usize::from(number))] += 1;
                assert_eq!(answer, due, "{sort:?}, room {out}, scratch {scratch}");
            }
        }
    }
    println!("prize calls: answered {}, refused 15 to 18 {:?}", counts[0], &counts[15..]);
    assert!([0, 15, 16, 17, 18].iter().all(|&number| counts[number] > 100), "{counts:?}");
}
