//! The library's archive, held against the second evaluator. It prints how often each refusal and each rule was met.

#[cfg(archive)]
mod held {
    use second::archive;
    use second::build::*;
    use second::by_hand::examples;
    use second::calls::{need_of, report, report_word, ROOMY};
    use second::cases::cases;
    use second::cells::{is_number, BLANK, LARGEST, OFF_SCALE};
    use second::check::columns;
    use second::convert::Way;
    use second::edges::{club, edges};
    use second::elsewhere::{with_several_places, Scratch, Sent, Unnesting, CHANGES, ENDS, SCRATCHES, STARTS};
    use second::funds::{many_rows, prize_day, shares, PURSES};
    use second::generate::Input;
    use second::held::{
        hold, hold_check_steps, hold_conversions, hold_convert, hold_prizes, hold_report, hold_seeds, hold_unnest,
        Conversions, Counts, Due, FundHolder, SentHolder,
    };
    use second::in_place::{over, plan_of, tables, Operator, Tree};
    use second::nodes::{write_plan, write_plan_in};
    use second::plan::Comparison::{Equal, Greater, Less};
    use second::plan::{Aggregate, Comparison, Plan, Test, ALWAYS, COMPARISONS};
    use second::prizes::{prize_word, Fund, MOST_SHARES};
    use second::random::Random;
    use second::tables::{write_set, write_set_in, Table};
    use second::wide::narrowed;

    /// How many random inputs are tried.
    const INPUTS: u64 = 15_000;

    #[test]
    fn random_inputs_are_answered_as_by_the_second_evaluator() {
        let mut counts = Counts::default();
        let held = hold_seeds(10_000_000, INPUTS, &mut counts);
        print!("{}", counts.lines());
        held.expect("no difference");
        let met = |counts: &[usize], least: usize| counts.iter().all(|&count| count >= least);
        assert!(met(&counts.reports, 20), "{:?}", counts.reports);
        assert!(met(&counts.tried, 100), "{:?}", counts.tried);
        assert!(met(&counts.unnestings, 20), "{:?}", counts.unnestings);
        assert!(met(&counts.stay_notes[..15], 20) && counts.stay_notes[16] >= 20, "{:?}", counts.stay_notes);
        assert!(met(&counts.rules[1..], 200), "{:?}", counts.rules);
        assert!(met(&counts.notes, 100) && counts.ended >= 100, "{:?}, {}", counts.notes, counts.ended);
        assert!(met(&counts.sums, 200), "{:?}", counts.sums);
        assert!(met(&counts.left, 20), "{:?}", counts.left);
        assert!(counts.unequal.iter().all(|sides| met(sides, 100)), "{:?}", counts.unequal);
        assert!(counts.equal_rows >= 200 && met(&counts.decided, 40), "{}, {:?}", counts.equal_rows, counts.decided);
        let between = &counts.between;
        assert!(
            met(&between.between, 20) && met(between.through.as_flattened(), 10) && between.first >= 40,
            "{between:?}"
        );
        let [report, unnest, [_, notes]] = counts.no_longer_16;
        assert!(counts.smaller_needs >= 5_000, "{}", counts.smaller_needs);
        assert!(met(&report, 2_000) && met(&unnest, 2_000) && notes >= 2_000, "{:?}", counts.no_longer_16);
        let checks = counts.checks;
        assert!(met(&checks[..15], 20) && checks[15..].iter().sum::<usize>() == checks[16] + checks[20] + checks[21]);
        assert!([checks[0], checks[16], checks[20], checks[21]].iter().all(|&count| count >= 5_000), "{checks:?}");
        let elsewhere = &counts.elsewhere;
        assert!(met(&elsewhere.accepted, 1_000) && met(&elsewhere.ends, 100), "{elsewhere:?}");
        assert!(met(&elsewhere.refused_21, 300) && met(&elsewhere.refused_20, 500), "{elsewhere:?}");
        assert!(met(&elsewhere.refused_16, 100) && met(&elsewhere.before_21, 300), "{elsewhere:?}");
        assert!(elsewhere.after_misfit >= 1_000, "{elsewhere:?}");
        let (prizes, funds) = (&counts.prizes, &counts.funds);
        assert!(met(prizes, 20) && [0, 15, 16, 17, 18].iter().all(|&number| prizes[number] >= 1_000), "{prizes:?}");
        assert!([funds.across, funds.inside, funds.odd_pence, funds.players].iter().all(|&count| count >= 100));
        assert!(met(&funds.left_over, 100) && met(&funds.club_lines, 500) && met(&funds.rows, 10), "{funds:?}");
        assert!(met(&funds.refused_17, 300) && met(&funds.before, 100), "{funds:?}");
    }

    #[test]
    fn edges_and_faults_are_answered_as_by_the_second_evaluator() {
        let mut counts = Counts::default();
        let mut random = Random::new(5);
        for (name, input) in edges() {
            for _ in 0..6 {
                hold(&mut random, &input.set_bytes(), &input.plan_bytes(), &mut counts).expect(&name);
            }
        }
        for case in cases() {
            hold(&mut random, &case.set, &case.plan, &mut counts).expect("no difference");
        }
        print!("{}", counts.lines());
    }

    /// Row counts around the factors of 4,096, of 4,097 and of 65,536, and the ends.
    const HEIGHTS: [usize; 14] = [0, 1, 2, 15, 16, 17, 64, 65, 241, 255, 256, 257, 999, 1000];

    /// Every three of them, as tables of one column.
    fn three_tables() -> impl Iterator<Item = Vec<Table>> {
        let count = HEIGHTS.len();
        let tables = move |i| [i, i / count, i / count / count].map(|i| sized(1, HEIGHTS[i % count])).to_vec();
        (0..count.pow(3)).map(tables)
    }

    /// Holds an input's refusal, or its need where there is none, against the second evaluator. Whether the input is accepted.
    fn accepts(random: &mut Random, input: &Input) -> bool {
        let (set, plan) = (input.set_bytes(), input.plan_bytes());
        let mut number = |cells| archive::report(random, &set, &plan, 0, cells).expect("no stray write").0 & 0xff;
        let need = need_of(&set, &plan);
        match need {
            Err(refusal) => assert_eq!(number(0), u64::from(refusal)),
            Ok(need) => {
                assert_eq!(number(need as usize - 1), 16);
                assert!([0, 15].contains(&number(need as usize)));
            }
        }
        need.is_ok()
    }

    #[test]
    fn k5_products_of_three_row_counts_are_judged_as_by_the_second_evaluator() {
        let mut random = Random::new(6);
        let mut counts = [0, 0];
        for tables in three_tables() {
            for plan in [
                cross(cross(scan(0, 0), scan(1, 1)), scan(2, 2)),
                cross(scan(0, 0), cross(scan(1, 1), scan(2, 2))),
                each(each(scan(0, 0), scan(1, 1)), scan(2, 2)),
                each(scan(0, 0), each(scan(1, 1), scan(2, 2))),
            ] {
                let input = Input { tables: tables.clone(), plan };
                counts[usize::from(accepts(&mut random, &input))] += 1;
            }
        }
        println!("products of three row counts: refused {}, accepted {}", counts[0], counts[1]);
        assert!(counts.iter().all(|&count| count > 2_000), "{counts:?}");
    }

    /// Cells that decide an aggregate or a comparison: the two codes that are no numbers, the ends of the range, 1 and 0.
    const CELLS: [i64; 6] = [BLANK, OFF_SCALE, LARGEST, -LARGEST, 1, 0];

    /// Numbers that a comparison of 32 of their bits, or of their sum, or as numbers of 53 bits, would take for each other.
    const WIDE_CELLS: [i64; 8] =
        [7, 7 + (1 << 32), 8 + (1 << 32), 6 + (2 << 32), 7 - (1 << 32), 7 + (1 << 51), 8 + (1 << 52), -2_147_483_648];

    /// All lists of up to so many of these items.
    fn short_lists<T: Clone>(items: &[T], most: usize) -> Vec<Vec<T>> {
        let longer = |list: &Vec<T>| -> Vec<Vec<T>> {
            items.iter().map(|item| list.iter().chain([item]).cloned().collect()).collect()
        };
        let mut all = vec![vec![]];
        let mut longest = all.clone();
        for _ in 0..most {
            longest = longest.iter().flat_map(longer).collect();
            all.extend(longest.clone());
        }
        all
    }

    #[test]
    fn k2_aggregates_of_short_lists_are_those_of_the_second_evaluator() {
        let mut random = Random::new(7);
        let mut counts = Counts::default();
        let all_pass = number_test(1, Equal, 7);
        let by_key = keys(0, Equal, 1);
        for list in short_lists(&CELLS, 4) {
            // The key 7 in each row, and a cell of the list.
            let cells = Table { columns: 2, rows: list.iter().map(|&cell| vec![7, cell]).collect() };
            let set = write_set(&[cells, one_column(&[7])]);
            for aggregate in [Aggregate::Count, Aggregate::Sum(2), Aggregate::Least(2), Aggregate::Greatest(2)] {
                for plan in [
                    fold(aggregate, 9, all_pass, scan(1, 0), scan(0, 1)),
                    with_test(pair(aggregate, 9, by_key, scan(1, 0), scan(0, 1)), all_pass),
                    with_test(group(aggregate, 9, by_key, scan(0, 1)), all_pass),
                ] {
                    let held = hold_report(&mut random, &set, &write_plan(&plan), &mut counts);
                    held.unwrap_or_else(|difference| panic!("{list:?}, {plan:?}: {difference}"));
                }
            }
        }
        let [numbers, blank, off_scale] = counts.sums;
        println!("sums of short lists: numbers {numbers}, blank {blank}, off scale {off_scale}");
        assert!(counts.sums.iter().all(|&count| count > 500), "{:?}", counts.sums);
    }

    /// Plans that compare a left cell with a right one, over a table of these two as a row and one of a row for each, numbered 1 and 2: by
    /// a test of columns, and of a number where the right cell is one, without and with a not-mark; by the keys of a Pair and of a Group.
    fn comparing(comparison: Comparison, right: i64) -> Vec<Plan> {
        let mut tests = vec![columns_test(0, comparison, 1)];
        if is_number(right) {
            tests.push(number_test(0, comparison, right));
        }
        let both_marks = tests.into_iter().flat_map(|test| [test, test.not_turned()]);
        let mut plans: Vec<Plan> = both_marks.map(|test| select(test, scan(0, 0))).collect();
        plans.push(pair(Aggregate::Count, 9, keys(0, comparison, 3), scan(0, 0), scan(0, 2)));
        plans.push(group(Aggregate::Sum(1), 9, keys(8, comparison, 0), scan(1, 0)));
        plans
    }

    #[test]
    fn k9_comparisons_of_every_two_cells_are_those_of_the_second_evaluator() {
        let mut random = Random::new(8);
        let mut counts = Counts::default();
        let mut differences = Vec::new();
        for (left, right) in CELLS.iter().flat_map(|&left| CELLS.map(|right| (left, right))) {
            let set = write_set(&[table(&[&[left, right]]), table(&[&[left, 1], &[right, 2]])]);
            for plan in COMPARISONS.iter().flat_map(|&comparison| comparing(comparison, right)) {
                let held = hold_report(&mut random, &set, &write_plan(&plan), &mut counts);
                differences.extend(held.err().map(|difference| format!("{left}, {right}, {plan:?}: {difference}")));
            }
        }
        print!("every two cells: {}", counts.unequal_line());
        assert!(differences.is_empty(), "{} differences:\n{}", differences.len(), differences.join("\n"));
        // Each of 6 cells beside each: a number and a blank 8 times, two blanks once, off scale and anything 11 times.
        assert_eq!(counts.unequal[1], [8, 1, 11]);
    }

    #[test]
    fn k13_comparisons_of_every_two_wide_cells_are_those_of_the_second_evaluator() {
        let mut random = Random::new(21);
        let mut counts = Counts::default();
        for (left, right) in WIDE_CELLS.iter().flat_map(|&left| WIDE_CELLS.map(|right| (left, right))) {
            let set = write_set(&[table(&[&[left, right]]), table(&[&[left, 1], &[right, 2]])]);
            for plan in COMPARISONS.iter().flat_map(|&comparison| comparing(comparison, right)) {
                let held = hold_report(&mut random, &set, &write_plan(&plan), &mut counts);
                held.unwrap_or_else(|difference| panic!("{left}, {right}, {plan:?}: {difference}"));
            }
        }
        println!("every two wide cells: reports {}", counts.reports[0]);
    }

    #[test]
    fn k13_pairs_are_converted_as_by_the_second_evaluator() {
        let mut counts = Conversions::default();
        hold_conversions(30_000_000, INPUTS / 2, &mut counts).expect("no difference");
        // The edges in both versions, those that do not fit the old one too, and the largest pair.
        let mut random = Random::new(22);
        let selects = (0..63).fold(scan(7, 0), |plan, _| select(number_test(0, Less, -7), plan));
        let largest = Input { tables: vec![sized(16, 1000); 8], plan: selects };
        for (name, input) in edges().into_iter().chain([("the largest pair".to_string(), largest)]) {
            let narrow = narrowed(input.clone());
            for (way, input) in [(Way::Up, &narrow), (Way::Down, &narrow), (Way::Down, &input)] {
                let (from, _) = way.versions();
                let (set, plan) = (write_set_in(&from, &input.tables), write_plan_in(&from, &input.plan));
                hold_convert(&mut random, way, &set, &plan, &mut counts).expect(&name);
            }
        }
        for (way, counts) in ["up", "down"].iter().zip(counts) {
            println!(
                "taken {way}: given {}, refused 1 to 14 {:?}, 15 {}, 25 {}",
                counts[0],
                &counts[1..15],
                counts[15],
                counts[25]
            );
            assert!(counts[..16].iter().all(|&count| count >= 20), "{counts:?}");
        }
        assert!(counts[0][25] == 0 && counts[1][25] >= 100, "{counts:?}");
    }

    /// How many inputs are held with every sort of list, end and scratch.
    const CHECKED_INPUTS: u64 = 20;

    #[test]
    fn k7_lists_of_every_sort_are_checked_as_by_the_second_evaluator() {
        let mut counts = Counts::default();
        let mut random = Random::new(23);
        let several = (0..CHECKED_INPUTS).map(|_| with_several_places(&mut random)).collect::<Vec<_>>();
        for (number, input) in several.iter().chain([&club()]).enumerate() {
            let (set, plan) = (input.set_bytes(), input.plan_bytes());
            let unnesting = Unnesting::of(&input.plan, &input.tables);
            let mut holder = SentHolder { set: &set, plan: &plan, unnesting: &unnesting, counts: &mut counts };
            for (start, change) in STARTS.iter().flat_map(|&start| CHANGES.map(|change| (start, change))) {
                let mut list = unnesting.started(&mut random, start);
                unnesting.change(&mut random, &mut list, change);
                holder
                    .hold_made(&mut random, &list, &ENDS, &[Scratch::Largest])
                    .and_then(|()| holder.hold_made(&mut random, &list, &ENDS[..3], &SCRATCHES))
                    .unwrap_or_else(|difference| panic!("input {number}, {start:?}, {change:?}, {difference}"));
            }
        }
        print!("every start, change and end: {}", counts.elsewhere_lines());
        assert!([0, 16, 20, 21].iter().all(|&number| counts.checks[number] > 2_000), "{:?}", counts.checks);
    }

    #[test]
    fn k7_short_lists_and_changed_ends_of_the_sample_club() {
        let mut counts = Counts::default();
        let mut random = Random::new(24);
        let input = club();
        let (set, plan) = (input.set_bytes(), input.plan_bytes());
        let unnesting = Unnesting::of(&input.plan, &input.tables);
        let mut holder = SentHolder { set: &set, plan: &plan, unnesting: &unnesting, counts: &mut counts };
        // All lists of up to two steps by every rule and those around, and of up to three by few rules, at places up to past the last node.
        let steps = |rules: &[u8], places: &[u8]| -> Vec<[u8; 2]> {
            rules.iter().flat_map(|&rule| places.iter().map(move |&place| [rule, place])).collect()
        };
        let all = steps(&[0, 1, 2, 3, 4, 5, 6, 7, 8, 9, 255], &[0, 1, 4, 5, 255]);
        let fitting = steps(&[2, 3, 4, 7], &[0, 1, 5]);
        let lists = short_lists(&all, 2).into_iter().chain(short_lists(&fitting, 3)).map(|list| list.concat());
        // And our own list cut at each byte.
        let own = unnesting.own();
        for list in lists.chain((0..=own.steps.len()).map(|length| own.steps[..length].to_vec())) {
            let checked = unnesting.checked(&list);
            for plan in &unnesting.passed {
                let sent = Sent { steps: list.clone(), theirs: write_plan(plan) };
                holder.hold(&mut random, &sent, &checked, checked.need()).expect("no difference");
            }
        }
        // Our own list to its last plan with each byte changed, cut at each byte, and with zeros put on; then with scratch around the need.
        let checked = unnesting.checked(&own.steps);
        let length = own.theirs.len();
        for place in 0..length {
            let mut changed = own.theirs.clone();
            changed[place] ^= 1 << (place % 8);
            let longer = [&own.theirs[..], &vec![0; place + 1]].concat();
            for theirs in [changed, own.theirs[..place].to_vec(), longer] {
                let sent = Sent { theirs, ..own.clone() };
                holder.hold(&mut random, &sent, &checked, checked.need()).expect("no difference");
            }
        }
        for scratch in checked.need() - 50..=checked.need() + 50 {
            holder.hold(&mut random, &own, &checked, scratch).expect("no difference");
        }
        print!("the sample club: {}", counts.elsewhere_lines());
        // Accepted: our own list cut after none, one and two steps, each met thrice, the whole of it twice, and with as many cells as needed or
        // more.
        assert_eq!((counts.checks[0], counts.checks[16]), (3 * 3 + 2 + 51, 50));
    }

    #[test]
    fn k4_examples_by_hand_are_answered_by_the_archive() {
        let mut random = Random::new(25);
        let all = examples();
        for example in &all {
            let right = (prize_word(&example.answer), example.answer.as_ref().map_or(vec![], |prizes| prizes.cells()));
            let mut with = |out, scratch| {
                let given = archive::prize(&mut random, &example.set, &example.plan, &example.fund, out, scratch);
                given.unwrap_or_else(|error| panic!("{}: {error}", example.name))
            };
            assert_eq!(with(example.out_cells, example.scratch_cells), right, "{}", example.name);
            if example.answer.is_ok() {
                assert_eq!(with(example.out_cells + 7, example.scratch_cells + 70), right, "{}", example.name);
            }
        }
        println!("prize calls by hand: {}", all.len());
    }

    /// How many inputs made for the prize fund table are held with every sort of fund, and how many with many rows.
    const PRIZE_DAYS: usize = 200;
    const LARGE_PRIZE_DAYS: usize = 60;

    #[test]
    fn k4_prizes_of_every_sort_of_fund_are_those_of_the_second_evaluator() {
        let mut counts = Counts::default();
        let mut random = Random::new(26);
        for number in 0..PRIZE_DAYS + LARGE_PRIZE_DAYS {
            let many = number >= PRIZE_DAYS;
            let input = if many { many_rows(&mut random) } else { prize_day(&mut random) };
            let (set, plan) = (input.set_bytes(), input.plan_bytes());
            let due = Ok(Due::of(&input.plan, &input.tables));
            let held = if many {
                hold_prizes(&mut random, &set, &plan, &due, &mut counts)
            } else {
                FundHolder { set: &set, plan: &plan, due: &due, counts: &mut counts }.hold_every_sort(&mut random)
            };
            held.unwrap_or_else(|difference| panic!("input {number}, {:?}: {difference}", input.plan));
        }
        print!("every sort of fund: {}", counts.prize_lines());
        assert!([0, 15, 16, 17, 18].iter().all(|&number| counts.prizes[number] > 500), "{:?}", counts.prizes);
        assert!(counts.funds.before.iter().all(|&count| count > 100), "{:?}", counts.funds);
        assert!(counts.funds.refused_17.iter().all(|&count| count > 500), "{:?}", counts.funds);
    }

    #[test]
    fn k4_prizes_of_short_lists_of_scores_are_those_of_the_second_evaluator() {
        let mut counts = Counts::default();
        let mut random = Random::new(27);
        // Places of 4, 3, 2, 1; of 1, 1, 1 and 0, all but one of them left over; and of 1, 0 and 8, one left over to a share of 0.
        let funds: [(u64, &[u32]); 3] = [(10, &[4000, 3000, 2000, 1000]), (3, &[2500; 4]), (9, &[0, 500, 9500])];
        let funds = funds.map(|(purse, shares)| Fund { purse, shares: shares.to_vec() });
        let lists = short_lists(&[BLANK, OFF_SCALE, 70, 71], 6);
        for scores in &lists {
            let rows = scores.iter().zip(1..).map(|(&score, player)| vec![player, score]).collect();
            let input = Input { tables: vec![Table { columns: 2, rows }], plan: scan(0, 0) };
            let due = Ok(Due::of(&input.plan, &input.tables));
            let (set, plan) = (input.set_bytes(), input.plan_bytes());
            let mut holder = FundHolder { set: &set, plan: &plan, due: &due, counts: &mut counts };
            for fund in &funds {
                let held = holder.hold(&mut random, fund, 2 * scores.len(), 4_096 + 2 * scores.len());
                held.unwrap_or_else(|difference| panic!("{scores:?}: {difference}"));
            }
        }
        print!("all lists of up to six scores: {}", counts.funds.table_lines());
        assert_eq!(counts.prizes[0], 3 * (4usize.pow(7) - 1) / 3);
    }

    #[test]
    fn k4_purses_and_numbers_of_shares_are_taken_as_by_the_second_evaluator() {
        let mut counts = Counts::default();
        let mut random = Random::new(28);
        // A tie of three, no score twice, a tie of two, and others alone.
        let scores = [70, 70, 70, BLANK, OFF_SCALE, 71, 71, 72, 70, 73];
        for height in [0, 1, 3, 10, 21] {
            let rows = (0..height).map(|row| vec![row as i64, scores[row % 10]]).collect();
            let input = Input { tables: vec![Table { columns: 2, rows }], plan: scan(0, 0) };
            let due = Ok(Due::of(&input.plan, &input.tables));
            let (set, plan) = (input.set_bytes(), input.plan_bytes());
            let mut holder = FundHolder { set: &set, plan: &plan, due: &due, counts: &mut counts };
            for (count, purse) in (1..=MOST_SHARES).flat_map(|count| PURSES.map(|purse| (count, purse))) {
                let fund = Fund { purse, shares: shares(&mut random, count) };
                let held = holder.hold(&mut random, &fund, 2 * height, 4_096 + 2 * height);
                held.unwrap_or_else(|difference| panic!("{height} rows: {difference}"));
            }
        }
        print!("every purse by every number of shares: {}", counts.funds.table_lines());
        assert_eq!(counts.prizes[0], 5 * MOST_SHARES * PURSES.len());
    }

    /// The set of a table of these rows of two cells, each with its number in a third column, which tells equal rows apart.
    fn numbered(cells: &[[i64; 2]]) -> Vec<u8> {
        let rows = cells.iter().zip(1..).map(|(&[one, other], number)| vec![one, other, number]).collect();
        write_set(&[Table { columns: 3, rows }])
    }

    /// The archive's rows of a Sort of such a table, held against the second evaluator.
    fn sorted(random: &mut Random, set: &[u8], down: bool, list: &[u8], counts: &mut Counts) -> Vec<Vec<i64>> {
        let plan = write_plan(&sort(down, list, scan(0, 0)));
        let held = hold_report(random, set, &plan, counts);
        held.unwrap_or_else(|difference| panic!("down {down}, by {list:?}, {set:?}: {difference}"));
        let need = need_of(set, &plan).expect("an accepted plan") as usize;
        let (_, codes) = archive::report(random, set, &plan, 3 * 4, need).expect("no stray write");
        codes.chunks(3).map(|row| row.to_vec()).collect()
    }

    #[test]
    fn k3_downward_lists_are_the_upward_ones_read_backwards() {
        let mut random = Random::new(9);
        let mut counts = Counts::default();
        let codes = [BLANK, 0, OFF_SCALE];
        let every_two: Vec<[i64; 2]> = codes.iter().flat_map(|&one| codes.map(|other| [one, other])).collect();
        for cells in short_lists(&every_two, 4) {
            let set = numbered(&cells);
            for list in [&[0][..], &[1], &[0, 1], &[1, 0]] {
                let [upward, downward] = [false, true].map(|down| sorted(&mut random, &set, down, list, &mut counts));
                assert_eq!(upward.len(), cells.len());
                assert!(downward.iter().eq(upward.iter().rev()), "by {list:?}: {upward:?} and {downward:?}");
            }
        }
        print!("tables of up to four rows: {}", counts.downward_line());
        // There are 7,381 tables. In 1 + 9 + 54 + 162 of them no two rows are equal in the first column, in as many none in the second,
        // and in 1 + 9 + 72 + 504 + 3,024 none in both.
        assert_eq!(counts.equal_rows, 2 * (7_381 - 226) + 2 * (7_381 - 3_610));
        // The numbers tell equal rows apart, so each report shows their order.
        assert_eq!(counts.decided[0], counts.equal_rows);
    }

    /// A node of an inner plan over cards, which have a player under the id 1, the key, a score under 2 and a number under 3.
    #[derive(Clone, Copy, Debug)]
    enum Unary {
        ProjectWithKey,
        ProjectWithoutKey,
        Distinct,
        Sort,
        Select(Test),
    }

    /// The nodes that are tried: among them each Select that links by = or <, either way round, without and with a not-mark.
    fn unary_nodes() -> Vec<Unary> {
        let linked = [Equal, Less].iter().flat_map(|&by| [columns_test(0, by, 1), columns_test(1, by, 0)]);
        let both_marks = linked.flat_map(|test| [test, test.not_turned()]);
        let selects = both_marks.chain([number_test(3, Less, 4)]).map(Unary::Select);
        let others = [Unary::ProjectWithKey, Unary::ProjectWithoutKey, Unary::Distinct, Unary::Sort];
        others.into_iter().chain(selects).collect()
    }

    /// A plan under the node. A Distinct is of all columns.
    fn under(child: Plan, node: &Unary, tables: &[Table]) -> Plan {
        match node {
            Unary::ProjectWithKey => project(&[3, 1, 2], child),
            Unary::ProjectWithoutKey => project(&[2, 3], child),
            Unary::Distinct => distinct(&columns(&child, tables), child),
            Unary::Sort => sort(true, &[2], child),
            Unary::Select(test) => select(*test, child),
        }
    }

    #[test]
    fn k1_chains_below_nested_steps_are_unnested_as_by_the_second_evaluator() {
        let mut random = Random::new(10);
        let mut counts = Counts::default();
        let mut differences = Vec::new();
        let cards = table(&[&[7, 36, 1, 0], &[9, BLANK, 2, 0], &[4, 31, 3, 0], &[7, 33, 4, 0], &[7, 33, 4, 0]]);
        let tables = [one_column(&[7, 9, 7, 4]), cards];
        let set = write_set(&tables);
        let players = || distinct(&[0], scan(0, 0));
        let over_32 = number_test(2, Greater, 32);
        for chain in short_lists(&unary_nodes(), 3) {
            let inner = chain.iter().fold(scan(1, 1), |child, node| under(child, node, &tables));
            for plan in [
                some(over_32, players(), inner.clone()),
                every(over_32, players(), inner.clone()),
                fold(Aggregate::Sum(2), 9, ALWAYS, players(), inner),
            ] {
                let bytes = write_plan(&plan);
                let held = hold_report(&mut random, &set, &bytes, &mut counts)
                    .and_then(|()| hold_unnest(&mut random, &set, &bytes, &mut counts))
                    .and_then(|()| hold_check_steps(&mut random, &set, &bytes, &mut counts));
                differences.extend(held.err().map(|difference| format!("{plan:?}: {difference}")));
            }
        }
        print!("chains of up to three nodes: {}", counts.between.lines());
        assert!(differences.is_empty(), "{} differences, first {}", differences.len(), differences[0]);
        // A step through a Project: either Project, over a Select without a not-mark either way round, by = or for U5 by < too, over the
        // Scan or over one of the four nodes that keep the key and do not name e's column.
        assert_eq!(counts.between.through, [[10, 10], [10, 10], [20, 20]]);
        assert_eq!(counts.between.first, 80);
    }

    /// The operators of the trees that are tried: the kinds that pass rows on, a Project with all columns and one with two, and others.
    const OPERATORS: [Operator; 11] = [
        Operator::Select,
        Operator::ProjectRotated,
        Operator::ProjectShorter,
        Operator::Semi,
        Operator::Anti,
        Operator::Some,
        Operator::Every,
        Operator::Distinct,
        Operator::Sort,
        Operator::Fold,
        Operator::Cross,
    ];

    /// All trees of so many operators. Where a second child is a table it is table 1, else table 0.
    fn trees(size: usize, table: u8) -> Vec<Tree> {
        if size == 0 {
            return vec![Tree::Table(table)];
        }
        let mut all = Vec::new();
        for second in 0..size {
            let (firsts, seconds) = (trees(size - 1 - second, 0), trees(second, 1));
            for operator in OPERATORS.into_iter().filter(|operator| operator.has_two() || second == 0) {
                // Without a second child the table given for it is left out.
                let every_two = firsts.iter().flat_map(|first| seconds.iter().map(move |other| (first, other)));
                all.extend(every_two.map(|(first, other)| over(operator, first.clone(), other.clone())));
            }
        }
        all
    }

    #[test]
    fn k12_trees_of_up_to_four_operators_are_reported_within_the_need() {
        let mut random = Random::new(11);
        let mut counts = [0; 2];
        let sizes = [[3, 2], [0, 2], [3, 0], [1, 3]].map(|heights| (heights, 3)).into_iter().chain([([3, 2], 4)]);
        for (heights, most) in sizes {
            let tables = tables([3, 2], heights);
            let set = write_set(&tables);
            let all = if most == 4 { trees(4, 0) } else { (0..=most).flat_map(|size| trees(size, 0)).collect() };
            for (turn, tree) in all.iter().enumerate() {
                let plan = write_plan(&plan_of(tree, &tables, turn));
                let need = need_of(&set, &plan).expect("an accepted plan") as usize;
                let expected = report(&set, &plan, ROOMY, need).expect("a report");
                let right = (report_word(Ok(&expected)), expected.codes);
                let given = archive::report(&mut random, &set, &plan, right.1.len(), need);
                assert_eq!(given, Ok(right), "{tree} over {heights:?} rows");
                let below = archive::report(&mut random, &set, &plan, 0, need - 1);
                assert_eq!(below, Ok((16, vec![])), "{tree} over {heights:?} rows");
                counts[usize::from(most == 4)] += 1;
            }
        }
        println!("trees of up to three operators over four pairs of tables {}, of four {}", counts[0], counts[1]);
        // With 5 operators of one child and 6 of two there are 1, 11, 187, 3,905 and 91,069 trees of 0 to 4 operators.
        assert_eq!(counts, [4 * (1 + 11 + 187 + 3_905), 91_069]);
    }
}

#[cfg(not(archive))]
#[test]
fn the_archive_is_there() {
    panic!("no archive: `rt lib` in crates/cabi writes it to crates/cabi/out/libcabi.a of the repository");
}
