//! Holds the archive's calls against the second evaluator, input by input, and counts what was met.
//!
//! Input number i of a seed is drawn from the seed plus i, so a difference can be met again alone.

use crate::archive;
use crate::between::Met;
use crate::calls;
use crate::cases::{damaged_once, damaged_once_in, fault_case};
use crate::cells::{BLANK, OFF_SCALE};
use crate::check::{need, need_before};
use crate::convert::{convert_word, converted, Converted, Way};
use crate::damage::{faults, Fault};
use crate::downward::{decided_by_equal_rows, sorts_with_equal_rows};
use crate::elsewhere::{
    self, anything, with_several_places, Checked, End, Scratch, Sent, Start, Unnesting, ENDS, SCRATCHES,
};
use crate::evaluate::{column_cells, first_occurrences, Left};
use crate::funds::{self, fund, prize_day, FundSort, FUND_SORTS};
use crate::generate::{accepted, common_beginning, downward, in_place, steps, totals, unequal, with_between, Input};
use crate::large;
use crate::nodes::write_plan_in;
use crate::plan::Comparison::NotEqual;
use crate::plan::{Aggregate, Form, Plan, Test};
use crate::prizes::{prize_word, prizes_within, Fund};
use crate::random::Random;
use crate::rules::{sequences, stay_position};
use crate::tables::{write_set_in, Table};
use crate::version::{VERSION_1, VERSION_2};
use crate::wide::{narrowed, wide_totals};

/// How often each answer and each rule was met.
#[derive(Clone, Default)]
pub struct Counts {
    pub inputs: usize,
    /// Answers of the calls by their number, 0 for none.
    pub reports: [usize; 17],
    pub unnestings: [usize; 17],
    pub stay_notes: [usize; 17],
    pub checks: [usize; 22],
    pub prizes: [usize; 19],
    /// Steps of the unnesting call by rule.
    pub rules: [usize; 9],
    /// Tried steps that fitted, by rule, and those that did not, at 0.
    pub tried: [usize; 9],
    /// Stay notes given: those with position 0, and those with a later one.
    pub notes: [usize; 2],
    /// Those of them where just one sequence has ended at the position.
    pub ended: usize,
    /// Sums that a plan's first node took: those that are numbers, blank, off scale.
    pub sums: [usize; 3],
    /// Reports with a sum, at any node, that left the range of numbers; that left 64 bits; that would be back in the range if kept in 64 bits.
    pub left: [usize; 3],
    /// Sides that a plan's first node compared by ≠, in a Select, a Pair and a Group: one blank, both blank, one or both off scale.
    pub unequal: [[usize; 3]; 3],
    /// Downward Sorts that had rows equal in all listed columns.
    pub equal_rows: usize,
    /// Plans with such Sorts where the order of equal rows decided the report, the rules of the steps, the first node's note.
    pub decided: [usize; 3],
    /// What stood between nested steps and their Selects, and the steps through a Project.
    pub between: Met,
    /// What keys were looked up in, Sorts and inner plans.
    pub large: large::Met,
    /// Lists of steps made elsewhere, and their ends.
    pub elsewhere: elsewhere::Met,
    /// Funds and prize fund tables.
    pub funds: funds::Met,
    /// Accepted inputs whose need is below the one before request K12.
    pub smaller_needs: usize,
    /// Calls of the three that met 16 by the need before request K12 and do not now: those refused 15, and those answered.
    pub no_longer_16: [[usize; 2]; 3],
}

impl Counts {
    /// The counts as lines of text.
    pub fn lines(&self) -> String {
        let answers = [&self.reports[..], &self.unnestings, &self.stay_notes, &self.checks, &self.prizes];
        let calls = answers.map(|counts| counts.iter().sum::<usize>());
        let by_rule =
            |counts: &[usize; 9]| (1..=8).map(|rule| format!(" U{rule}:{}", counts[rule])).collect::<String>();
        format!("inputs {}, calls {}\n", self.inputs, calls.iter().sum::<usize>())
            + &by_number("report", &self.reports, &[])
            + &by_number("unnest", &self.unnestings, &[])
            + &by_number("stay note", &self.stay_notes, &[])
            + &by_number("check steps", &self.checks, &[20, 21])
            + &by_number("prizes", &self.prizes, &[17, 18])
            + &format!("notes with position 0 {}, with a later one {}, ", self.notes[0], self.notes[1])
            + &format!("where just one sequence has ended {}\n", self.ended)
            + &format!("sums that are numbers {}, blank {}, off scale {}\n", self.sums[0], self.sums[1], self.sums[2])
            + &self.left_line()
            + &self.unequal_line()
            + &self.downward_line()
            + &self.between.lines()
            + &self.large.lines()
            + &self.need_line()
            + &self.elsewhere.lines()
            + &self.funds.lines()
            + &format!("steps of the unnesting call{}\n", by_rule(&self.rules))
            + &format!("tried steps that fitted{}, that did not {}\n", by_rule(&self.tried), self.tried[0])
    }

    /// The counts of reports with sums that left the range, as a line of text.
    pub fn left_line(&self) -> String {
        let [range, bits, back] = self.left;
        format!("reports with a sum that left the range {range}, that left 64 bits {bits}, ")
            + &format!("and would be back in the range there {back}\n")
    }

    /// The counts of sides compared by ≠, as a line of text.
    pub fn unequal_line(&self) -> String {
        let of_kind = |(kind, [one, both, off_scale]): (&str, [usize; 3])| {
            format!("in a {kind} one blank {one}, both blank {both}, off scale {off_scale}")
        };
        let kinds = ["Select", "Pair", "Group"].into_iter().zip(self.unequal).map(of_kind);
        format!("sides of ≠: {}\n", kinds.collect::<Vec<_>>().join("; "))
    }

    /// The counts of downward Sorts, as a line of text.
    pub fn downward_line(&self) -> String {
        let [reports, steps, notes] = self.decided;
        format!("downward Sorts with rows equal in all listed columns {}, ", self.equal_rows)
            + &format!("whose order decided the report {reports}, the steps {steps}, the first node's note {notes}\n")
    }

    /// The counts of needs below those before request K12, as a line of text.
    pub fn need_line(&self) -> String {
        let [report, unnest, [_, notes]] = self.no_longer_16;
        let of_call = |[short, answered]: [usize; 2]| format!("answered {answered}, refused 15 {short}");
        format!("needs below those before K12 {}; calls that met 16 by those and do not now: ", self.smaller_needs)
            + &format!("report {}; unnest {}; stay note answered {notes}\n", of_call(report), of_call(unnest))
    }

    /// The counts of lists of steps made elsewhere, as lines of text.
    pub fn elsewhere_lines(&self) -> String {
        let [accepted, short, bad, different] = [0, 16, 20, 21].map(|number| self.checks[number]);
        format!("lists of steps: accepted {accepted}, refused 16 {short}, 20 {bad}, 21 {different}\n")
            + &self.elsewhere.lines()
    }

    /// The counts of the prize call, as lines of text.
    pub fn prize_lines(&self) -> String {
        let [answered, scratch, fund, columns, room] = [0, 16, 17, 18, 15].map(|number| self.prizes[number]);
        format!("prize fund tables {answered}, refused 16 {scratch}, 17 {fund}, 18 {columns}, 15 {room}\n")
            + &self.funds.lines()
    }

    /// Counts a call (0 report, 1 unnest, 2 stay note) if it met 16 by the need before request K12 and does not now.
    fn count_no_longer_16(&mut self, call: usize, scratch: usize, before: usize, refusal: Option<u8>) {
        match refusal {
            _ if scratch >= before => {}
            None => self.no_longer_16[call][1] += 1,
            Some(15) => self.no_longer_16[call][0] += 1,
            Some(_) => {}
        }
    }

    /// Counts a report whose evaluation had these sums.
    fn count_left(&mut self, left: Left) {
        let sums = [left.range, left.bits, left.back];
        self.left.iter_mut().zip(sums).for_each(|(count, sums)| *count += usize::from(sums > 0));
    }

    /// Counts the downward Sorts of an accepted plan that have rows equal in all listed columns, and what their order decides.
    fn count_downward(&mut self, plan: &Plan, tables: &[Table]) {
        let sorts = sorts_with_equal_rows(plan, tables);
        if sorts > 0 {
            self.equal_rows += sorts;
            let decided = decided_by_equal_rows(plan, tables);
            self.decided.iter_mut().zip(decided).for_each(|(count, decided)| *count += usize::from(decided));
        }
    }

    /// Counts the sides that the first node of an accepted plan compares by ≠. Two numbers are not counted.
    fn count_unequal(&mut self, plan: &Plan, tables: &[Table]) {
        let Some((kind, sides)) = unequal_sides(plan, tables) else { return };
        for sides in sides {
            match sides {
                (OFF_SCALE, _) | (_, OFF_SCALE) => self.unequal[kind][2] += 1,
                (BLANK, BLANK) => self.unequal[kind][1] += 1,
                (BLANK, _) | (_, BLANK) => self.unequal[kind][0] += 1,
                _ => {}
            }
        }
    }

    /// Counts the sums that the first node of an accepted plan takes: they stand last in the report's rows.
    fn count_sums(&mut self, plan: &Plan, report: &calls::Report) {
        let (Plan::Fold { aggregate, .. } | Plan::Pair { aggregate, .. } | Plan::Group { aggregate, .. }) = plan else {
            return;
        };
        if let Aggregate::Sum(_) = aggregate {
            for row in report.codes.chunks(report.columns) {
                let place = match row.last() {
                    Some(&BLANK) => 1,
                    Some(&OFF_SCALE) => 2,
                    _ => 0,
                };
                self.sums[place] += 1;
            }
        }
    }
}

/// The answers of a call by their number, as a line of text: 1 to 16, and these more.
fn by_number(name: &str, counts: &[usize], more: &[usize]) -> String {
    let refused = (1..=16).chain(more.iter().copied());
    let numbers: String = refused.map(|number| format!(" {number}:{}", counts[number])).collect();
    format!("{name}: answered {}, refused{numbers}\n", counts[0])
}

/// The sides that the first node of an accepted plan compares by ≠, for a Select (0), a Pair (1) and a Group (2).
fn unequal_sides(plan: &Plan, tables: &[Table]) -> Option<(usize, Vec<(i64, i64)>)> {
    let cells = |child: &Plan, id: u8| column_cells(child, id, tables);
    let every_two = |left: Vec<i64>, right: Vec<i64>| -> Vec<(i64, i64)> {
        left.iter().flat_map(|&one| right.iter().map(move |&other| (one, other))).collect()
    };
    match plan {
        Plan::Select { test: Test { form: Form::Columns(NotEqual, left, right), .. }, child } => {
            Some((0, cells(child, *left).into_iter().zip(cells(child, *right)).collect()))
        }
        Plan::Select { test: Test { form: Form::Number(NotEqual, left, number), .. }, child } => {
            Some((0, every_two(cells(child, *left), vec![*number])))
        }
        Plan::Pair { keys, left, right, .. } if keys.comparison == NotEqual => {
            Some((1, every_two(cells(left, keys.left), cells(right, keys.right))))
        }
        Plan::Group { keys, child, .. } if keys.comparison == NotEqual => {
            let right_keys = cells(child, keys.right);
            Some((2, every_two(first_occurrences(&right_keys), right_keys)))
        }
        _ => None,
    }
}

/// Holds so many inputs against the second evaluator, those of the seed and the ones after it. The first difference ends it.
pub fn hold_seeds(seed: u64, count: u64, counts: &mut Counts) -> Result<(), String> {
    let faults = faults();
    for seed in seed..seed + count {
        let mut random = Random::new(seed);
        let (set, plan) = drawn(&mut random, &faults);
        hold(&mut random, &set, &plan, counts).map_err(|difference| format!("seed {seed}: {difference}"))?;
    }
    Ok(())
}

/// How many rows, or pairs of rows, the second evaluator may look at for the report of an input with many rows.
const WORK: u64 = 100_000;

/// A random input: accepted; with one fault or two; or with bytes changed, cut off or put on anywhere.
fn drawn(random: &mut Random, faults: &[Fault]) -> (Vec<u8>, Vec<u8>) {
    match random.below(100) {
        0..=42 => bytes_of(&accepted(random)),
        43..=44 => bytes_of(&with_several_places(random)),
        45 => bytes_of(&wide_totals(random)),
        46..=47 => bytes_of(&large::large(random, WORK)),
        48..=49 => bytes_of(&in_place(random)),
        50..=51 => bytes_of(&with_between(random)),
        52..=53 => bytes_of(&downward(random)),
        54..=55 => bytes_of(&unequal(random)),
        56..=57 => bytes_of(&totals(random)),
        58..=59 => bytes_of(&common_beginning(random)),
        60..=73 => {
            let fault = random.below(faults.len());
            let case = fault_case(random, &faults[fault]);
            (case.set, case.plan)
        }
        74..=87 => two_faults(random, faults),
        88..=89 => bytes_of(&prize_day(random)),
        _ => mangled(random),
    }
}

/// The bytes of an input.
fn bytes_of(input: &Input) -> (Vec<u8>, Vec<u8>) {
    (input.set_bytes(), input.plan_bytes())
}

/// An input with two faults. Some two suit no input together, so they are picked anew each time.
fn two_faults(random: &mut Random, faults: &[Fault]) -> (Vec<u8>, Vec<u8>) {
    let pairable: Vec<&Fault> = faults.iter().filter(|fault| !fault.alone).collect();
    loop {
        let pair = [random.pick(&pairable), random.pick(&pairable)];
        if let Some(case) = damaged_once(random, &pair) {
            return (case.set, case.plan);
        }
    }
}

/// An accepted input with a few bytes changed, cut off or put on.
fn mangled(random: &mut Random) -> (Vec<u8>, Vec<u8>) {
    let (mut set, mut plan) = bytes_of(&accepted(random));
    mangle(random, &mut set, &mut plan);
    (set, plan)
}

/// Changes a few bytes, cuts some off or puts some on.
fn mangle(random: &mut Random, set: &mut Vec<u8>, plan: &mut Vec<u8>) {
    for _ in 0..random.between(1, 3) {
        let bytes = if random.chance(30) { &mut *set } else { &mut *plan };
        let place = random.below(bytes.len() + 1);
        match random.below(10) {
            0 => bytes.truncate(place),
            1 => bytes.insert(place, random.bits() as u8),
            _ if place == bytes.len() => bytes.push(0),
            2..=4 => bytes[place] = random.bits() as u8,
            _ => bytes[place] = random.below(16) as u8,
        }
    }
}

/// Holds all calls on one input against the second evaluator.
pub fn hold(random: &mut Random, set: &[u8], plan: &[u8], counts: &mut Counts) -> Result<(), String> {
    counts.inputs += 1;
    let due = due_of(set, plan, counts);
    hold_rooms(random, set, plan, &due, counts)?;
    hold_tried_steps(random, set, plan, counts)?;
    hold_unnest(random, set, plan, counts)?;
    hold_stay_notes(random, set, plan, counts)?;
    hold_check_steps(random, set, plan, counts)?;
    hold_prizes(random, set, plan, &due, counts)
}

/// One less than a room, or the same where there is none.
fn below(room: usize) -> usize {
    room.saturating_sub(1)
}

/// Half of the time one less than a room.
fn often_below(random: &mut Random, room: usize) -> usize {
    if random.chance(50) {
        below(room)
    } else {
        room
    }
}

/// What the reporting call has to give of an accepted input in rooms that are large enough; its need, and the one before request K12; and the
/// sums that left a range.
pub struct Due {
    pub report: calls::Report,
    need: usize,
    before: usize,
    left: Left,
}

impl Due {
    /// What it has to give of this plan.
    pub fn of(tree: &Plan, tables: &[Table]) -> Due {
        let (need, before) = (need(tree, tables) as usize, need_before(tree, tables) as usize);
        assert!(need <= before, "a need of {need} cells that was {before}");
        let (report, left) = calls::report_in(VERSION_2, tree, tables);
        Due { report, need, before, left }
    }
}

/// The reporting call, and what an accepted plan has of the things that are counted.
pub fn hold_report(random: &mut Random, set: &[u8], plan: &[u8], counts: &mut Counts) -> Result<(), String> {
    let due = due_of(set, plan, counts);
    hold_rooms(random, set, plan, &due, counts)
}

/// What is due of an input, or the number that refuses it. Counts what an accepted plan has of the things that are counted.
fn due_of(set: &[u8], plan: &[u8], counts: &mut Counts) -> Result<Due, u8> {
    calls::read(set, plan).map(|(tables, tree)| {
        let due = Due::of(&tree, &tables);
        counts.smaller_needs += usize::from(due.need < due.before);
        counts.count_sums(&tree, &due.report);
        counts.count_unequal(&tree, &tables);
        counts.count_downward(&tree, &tables);
        counts.between.count(&tree, &tables);
        counts.large.count(&tree, &tables);
        due
    })
}

/// The reporting call at the edge of both rooms, with one cell of scratch less, and at one pair of rooms around it; and with scratch that was
/// below the need before request K12 and no longer is. What is due of the input, or the number that refuses it, is given.
pub fn hold_rooms(
    random: &mut Random,
    set: &[u8],
    plan: &[u8],
    due: &Result<Due, u8>,
    counts: &mut Counts,
) -> Result<(), String> {
    let (cells, need, before) = match due {
        Ok(due) => {
            counts.count_left(due.left);
            (due.report.codes.len(), due.need, due.before)
        }
        Err(_) => (random.below(9), random.below(5000), 0),
    };
    let around = match random.below(6) {
        0 => (below(cells), need),
        1 => (cells, below(need)),
        2 => (below(cells), below(need)),
        3 => (0, random.below(need + 1)),
        4 => (random.below(cells + 1), need),
        _ => (cells + random.below(40), need + random.below(400)),
    };
    let no_longer_16 = (need < before).then(|| (often_below(random, cells), random.between(need, before - 1)));
    for (out, scratch) in [(cells, need), (cells, below(need)), around].into_iter().chain(no_longer_16) {
        let rooms = format!("report with room {out} and scratch {scratch}");
        let expected = match due {
            Ok(due) => due.report.within(need as u64, out, scratch),
            Err(number) => Err(*number),
        };
        let (word, codes) =
            archive::report(random, set, plan, out, scratch).map_err(|error| format!("{rooms}: {error}"))?;
        counts.reports[expected.err().map_or(0, usize::from)] += 1;
        counts.count_no_longer_16(0, scratch, before, expected.err());
        let right = calls::report_word(expected);
        if word != right {
            return Err(format!("{rooms}: the word is {word:#x} and not {right:#x}"));
        }
        if expected.is_ok_and(|report| report.codes != codes) {
            return Err(format!("{rooms}: the codes differ"));
        }
    }
    Ok(())
}

/// Demand 3 with a random list of steps: the archive's reports of an accepted plan and of the plan that the list leaves are the same.
fn hold_tried_steps(random: &mut Random, set: &[u8], plan: &[u8], counts: &mut Counts) -> Result<(), String> {
    let Ok((tables, tree)) = calls::read(set, plan) else { return Ok(()) };
    if random.chance(60) {
        return Ok(());
    }
    let input = Input { tables, plan: tree };
    let list = steps(random, &input);
    let mut left = plan.to_vec();
    for &step in &list {
        let after = calls::try_steps(set, &left, &[step]).expect("an accepted plan");
        counts.tried[if after == left { 0 } else { usize::from(step.0) }] += 1;
        left = after;
    }
    let scratch = calls::need_of(set, plan).max(calls::need_of(set, &left)).expect("accepted plans") as usize;
    let given = archive::report(random, set, plan, 1 << 17, scratch)?;
    if given != archive::report(random, set, &left, 1 << 17, scratch)? {
        return Err(format!("the steps {list:?} change the report"));
    }
    if calls::report_columns(set, plan) != calls::report_columns(set, &left) {
        return Err(format!("the steps {list:?} change the columns"));
    }
    Ok(())
}

/// The unnesting call at the edge of its three rooms, at rooms around it, and with scratch that was below the need before request K12 and no
/// longer is; and the report of the plan that it leaves.
pub fn hold_unnest(random: &mut Random, set: &[u8], plan: &[u8], counts: &mut Counts) -> Result<(), String> {
    let left = calls::read(set, plan).map(|(tables, tree)| {
        let (steps, passed) = calls::unnest_tree(&tree, &tables);
        let before = passed.iter().map(|plan| need_before(plan, &tables)).max().expect("the given plan");
        (calls::unnested_of(steps, &passed), calls::largest_need(&passed, &tables) as usize, before as usize)
    });
    let (bytes, step_bytes, need, before) = match &left {
        Ok((left, need, before)) => (left.plan.len(), 2 * left.steps.len(), *need, *before),
        Err(_) => (random.below(9), random.below(9), random.below(5000), 0),
    };
    let around = match random.below(7) {
        0 => (below(bytes), step_bytes, need),
        1 => (bytes, below(step_bytes), need),
        2 => (bytes, step_bytes, below(need)),
        3 => (below(bytes), below(step_bytes), below(need)),
        4 => (0, 0, random.below(need + 1)),
        5 => (random.below(bytes + 1), random.below(step_bytes + 1), need),
        _ => (bytes + random.below(40), step_bytes + random.below(9), need + random.below(400)),
    };
    let no_longer_16 = (need < before)
        .then(|| (often_below(random, bytes), often_below(random, step_bytes), random.between(need, before - 1)));
    for (plan_room, step_room, scratch) in [(bytes, step_bytes, need), around].into_iter().chain(no_longer_16) {
        let rooms = format!("unnest with rooms {plan_room}, {step_room} and scratch {scratch}");
        let expected = match &left {
            Ok((left, ..)) => left.within(need as u64, plan_room, step_room, scratch),
            Err(number) => Err(*number),
        };
        let (word, plan_left, steps) = archive::unnest(random, set, plan, plan_room, step_room, scratch)
            .map_err(|error| format!("{rooms}: {error}"))?;
        counts.unnestings[expected.err().map_or(0, usize::from)] += 1;
        counts.count_no_longer_16(1, scratch, before, expected.err());
        let right = calls::unnest_word(expected);
        if word != right {
            return Err(format!("{rooms}: the word is {word:#x} and not {right:#x}"));
        }
        let Ok(expected) = expected else { continue };
        expected.steps.iter().for_each(|&(rule, _)| counts.rules[usize::from(rule)] += 1);
        if steps != calls::write_steps(&expected.steps) {
            return Err(format!("{rooms}: the steps are {steps:?} and not {:?}", expected.steps));
        }
        if plan_left != expected.plan {
            return Err(format!("{rooms}: the plan left differs"));
        }
    }
    let Ok((left, ..)) = left else { return Ok(()) };
    if archive::report(random, set, plan, 1 << 17, need)? != archive::report(random, set, &left.plan, 1 << 17, need)? {
        return Err(format!("unnesting by {:?} changes the report", left.steps));
    }
    Ok(())
}

/// The stay note call at a few places: one where a note is due if there is one, anywhere, and past the last node.
pub fn hold_stay_notes(random: &mut Random, set: &[u8], plan: &[u8], counts: &mut Counts) -> Result<(), String> {
    let read = calls::read(set, plan);
    let (size, due, need, before) = match &read {
        Ok((tables, tree)) => {
            let due = |&place: &usize| stay_position(tree, place, tables).is_some();
            let (need, before) = (need(tree, tables) as usize, need_before(tree, tables) as usize);
            (tree.size(), (0..tree.size()).find(due), need, before)
        }
        Err(_) => (random.between(1, 9), None, random.below(5000), 0),
    };
    let shown = due.unwrap_or_else(|| random.below(size));
    let past = [size, 64, 255, 256 + shown, (1 << 32) + shown, usize::MAX];
    let places = [shown, random.below(size), random.pick(&past)];
    for place in places {
        let scratch = match random.below(7) {
            0 => below(need),
            1 => random.below(need + 1),
            2 => need + random.below(400),
            3 if need < before => random.between(need, before - 1),
            _ => need,
        };
        let call = format!("stay note for {place} with scratch {scratch}");
        let expected = calls::stay_note(set, plan, place, scratch);
        let word = archive::stay_note(random, set, plan, place, scratch).map_err(|error| format!("{call}: {error}"))?;
        counts.stay_notes[expected.as_ref().err().map_or(0, |&number| usize::from(number))] += 1;
        counts.count_no_longer_16(2, scratch, before, expected.as_ref().err().copied());
        let right = calls::stay_note_word(&expected);
        if word != right {
            return Err(format!("{call}: the word is {word:#x} and not {right:#x}, as {expected:?} is due"));
        }
        let (Ok((tables, tree)), Ok(Some(position))) = (&read, expected) else { continue };
        let (values, keys) = sequences(tree, place, tables).expect("the sequences of a note");
        counts.notes[usize::from(position > 0)] += 1;
        counts.ended += usize::from(position == values.len().min(keys.len()));
    }
    Ok(())
}

// ---- lists of steps made elsewhere

/// The checking call: with the plan's own list and last plan, with scratch of exactly the unnesting call's need and of one cell less; with that
/// list cut after each step, to the plan reached and to the last one; with one in another order; with random lists, ends and scratch; and
/// where the input is refused, with anything.
pub fn hold_check_steps(random: &mut Random, set: &[u8], plan: &[u8], counts: &mut Counts) -> Result<(), String> {
    let (tables, tree) = match calls::read(set, plan) {
        Ok(read) => read,
        Err(number) => return hold_refused_check(random, set, plan, number, counts),
    };
    let unnesting = Unnesting::of(&tree, &tables);
    let mut holder = SentHolder { set, plan, unnesting: &unnesting, counts };
    let own = unnesting.own();
    let need = calls::largest_need(&unnesting.passed, &tables) as usize;
    let checked = unnesting.checked(&own.steps);
    if checked.answer(&own.theirs, need).is_err() {
        return Err(format!("our own list {:?} is not accepted", own.steps));
    }
    holder.hold(random, &own, &checked, need)?;
    holder.hold(random, &own, &checked, below(need))?;
    for steps in 0..unnesting.steps.len() {
        let cut = &own.steps[..2 * steps];
        holder.hold_made(random, cut, &[End::Reached, End::Own], &[Scratch::Largest])?;
    }
    if unnesting.steps.len() >= 2 {
        let other = unnesting.started(random, Start::OtherOrder);
        holder.hold_made(random, &other, &[End::Reached], &[Scratch::Largest])?;
    }
    for _ in 0..3 {
        let steps = unnesting.list(random);
        let end = if random.chance(60) { End::Reached } else { random.pick(&ENDS) };
        let scratch = if random.chance(40) { Scratch::Largest } else { random.pick(&SCRATCHES) };
        holder.hold_made(random, &steps, &[end], &[scratch])?;
    }
    Ok(())
}

/// The checking call on an input that is refused: whatever the list, the end and scratch are, the number is the input's.
fn hold_refused_check(
    random: &mut Random,
    set: &[u8],
    plan: &[u8],
    number: u8,
    counts: &mut Counts,
) -> Result<(), String> {
    for scratch in [0, random.below(5000)] {
        let Sent { steps, theirs } = anything(random, plan);
        let call = format!("check of {steps:?} with scratch {scratch}");
        let word = archive::check_steps(random, set, plan, &steps, &theirs, scratch)
            .map_err(|error| format!("{call}: {error}"))?;
        counts.checks[usize::from(number)] += 1;
        if word != u64::from(number) {
            return Err(format!("{call}: the word is {word:#x} and not {number}"));
        }
    }
    Ok(())
}

/// What holds the checking call on an accepted input.
pub struct SentHolder<'a> {
    pub set: &'a [u8],
    pub plan: &'a [u8],
    pub unnesting: &'a Unnesting<'a>,
    pub counts: &'a mut Counts,
}

impl SentHolder<'_> {
    /// The call with a list, with each of these ends beside each of these amounts of scratch.
    pub fn hold_made(
        &mut self,
        random: &mut Random,
        steps: &[u8],
        ends: &[End],
        scratches: &[Scratch],
    ) -> Result<(), String> {
        let checked = self.unnesting.checked(steps);
        for &end in ends {
            let theirs = self.unnesting.end(random, steps, &checked, end);
            let sent = Sent { steps: steps.to_vec(), theirs };
            for &scratch in scratches {
                let cells = self.unnesting.scratch(random, &checked, scratch);
                self.hold(random, &sent, &checked, cells)
                    .map_err(|difference| format!("{end:?}, {scratch:?}: {difference}"))?;
            }
        }
        Ok(())
    }

    /// The call with a list and its end, and this scratch.
    pub fn hold(&mut self, random: &mut Random, sent: &Sent, checked: &Checked, scratch: usize) -> Result<(), String> {
        let Sent { steps, theirs } = sent;
        let shown = &steps[..steps.len().min(40)];
        let call = format!("check of {} bytes of steps {shown:?} with scratch {scratch}", steps.len());
        let expected = checked.answer(theirs, scratch);
        let word = archive::check_steps(random, self.set, self.plan, steps, theirs, scratch)
            .map_err(|error| format!("{call}: {error}"))?;
        self.counts.checks[expected.err().map_or(0, usize::from)] += 1;
        self.counts.elsewhere.count(self.unnesting, sent, checked, scratch);
        let right = calls::check_steps_word(expected);
        if word != right {
            return Err(format!("{call}: the word is {word:#x} and not {right:#x}"));
        }
        Ok(())
    }
}

// ---- the prize fund table

/// The prize call: with a right fund, at the edge of both rooms, with one cell of output less and with one of scratch less; with a wrong fund in
/// enough room; and with any fund in any rooms. What is due of the input, or the number that refuses it, is given.
pub fn hold_prizes(
    random: &mut Random,
    set: &[u8],
    plan: &[u8],
    due: &Result<Due, u8>,
    counts: &mut Counts,
) -> Result<(), String> {
    let (cells, need) = match due {
        Ok(due) => (2 * due.report.rows, due.need),
        Err(_) => (random.below(9), random.below(5000)),
    };
    let mut holder = FundHolder { set, plan, due, counts };
    let right = fund(random, FundSort::Right);
    let [wrong, any] = [&FUND_SORTS[1..], &FUND_SORTS].map(|sorts| {
        let sort = random.pick(sorts);
        fund(random, sort)
    });
    holder.hold(random, &right, cells, need)?;
    if due.is_err() {
        return holder.hold(random, &wrong, 0, 0);
    }
    holder.hold(random, &right, below(cells), need)?;
    holder.hold(random, &right, cells, below(need))?;
    holder.hold(random, &wrong, cells, need)?;
    let (out, scratch) = match random.below(4) {
        0 => (below(cells), need),
        1 => (below(cells), below(need)),
        2 => (random.below(cells + 1), random.below(need + 1)),
        _ => (cells + random.between(1, 40), need + random.between(1, 400)),
    };
    holder.hold(random, &any, out, scratch)
}

/// What holds the prize call on an input, of which is given what is due.
pub struct FundHolder<'a> {
    pub set: &'a [u8],
    pub plan: &'a [u8],
    pub due: &'a Result<Due, u8>,
    pub counts: &'a mut Counts,
}

impl FundHolder<'_> {
    /// The call with a fund of every sort, and as many right ones, in rooms on both sides of each edge.
    pub fn hold_every_sort(&mut self, random: &mut Random) -> Result<(), String> {
        let (cells, need) = self.due.as_ref().map_or((4, 4_100), |due| (2 * due.report.rows, due.need));
        for sort in FUND_SORTS.into_iter().flat_map(|sort| [sort, FundSort::Right]) {
            let fund = fund(random, sort);
            let more = (cells + random.between(1, 40), need + random.between(1, 400));
            for (out, scratch) in [(cells, need), (below(cells), need), (0, need), more, (cells, below(need)), (0, 0)] {
                self.hold(random, &fund, out, scratch)?;
            }
        }
        Ok(())
    }

    /// The call with a fund, in these rooms.
    pub fn hold(&mut self, random: &mut Random, fund: &Fund, out: usize, scratch: usize) -> Result<(), String> {
        let shown = &fund.shares[..fund.shares.len().min(24)];
        let call = format!(
            "prizes of {} by {} shares {shown:?} with room {out} and scratch {scratch}",
            fund.purse,
            fund.shares.len()
        );
        let expected = match self.due {
            Ok(due) => {
                self.counts.funds.count(&due.report, due.need as u64, fund, out, scratch);
                prizes_within(&due.report, due.need as u64, fund, out, scratch)
            }
            Err(number) => Err(*number),
        };
        let (word, cells) = archive::prize(random, self.set, self.plan, fund, out, scratch)
            .map_err(|error| format!("{call}: {error}"))?;
        self.counts.prizes[expected.as_ref().err().map_or(0, |&number| usize::from(number))] += 1;
        let right = prize_word(&expected);
        if word != right {
            return Err(format!("{call}: the word is {word:#x} and not {right:#x}"));
        }
        let due = expected.map_or(vec![], |prizes| prizes.cells());
        match cells.iter().zip(&due).position(|(cell, due)| cell != due) {
            None => Ok(()),
            Some(place) => Err(format!("{call}: cell {place} is {} and not {}", cells[place], due[place])),
        }
    }
}

// ---- the converter

/// Answers of the converter up and down by their number, 0 for none; 25 is the largest.
pub type Conversions = [[usize; 26]; 2];

/// Holds so many inputs for the converter, half of them for either way, against the second evaluator. The first difference ends it.
pub fn hold_conversions(seed: u64, count: u64, counts: &mut Conversions) -> Result<(), String> {
    let faults = faults();
    for seed in seed..seed + count {
        let mut random = Random::new(seed);
        let way = random.pick(&[Way::Up, Way::Down]);
        let (set, plan) = to_convert(&mut random, way, &faults);
        hold_convert(&mut random, way, &set, &plan, counts)
            .map_err(|difference| format!("seed {seed}: {difference}"))?;
    }
    Ok(())
}

/// A random input for the converter: accepted, up always with numbers that fit and down mostly; with one fault; or with bytes changed.
fn to_convert(random: &mut Random, way: Way, faults: &[Fault]) -> (Vec<u8>, Vec<u8>) {
    let (from, _) = way.versions();
    if random.chance(40) {
        let fault = random.below(faults.len());
        if let Some(case) = damaged_once_in(from, random, &[&faults[fault]]) {
            return (case.set, case.plan);
        }
    }
    let input = match random.below(20) {
        0 => large::large(random, WORK),
        1..=4 => totals(random),
        _ => accepted(random),
    };
    let input = if way == Way::Up || random.chance(70) { narrowed(input) } else { input };
    let (mut set, mut plan) = (write_set_in(&from, &input.tables), write_plan_in(&from, &input.plan));
    if random.chance(15) {
        mangle(random, &mut set, &mut plan);
    }
    (set, plan)
}

/// The converter's call of a way at the edge of both rooms, with either one byte short, and at one pair of rooms around it; and the archive's
/// report of a pair taken up, which is the old one wherever no sum left the old range.
pub fn hold_convert(
    random: &mut Random,
    way: Way,
    set: &[u8],
    plan: &[u8],
    counts: &mut Conversions,
) -> Result<(), String> {
    let due = converted(way, set, plan);
    let (set_bytes, plan_bytes) = match &due {
        Ok(due) => (due.set.len(), due.plan.len()),
        Err(_) => (random.below(2 * set.len() + 9), random.below(2 * plan.len() + 9)),
    };
    let around = match random.below(3) {
        0 => (random.below(set_bytes + 1), random.below(plan_bytes + 1)),
        1 => (below(set_bytes), below(plan_bytes)),
        _ => (set_bytes + random.below(40), plan_bytes + random.below(40)),
    };
    for (set_room, plan_room) in
        [(set_bytes, plan_bytes), (below(set_bytes), plan_bytes), (set_bytes, below(plan_bytes)), around]
    {
        let rooms = format!("{way:?} with rooms {set_room} and {plan_room}");
        let expected = match &due {
            Ok(due) => due.within(set_room, plan_room),
            Err(number) => Err(*number),
        };
        let (word, set_given, plan_given) = archive::convert(random, way, set, plan, set_room, plan_room)
            .map_err(|error| format!("{rooms}: {error}"))?;
        counts[way as usize][expected.err().map_or(0, usize::from)] += 1;
        let right = convert_word(expected);
        if word != right {
            return Err(format!("{rooms}: the word is {word:#x} and not {right:#x}"));
        }
        if expected.is_ok_and(|due| due.set != set_given || due.plan != plan_given) {
            return Err(format!("{rooms}: the pair differs"));
        }
    }
    match (way, due) {
        (Way::Up, Ok(due)) => hold_converted_report(random, set, plan, &due),
        _ => Ok(()),
    }
}

/// The archive's report of a pair taken up beside the second evaluator's of the pair of version 1, where no sum left the old range.
fn hold_converted_report(random: &mut Random, set: &[u8], plan: &[u8], due: &Converted) -> Result<(), String> {
    let (tables, tree) = calls::read_in(&VERSION_1, set, plan).expect("a pair that was taken up");
    let (old, left) = calls::report_in(VERSION_1, &tree, &tables);
    let scratch = need(&tree, &tables) as usize;
    let (_, codes) = archive::report(random, &due.set, &due.plan, 1 << 17, scratch)?;
    if left.range == 0 && codes != old.codes {
        return Err("the report of the pair taken up is not the old one".to_string());
    }
    Ok(())
}
