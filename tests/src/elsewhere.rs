//! Lists of steps made elsewhere, each with the plan that it is said to leave (request K7): right ones in every order, cut ones, and wrong
//! ones of many sorts; and what was met of them.

use crate::calls::{follow, read_steps, unnest_tree, whole_steps, write_steps, Followed};
use crate::check::need;
use crate::generate::{accepted, Input};
use crate::nodes::{write_plan, NODE};
use crate::plan::Plan;
use crate::random::Random;
use crate::rules::{first_fit, fit, fitting_steps, try_step};
use crate::tables::Table;

/// A list of steps and the plan that it is said to leave, as bytes.
#[derive(Clone, Debug, PartialEq, Eq)]
pub struct Sent {
    pub steps: Vec<u8>,
    pub theirs: Vec<u8>,
}

/// What a list is made from.
#[derive(Clone, Copy, Debug, PartialEq, Eq)]
pub enum Start {
    /// The unnesting call's list.
    Own,
    /// Steps that fit anywhere, not at the smallest place, until none is left.
    OtherOrder,
    /// The unnesting call's list cut after some steps.
    OwnCut,
    /// The other one cut after some steps.
    OtherCut,
    /// No step.
    Empty,
}

pub const STARTS: [Start; 5] = [Start::Own, Start::OtherOrder, Start::OwnCut, Start::OtherCut, Start::Empty];

/// What is then done to the list. A list without the steps that a change needs gets a step more.
#[derive(Clone, Copy, Debug, PartialEq, Eq)]
pub enum Change {
    Nothing,
    /// One step by another rule, at another place, at a place past the last node, at place 255.
    OtherRule,
    OtherPlace,
    PastLastNode,
    Place255,
    /// Another step that fits in the place of one, if there is another.
    OtherFit,
    /// Two steps exchanged, one left out, one there twice, one put in anywhere.
    Exchanged,
    LeftOut,
    Twice,
    PutIn,
    /// Steps past the last node after the list, so many that a byte or 16 bits would not count them.
    Long,
    /// A step more, whose rule is not one of 1 to 8: first, anywhere, last, and last after a step that does not fit.
    BadRuleFirst,
    BadRuleAnywhere,
    BadRuleLast,
    BadRuleAfterMisfit,
    /// As many steps past the last node, and last of all such a rule.
    LongWithBadRule,
    /// One byte less, one more, and one more after a step that does not fit.
    ByteLess,
    ByteMore,
    ByteMoreAfterMisfit,
}

pub const CHANGES: [Change; 19] = [
    Change::Nothing,
    Change::OtherRule,
    Change::OtherPlace,
    Change::PastLastNode,
    Change::Place255,
    Change::OtherFit,
    Change::Exchanged,
    Change::LeftOut,
    Change::Twice,
    Change::PutIn,
    Change::Long,
    Change::BadRuleFirst,
    Change::BadRuleAnywhere,
    Change::BadRuleLast,
    Change::BadRuleAfterMisfit,
    Change::LongWithBadRule,
    Change::ByteLess,
    Change::ByteMore,
    Change::ByteMoreAfterMisfit,
];

/// The plan that is sent with a list.
#[derive(Clone, Copy, Debug, PartialEq, Eq)]
pub enum End {
    /// The last plan that the list reaches, and the one that it leaves where steps that do not fit are passed over.
    Reached,
    Tried,
    /// The unnesting call's last plan, the given one, any that unnesting passes through.
    Own,
    Given,
    Passed,
    /// The plan reached, with its last byte or node cut off, cut anywhere, and with a byte, a node or more put on.
    ByteLess,
    NodeLess,
    Cut,
    ByteMore,
    NodeMore,
    Tail,
    /// The plan reached, with one byte changed, or the node count.
    ByteChanged,
    CountChanged,
    /// Nothing, another plan, noise.
    Empty,
    Foreign,
    Noise,
}

pub const ENDS: [End; 16] = [
    End::Reached,
    End::Tried,
    End::Own,
    End::Given,
    End::Passed,
    End::ByteLess,
    End::NodeLess,
    End::Cut,
    End::ByteMore,
    End::NodeMore,
    End::Tail,
    End::ByteChanged,
    End::CountChanged,
    End::Empty,
    End::Foreign,
    End::Noise,
];

/// The scratch that a list is checked with, by the needs of the plans reached.
#[derive(Clone, Copy, Debug, PartialEq, Eq)]
pub enum Scratch {
    /// The largest need, one cell less, anything below, and more.
    Largest,
    OneLess,
    Below,
    More,
    /// The needs of the given plan and of the last one, and one cell less than each.
    Given,
    GivenLess,
    Last,
    LastLess,
    /// The need of the unnesting call.
    Own,
    Nothing,
}

pub const SCRATCHES: [Scratch; 10] = [
    Scratch::Largest,
    Scratch::OneLess,
    Scratch::Below,
    Scratch::More,
    Scratch::Given,
    Scratch::GivenLess,
    Scratch::Last,
    Scratch::LastLess,
    Scratch::Own,
    Scratch::Nothing,
];

/// An accepted plan over its tables, with the steps and the plans of its own unnesting.
pub struct Unnesting<'a> {
    pub tables: &'a [Table],
    pub steps: Vec<(u8, u8)>,
    pub passed: Vec<Plan>,
}

/// What the whole steps of a list lead to, with the needs of the plans reached; and whether the list is refused 20.
pub struct Checked {
    pub followed: Followed,
    pub needs: Vec<usize>,
    pub refused: bool,
}

impl Checked {
    /// The largest need of the plans reached.
    pub fn need(&self) -> usize {
        self.needs.iter().copied().max().expect("the given plan")
    }

    /// What the checking call answers.
    pub fn answer(&self, theirs: &[u8], scratch_cells: usize) -> Result<(), u8> {
        if self.refused {
            return Err(20);
        }
        self.followed.judged(self.need() as u64, theirs, scratch_cells)
    }
}

impl<'a> Unnesting<'a> {
    /// The unnesting of an accepted plan.
    pub fn of(tree: &Plan, tables: &'a [Table]) -> Unnesting<'a> {
        let (steps, passed) = unnest_tree(tree, tables);
        Unnesting { tables, steps, passed }
    }

    /// The given plan.
    fn given(&self) -> &Plan {
        &self.passed[0]
    }

    /// The last plan.
    fn last(&self) -> &Plan {
        &self.passed[self.passed.len() - 1]
    }

    /// The unnesting call's list and last plan.
    pub fn own(&self) -> Sent {
        Sent { steps: write_steps(&self.steps), theirs: write_plan(self.last()) }
    }

    /// What a list leads to from the given plan.
    pub fn checked(&self, steps: &[u8]) -> Checked {
        let followed = follow(self.given(), &whole_steps(steps), self.tables);
        let needs = followed.reached.iter().map(|plan| need_of(plan, self.tables)).collect();
        Checked { followed, needs, refused: read_steps(steps).is_err() }
    }

    /// A random list: from any start, with no change, one or two.
    pub fn list(&self, random: &mut Random) -> Vec<u8> {
        let start = random.pick(&STARTS);
        let mut list = self.started(random, start);
        for _ in 0..random.pick(&[0, 0, 0, 1, 1, 1, 2]) {
            let change = random.pick(&CHANGES);
            self.change(random, &mut list, change);
        }
        list
    }

    /// A list as it is made from a start.
    pub fn started(&self, random: &mut Random, start: Start) -> Vec<u8> {
        let steps = match start {
            Start::Empty => vec![],
            Start::Own | Start::OwnCut => self.steps.clone(),
            Start::OtherOrder | Start::OtherCut => self.other_order(random),
        };
        let cut = matches!(start, Start::OwnCut | Start::OtherCut);
        let length = if cut { random.below(steps.len() + 1) } else { steps.len() };
        write_steps(&steps[..length])
    }

    /// Steps that fit anywhere, until none is left.
    fn other_order(&self, random: &mut Random) -> Vec<(u8, u8)> {
        let mut plan = self.given().clone();
        let mut steps = Vec::new();
        loop {
            let fitting = fitting_steps(&plan, self.tables);
            if fitting.is_empty() {
                return steps;
            }
            let (rule, place) = random.pick(&fitting);
            steps.push((rule, place));
            plan = try_step(&plan, rule, usize::from(place), self.tables);
        }
    }

    /// Changes a list.
    pub fn change(&self, random: &mut Random, list: &mut Vec<u8>, change: Change) {
        let count = list.len() / 2;
        let any = 2 * random.below(count + 1);
        match change {
            Change::Nothing => {}
            Change::Exchanged if count >= 2 => {
                let (one, other) = (2 * random.below(count), 2 * random.below(count));
                list.swap(one, other);
                list.swap(one + 1, other + 1);
            }
            Change::LeftOut if any < 2 * count => drop(list.drain(any..any + 2)),
            Change::Twice if any < 2 * count => put_in(list, any, [list[any], list[any + 1]]),
            Change::OtherRule
            | Change::OtherPlace
            | Change::PastLastNode
            | Change::Place255
            | Change::OtherFit
            | Change::Exchanged
            | Change::LeftOut
            | Change::Twice
            | Change::PutIn => {
                let step = self.changed_step(random, list, any / 2, change);
                // Put in where the list has no step there, or one is to be put in; else in the place of the one there.
                if any < 2 * count && change != Change::PutIn {
                    list[any..any + 2].copy_from_slice(&step);
                } else {
                    put_in(list, any, step);
                }
            }
            Change::Long => past_last_node(random, list),
            Change::BadRuleFirst => put_in(list, 0, bad_step(random)),
            Change::BadRuleAnywhere => put_in(list, any, bad_step(random)),
            Change::BadRuleLast => put_in(list, 2 * count, bad_step(random)),
            Change::BadRuleAfterMisfit => {
                put_in(list, any, [random.between(1, 8) as u8, 255]);
                put_in(list, 2 * count + 2, bad_step(random));
            }
            Change::LongWithBadRule => {
                past_last_node(random, list);
                list.extend(bad_step(random));
            }
            Change::ByteLess if !list.is_empty() => list.truncate(list.len() - 1),
            Change::ByteLess | Change::ByteMore => list.push(random.below(12) as u8),
            Change::ByteMoreAfterMisfit => {
                put_in(list, any, [random.between(1, 8) as u8, 255]);
                list.push(random.below(12) as u8);
            }
        }
    }

    /// The step that a change makes of one, which may be past the end of the list.
    fn changed_step(&self, random: &mut Random, list: &[u8], number: usize, change: Change) -> [u8; 2] {
        let steps = whole_steps(list);
        let before = follow(self.given(), &steps[..number], self.tables);
        let plan = before.last();
        let any = (random.between(1, 8) as u8, random.below(plan.size() + 3) as u8);
        let (rule, place) = steps.get(number).copied().unwrap_or(any);
        match change {
            Change::OtherRule => [1 + (usize::from(rule) + random.below(7)) as u8 % 8, place],
            Change::OtherPlace => [rule, place.wrapping_add(random.between(1, plan.size() + 2) as u8)],
            Change::PastLastNode => {
                // Also by as many places further as there are nodes, or can be.
                let size = plan.size() as u8;
                let [by_nodes, by_most] = [size, 64].map(|places| place.saturating_add(places));
                [rule, random.pick(&[size, size + 1, 64, 128, 254, by_nodes, by_most])]
            }
            Change::Place255 => [rule, 255],
            Change::OtherFit => {
                let mut others = fitting_steps(plan, self.tables);
                others.retain(|&other| other != (rule, place));
                let (rule, place) = if others.is_empty() { any } else { random.pick(&others) };
                [rule, place]
            }
            _ => [any.0, any.1],
        }
    }

    /// The plan that is sent with a list.
    pub fn end(&self, random: &mut Random, steps: &[u8], checked: &Checked, end: End) -> Vec<u8> {
        let reached = write_plan(checked.followed.last());
        let length = reached.len();
        let put_on = |more: Vec<u8>| [&reached[..], &more].concat();
        match end {
            End::Reached => reached,
            End::Tried => write_plan(&self.tried(steps)),
            End::Own => write_plan(self.last()),
            End::Given => write_plan(self.given()),
            End::Passed => write_plan(&random.pick(&self.passed)),
            End::ByteLess => reached[..length - 1].to_vec(),
            End::NodeLess => reached[..length - NODE].to_vec(),
            End::Cut => reached[..random.below(length)].to_vec(),
            End::ByteMore => put_on(vec![random.pick(&[0, 1, 255])]),
            End::NodeMore => put_on(vec![0; NODE]),
            End::Tail => {
                let more = random.pick(&[2, 31, 256, 300, 4096, 1 << 16]);
                put_on((0..more).map(|_| random.bits() as u8).collect())
            }
            End::ByteChanged => {
                let place = random.below(length);
                changed_byte(random, reached, place)
            }
            End::CountChanged => changed_byte(random, reached, 5),
            End::Empty => vec![],
            End::Foreign => write_plan(&accepted(random).plan),
            End::Noise => (0..random.between(1, 2 * length)).map(|_| random.bits() as u8).collect(),
        }
    }

    /// The plan that a list leaves where the steps that do not fit are passed over.
    fn tried(&self, steps: &[u8]) -> Plan {
        let try_one = |plan: Plan, (rule, place): (u8, u8)| match usize::from(place) {
            place if place < plan.size() => try_step(&plan, rule, place, self.tables),
            _ => plan,
        };
        whole_steps(steps).into_iter().fold(self.given().clone(), try_one)
    }

    /// The cells of scratch that a list is checked with.
    pub fn scratch(&self, random: &mut Random, checked: &Checked, scratch: Scratch) -> usize {
        let (need, given, last) = (checked.need(), checked.needs[0], checked.needs[checked.needs.len() - 1]);
        match scratch {
            Scratch::Largest => need,
            Scratch::OneLess => need - 1,
            Scratch::Below => random.below(need),
            Scratch::More => need + random.between(1, 400),
            Scratch::Given => given,
            Scratch::GivenLess => given - 1,
            Scratch::Last => last,
            Scratch::LastLess => last - 1,
            Scratch::Own => self.passed.iter().map(|plan| need_of(plan, self.tables)).max().expect("the given plan"),
            Scratch::Nothing => 0,
        }
    }
}

/// The need of a plan, in cells of scratch.
fn need_of(plan: &Plan, tables: &[Table]) -> usize {
    need(plan, tables) as usize
}

/// Puts a step into a list.
fn put_in(list: &mut Vec<u8>, at: usize, step: [u8; 2]) {
    list.splice(at..at, step);
}

/// Puts steps past the last node after a list.
fn past_last_node(random: &mut Random, list: &mut Vec<u8>) {
    let count = match random.below(40) {
        0 => 1 << 16,
        1 => 1 << 15,
        2..=19 => random.between(1_000, 5_000),
        _ => random.pick(&[128, 256, 384]),
    };
    let steps = (0..count).flat_map(|_| [random.between(1, 8) as u8, random.between(64, 255) as u8]);
    list.extend(steps.collect::<Vec<u8>>());
}

/// A step whose rule is not one of 1 to 8.
fn bad_step(random: &mut Random) -> [u8; 2] {
    let any = random.between(9, 255) as u8;
    [random.pick(&[0, 0, 9, 9, 255, any]), random.pick(&[0, 0, 1, 255])]
}

/// A plan's bytes with another one at a place.
fn changed_byte(random: &mut Random, mut plan: Vec<u8>, place: usize) -> Vec<u8> {
    plan[place] ^= random.pick(&[1, 2, 4, 8, 16, 32, 64, 128, 255]);
    plan
}

/// Bytes of any sort for a list and a plan, where the input is refused and they do not matter.
pub fn anything(random: &mut Random, plan: &[u8]) -> Sent {
    let mut list: Vec<u8> = (0..random.below(9)).map(|_| random.below(10) as u8).collect();
    if random.chance(50) {
        list.truncate(list.len() / 2 * 2);
        list.iter_mut().step_by(2).for_each(|rule| *rule = 1 + *rule % 8);
    }
    let theirs = if random.chance(50) { plan.to_vec() } else { list.clone() };
    Sent { steps: list, theirs }
}

/// A random accepted input with several places where a rule fits, so that its steps can come in more than one order.
pub fn with_several_places(random: &mut Random) -> Input {
    loop {
        let input = accepted(random);
        if fitting_steps(&input.plan, &input.tables).len() >= 2 {
            return input;
        }
    }
}

/// How often each sort of list, end and refusal was met.
#[derive(Clone, Default, Debug)]
pub struct Met {
    /// Accepted: our own list; one in another order, after which no rule fits; one that is cut; the empty one.
    pub accepted: [usize; 4],
    /// Accepted in another order: with our own last plan, and with another.
    pub ends: [usize; 2],
    /// Refused 21: for a step by another rule than the one that fits, where none fits, past the last node; for a plan that is shorter, longer,
    /// or differs in a byte.
    pub refused_21: [usize; 6],
    /// Refused 16 for a later plan than the given one: for the last one alone, of which there are two at least; for one between the given and
    /// the last one, whose needs are met.
    pub refused_16: [usize; 2],
    /// Refused 16 where the next refusal would be 21: for a step that does not fit, and for the end alone.
    pub before_21: [usize; 2],
    /// Refused 20: where otherwise nothing would be wrong; where the next refusal would be 16; where it would be 21.
    pub refused_20: [usize; 3],
    /// Refused 20 for what stands after a step that does not fit.
    pub after_misfit: usize,
}

impl Met {
    /// Counts a call with this list, plan and scratch.
    pub fn count(&mut self, unnesting: &Unnesting, sent: &Sent, checked: &Checked, scratch: usize) {
        match checked.answer(&sent.theirs, scratch) {
            Ok(()) => self.count_accepted(unnesting, sent, checked),
            Err(21) => self.refused_21[why_21(unnesting, sent, checked)] += 1,
            Err(16) => {
                let met: Vec<bool> = checked.needs.iter().map(|need| need <= &scratch).collect();
                let (last, before) = met.split_last().expect("the given plan");
                self.refused_16[0] += usize::from(!before.is_empty() && !last && before.iter().all(|met| *met));
                self.refused_16[1] += usize::from(met[0] && *last);
                if checked.followed.judged(0, &sent.theirs, scratch) == Err(21) {
                    self.before_21[usize::from(checked.followed.all_fit)] += 1;
                }
            }
            Err(_) => {
                let next = match checked.followed.judged(checked.need() as u64, &sent.theirs, scratch) {
                    Ok(()) => 0,
                    Err(16) => 1,
                    Err(_) => 2,
                };
                self.refused_20[next] += 1;
                self.after_misfit += usize::from(read_steps(before_misfit(sent, checked)).is_ok());
            }
        }
    }

    /// Counts a list and an end that are accepted.
    fn count_accepted(&mut self, unnesting: &Unnesting, sent: &Sent, checked: &Checked) {
        let own = unnesting.own();
        let sort = match &sent.steps {
            steps if steps.is_empty() => 3,
            steps if *steps == own.steps => 0,
            _ if first_fit(checked.followed.last(), unnesting.tables).is_none() => 1,
            _ => 2,
        };
        self.accepted[sort] += 1;
        if sort == 1 {
            self.ends[usize::from(sent.theirs != own.theirs)] += 1;
        }
    }

    /// The counts as lines of text.
    pub fn lines(&self) -> String {
        let [own, other, cut, empty] = self.accepted;
        let [rule, none, past, shorter, longer, byte] = self.refused_21;
        let [last, between] = self.refused_16;
        let [misfit, end] = self.before_21;
        let [alone, before_16, before_21] = self.refused_20;
        format!("lists accepted: our own {own}, in another order {other}, cut {cut}, empty {empty}; ")
            + &format!("in another order to our last plan {}, to another {}\n", self.ends[0], self.ends[1])
            + &format!("21 for a step by another rule {rule}, where none fits {none}, past the last node {past}; ")
            + &format!("for a plan that is shorter {shorter}, longer {longer}, different in a byte {byte}\n")
            + &format!("16 for the last plan alone {last}, for one between {between}, ")
            + &format!("before 21 for a step that does not fit {misfit}, for the end {end}; ")
            + &format!("20 alone {alone}, before 16 {before_16}, before 21 {before_21}, ")
            + &format!("after a step that does not fit {}\n", self.after_misfit)
    }
}

/// The part of a list up to and with the first step that does not fit.
fn before_misfit<'a>(sent: &'a Sent, checked: &Checked) -> &'a [u8] {
    let length = 2 * checked.followed.reached.len();
    &sent.steps[..length.min(sent.steps.len())]
}

/// Why a list or its end is refused 21, by the places in `Met::refused_21`.
fn why_21(unnesting: &Unnesting, sent: &Sent, checked: &Checked) -> usize {
    let Followed { reached, all_fit } = &checked.followed;
    let plan = checked.followed.last();
    if !all_fit {
        let (_, place) = whole_steps(&sent.steps)[reached.len() - 1];
        return match fit(plan, usize::from(place), unnesting.tables) {
            _ if usize::from(place) >= plan.size() => 2,
            Some(_) => 0,
            None => 1,
        };
    }
    match write_plan(plan).len() {
        length if sent.theirs.len() < length => 3,
        length if sent.theirs.len() > length => 4,
        _ => 5,
    }
}
