//! Plans as trees.

use crate::cells::{BLANK, OFF_SCALE};

/// How two cells are compared.
#[derive(Clone, Copy, Debug, PartialEq, Eq)]
pub enum Comparison {
    Equal,
    NotEqual,
    Less,
    AtMost,
    Greater,
    AtLeast,
}

/// All comparisons, each at its number in a plan's bytes.
pub const COMPARISONS: [Comparison; 6] = [
    Comparison::Equal,
    Comparison::NotEqual,
    Comparison::Less,
    Comparison::AtMost,
    Comparison::Greater,
    Comparison::AtLeast,
];

impl Comparison {
    /// Whether it holds. With a blank or off-scale side it does not, except that a ≠ with exactly one blank side does, unless the
    /// other side is off scale.
    pub fn holds(self, left: i64, right: i64) -> bool {
        match (left, right) {
            (OFF_SCALE, _) | (_, OFF_SCALE) => false,
            (BLANK, BLANK) => false,
            (BLANK, _) | (_, BLANK) => self == Comparison::NotEqual,
            _ => self.holds_of_numbers(left, right),
        }
    }

    /// Whether it holds of two numbers.
    fn holds_of_numbers(self, left: i64, right: i64) -> bool {
        match self {
            Comparison::Equal => left == right,
            Comparison::NotEqual => left != right,
            Comparison::Less => left < right,
            Comparison::AtMost => left <= right,
            Comparison::Greater => left > right,
            Comparison::AtLeast => left >= right,
        }
    }

    /// The same comparison with its sides exchanged (mirrored, not negated).
    pub fn turned(self) -> Comparison {
        match self {
            Comparison::Equal => Comparison::Equal,
            Comparison::NotEqual => Comparison::NotEqual,
            Comparison::Less => Comparison::Greater,
            Comparison::AtMost => Comparison::AtLeast,
            Comparison::Greater => Comparison::Less,
            Comparison::AtLeast => Comparison::AtMost,
        }
    }
}

/// What a test looks at, before its not-mark.
#[derive(Clone, Copy, Debug, PartialEq, Eq)]
pub enum Form {
    Always,
    Columns(Comparison, u8, u8),
    Number(Comparison, u8, i64),
}

/// A test: its form, and whether the outcome is turned round.
#[derive(Clone, Copy, Debug, PartialEq, Eq)]
pub struct Test {
    pub form: Form,
    pub not: bool,
}

/// The plain always test.
pub const ALWAYS: Test = Test { form: Form::Always, not: false };

impl Test {
    /// The column ids the test names.
    pub fn names(&self) -> Vec<u8> {
        match self.form {
            Form::Always => vec![],
            Form::Columns(_, left, right) => vec![left, right],
            Form::Number(_, left, _) => vec![left],
        }
    }

    /// The same test with its not-mark turned.
    pub fn not_turned(&self) -> Test {
        Test { form: self.form, not: !self.not }
    }
}

/// An aggregate with the column it looks at; a count looks at none.
#[derive(Clone, Copy, Debug, PartialEq, Eq)]
pub enum Aggregate {
    Count,
    Sum(u8),
    Least(u8),
    Greatest(u8),
}

impl Aggregate {
    /// The column it looks at.
    pub fn column(self) -> Option<u8> {
        match self {
            Aggregate::Count => None,
            Aggregate::Sum(id) | Aggregate::Least(id) | Aggregate::Greatest(id) => Some(id),
        }
    }
}

/// The comparison of a left key (in a Group: the value) with a right key.
#[derive(Clone, Copy, Debug, PartialEq, Eq)]
pub struct Keys {
    pub left: u8,
    pub comparison: Comparison,
    pub right: u8,
}

/// A plan, or a part of one. In a Group, `keys.left` is the id that byte 3 introduces.
#[derive(Clone, Debug, PartialEq, Eq)]
pub enum Plan {
    Unit,
    Scan { table: u8, first: u8 },
    Select { test: Test, child: Box<Plan> },
    Project { list: Vec<u8>, child: Box<Plan> },
    Distinct { list: Vec<u8>, child: Box<Plan> },
    Cross { left: Box<Plan>, right: Box<Plan> },
    Semi { left_key: u8, right_key: u8, test: Test, left: Box<Plan>, right: Box<Plan> },
    Anti { left_key: u8, right_key: u8, test: Test, left: Box<Plan>, right: Box<Plan> },
    Some { test: Test, left: Box<Plan>, inner: Box<Plan> },
    Every { test: Test, left: Box<Plan>, inner: Box<Plan> },
    Fold { aggregate: Aggregate, new: u8, test: Test, left: Box<Plan>, inner: Box<Plan> },
    Each { left: Box<Plan>, inner: Box<Plan> },
    Pair { aggregate: Aggregate, new: u8, keys: Keys, test: Test, left: Box<Plan>, right: Box<Plan> },
    Group { aggregate: Aggregate, new: u8, keys: Keys, test: Test, child: Box<Plan> },
    Sort { down: bool, list: Vec<u8>, child: Box<Plan> },
}

impl Plan {
    /// The kind's number in a plan's bytes.
    pub fn kind(&self) -> u8 {
        match self {
            Plan::Unit => 0,
            Plan::Scan { .. } => 1,
            Plan::Select { .. } => 2,
            Plan::Project { .. } => 3,
            Plan::Distinct { .. } => 4,
            Plan::Cross { .. } => 5,
            Plan::Semi { .. } => 6,
            Plan::Anti { .. } => 7,
            Plan::Some { .. } => 8,
            Plan::Every { .. } => 9,
            Plan::Fold { .. } => 10,
            Plan::Each { .. } => 11,
            Plan::Pair { .. } => 12,
            Plan::Group { .. } => 13,
            Plan::Sort { .. } => 14,
        }
    }

    /// The children, first child first.
    pub fn children(&self) -> Vec<&Plan> {
        match self {
            Plan::Unit | Plan::Scan { .. } => vec![],
            Plan::Select { child, .. }
            | Plan::Project { child, .. }
            | Plan::Distinct { child, .. }
            | Plan::Group { child, .. }
            | Plan::Sort { child, .. } => vec![child],
            Plan::Cross { left, right }
            | Plan::Semi { left, right, .. }
            | Plan::Anti { left, right, .. }
            | Plan::Pair { left, right, .. } => vec![left, right],
            Plan::Some { left, inner, .. }
            | Plan::Every { left, inner, .. }
            | Plan::Fold { left, inner, .. }
            | Plan::Each { left, inner } => vec![left, inner],
        }
    }

    /// The children, to be changed.
    pub fn children_mut(&mut self) -> Vec<&mut Plan> {
        match self {
            Plan::Unit | Plan::Scan { .. } => vec![],
            Plan::Select { child, .. }
            | Plan::Project { child, .. }
            | Plan::Distinct { child, .. }
            | Plan::Group { child, .. }
            | Plan::Sort { child, .. } => vec![child],
            Plan::Cross { left, right }
            | Plan::Semi { left, right, .. }
            | Plan::Anti { left, right, .. }
            | Plan::Pair { left, right, .. } => vec![left, right],
            Plan::Some { left, inner, .. }
            | Plan::Every { left, inner, .. }
            | Plan::Fold { left, inner, .. }
            | Plan::Each { left, inner } => vec![left, inner],
        }
    }

    /// Whether the second child is an inner plan, which is run for each left row.
    pub fn is_nested(&self) -> bool {
        matches!(self.kind(), 8..=11)
    }

    /// The node's own test, for the kinds that have one.
    pub fn test(&self) -> Option<&Test> {
        match self {
            Plan::Select { test, .. }
            | Plan::Semi { test, .. }
            | Plan::Anti { test, .. }
            | Plan::Some { test, .. }
            | Plan::Every { test, .. }
            | Plan::Fold { test, .. }
            | Plan::Pair { test, .. }
            | Plan::Group { test, .. } => Some(test),
            _ => None,
        }
    }

    /// The number of nodes.
    pub fn size(&self) -> usize {
        1 + self.children().iter().map(|child| child.size()).sum::<usize>()
    }

    /// All nodes in pre-order, this one first.
    pub fn nodes(&self) -> Vec<&Plan> {
        let mut all = Vec::new();
        self.add_nodes(&mut all);
        all
    }

    /// Adds all nodes to those before them.
    fn add_nodes<'a>(&'a self, all: &mut Vec<&'a Plan>) {
        all.push(self);
        for child in self.children() {
            child.add_nodes(all);
        }
    }

    /// The node at a place, place 0 being this one.
    pub fn at(&self, place: usize) -> Option<&Plan> {
        self.nodes().get(place).copied()
    }

    /// The node at a place, to be changed.
    pub fn at_mut(&mut self, place: usize) -> Option<&mut Plan> {
        if place == 0 {
            return Some(self);
        }
        let mut start = 1;
        for child in self.children_mut() {
            let size = child.size();
            if place < start + size {
                return child.at_mut(place - start);
            }
            start += size;
        }
        None
    }

    /// The plan with the subtree at a place replaced; a place past the last node changes nothing.
    pub fn replaced(&self, place: usize, subtree: Plan) -> Plan {
        let mut plan = self.clone();
        if let Some(spot) = plan.at_mut(place) {
            *spot = subtree;
        }
        plan
    }
}
