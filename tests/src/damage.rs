//! Faults: ways to turn an accepted input into one that is refused, each by a route of its own.
//!
//! A fault knows the number that it alone leads to. Two faults at once show whether the order of
//! refusals is kept.

use crate::build::{every, scan, sized, some};
use crate::check::introduced;
use crate::generate::Input;
use crate::nodes::{bytes_of, listed, write_node, write_nodes, Field};
use crate::plan::{Plan, ALWAYS};
use crate::random::Random;
use crate::tables::{write_table, Table};
use crate::version::{Version, VERSION_1, VERSION_2};

mod faults;

pub use faults::{faults, set_pairs};

/// An input being damaged. Faults act on the tree first, then on the nodes' bytes, then on the
/// plan's bytes; the set's bytes are kept table by table.
pub struct Draft {
    version: Version,
    tables: Vec<Table>,
    plan: Plan,
    taken: Vec<usize>,
    nodes: Vec<Vec<u8>>,
    bytes: Vec<u8>,
    parts: Vec<Vec<u8>>,
}

/// What a fault acts on, in the order in which faults are put in.
#[derive(Clone, Copy, Debug, PartialEq, Eq)]
pub enum Stage {
    Tree,
    Nodes,
    Header,
    Set,
}

/// One way to go wrong.
pub struct Fault {
    /// The refusal that this fault alone leads to.
    pub number: u8,
    pub name: &'static str,
    /// Whether it throws away what other faults did, so that it is no part of a pair.
    pub alone: bool,
    stage: Stage,
    /// Where the fault stands in the order of refusals. Faults of the set among themselves go by table.
    pub rank: u8,
    apply: Apply,
}

/// How a fault is put in; the answer is whether it could be.
enum Apply {
    /// A small faulty plan that is put beside the whole plan.
    Beside(fn(&mut Draft) -> Option<Plan>),
    /// A change of nodes, plan bytes or table bytes.
    Change(fn(&mut Draft, &mut Random) -> Option<()>),
}

/// The bytes, in a version, of an input with these faults in it; none if one of them does not suit the input.
pub fn damaged(version: Version, input: &Input, faults: &[&Fault], random: &mut Random) -> Option<(Vec<u8>, Vec<u8>)> {
    let mut draft = Draft {
        version,
        tables: input.tables.clone(),
        plan: input.plan.clone(),
        taken: introduced(&input.plan, &input.tables),
        nodes: vec![],
        bytes: vec![],
        parts: vec![],
    };
    // A fault that comes later in the order of refusals is put in first, so that it stays.
    let mut order: Vec<&&Fault> = faults.iter().collect();
    order.sort_by_key(|fault| std::cmp::Reverse(fault.rank));
    for stage in [Stage::Tree, Stage::Nodes, Stage::Header, Stage::Set] {
        draft.enter(stage);
        for fault in order.iter().filter(|fault| fault.stage == stage) {
            match fault.apply {
                Apply::Beside(make) => {
                    let faulty = make(&mut draft)?;
                    draft.put_beside(faulty, random);
                }
                Apply::Change(change) => change(&mut draft, random)?,
            }
        }
    }
    (draft.nodes.len() <= 64).then(|| (draft.parts.concat(), draft.bytes))
}

impl Draft {
    /// Writes what the last stage left, as the next one takes it.
    fn enter(&mut self, stage: Stage) {
        match stage {
            Stage::Tree => {}
            Stage::Nodes => {
                self.nodes = self.plan.nodes().into_iter().map(|node| write_node(&self.version, node)).collect()
            }
            Stage::Header => self.bytes = write_nodes(&self.version, &self.nodes),
            Stage::Set => self.parts = self.tables.iter().map(|table| write_table(&self.version, table)).collect(),
        }
    }

    /// Puts a plan beside the whole plan so that neither width nor bounds of the two add up.
    fn put_beside(&mut self, faulty: Plan, random: &mut Random) {
        let whole = std::mem::replace(&mut self.plan, Plan::Unit);
        self.plan = match random.below(4) {
            0 => some(ALWAYS, whole, faulty),
            1 => every(ALWAYS, whole, faulty),
            2 => some(ALWAYS, faulty, whole),
            _ => every(ALWAYS, faulty, whole),
        };
    }

    /// The first of so many ids in a row that nothing else has.
    fn fresh(&mut self, width: usize) -> Option<u8> {
        let free = |start: &usize| (*start..start + width).all(|id| !self.taken.contains(&id));
        let start = (0..=256 - width).find(free)?;
        self.taken.extend(start..start + width);
        Some(start as u8)
    }

    /// The number of a new table of a size.
    fn table(&mut self, columns: usize, height: usize) -> Option<u8> {
        if self.tables.len() == 8 {
            return None;
        }
        self.tables.push(sized(columns, height));
        Some(self.tables.len() as u8 - 1)
    }

    /// A Scan of a new table of a size, and its first id.
    fn scan(&mut self, columns: usize, height: usize) -> Option<(Plan, u8)> {
        let first = self.fresh(columns)?;
        Some((scan(self.table(columns, height)?, first), first))
    }

    /// Two Scans of one new table with two columns and two rows, and their first ids.
    fn two_scans(&mut self) -> Option<(Plan, u8, Plan, u8)> {
        let table = self.table(2, 2)?;
        let (one, other) = (self.fresh(2)?, self.fresh(2)?);
        Some((scan(table, one), one, scan(table, other), other))
    }

    /// A random node that lists a field, and for which more holds.
    fn node(&mut self, random: &mut Random, field: Field, more: fn(&[u8]) -> bool) -> Option<&mut Vec<u8>> {
        let lists = |node: &[u8]| listed(node[0]).is_some_and(|fields| fields.contains(&field));
        let places: Vec<usize> =
            (0..self.nodes.len()).filter(|&place| lists(&self.nodes[place]) && more(&self.nodes[place])).collect();
        if places.is_empty() {
            return None;
        }
        let place = random.pick(&places);
        Some(&mut self.nodes[place])
    }

    /// A random node that does not list a field.
    fn node_without(&mut self, random: &mut Random, field: Field) -> Option<&mut Vec<u8>> {
        let bytes_of = |field| bytes_of(&self.version, field);
        let lacks = |node: &[u8]| {
            listed(node[0]).is_some_and(|fields| fields.iter().all(|&own| bytes_of(own) != bytes_of(field)))
        };
        let places: Vec<usize> = (0..self.nodes.len()).filter(|&place| lacks(&self.nodes[place])).collect();
        if places.is_empty() {
            return None;
        }
        let place = random.pick(&places);
        Some(&mut self.nodes[place])
    }

    /// Changes a byte of a random node that lists a field, and for which more holds.
    fn listed(
        &mut self,
        random: &mut Random,
        field: Field,
        more: fn(&[u8]) -> bool,
        place: usize,
        byte: u8,
    ) -> Option<()> {
        self.node(random, field, more)?[place] = byte;
        Some(())
    }

    /// Changes a byte of a random node that does not list its field.
    fn unlisted(&mut self, random: &mut Random, field: Field, place: usize, byte: u8) -> Option<()> {
        *self.node_without(random, field)?.get_mut(place)? = byte;
        Some(())
    }

    /// Changes a byte, among those that version 2 has more than version 1, of a random test for which more holds.
    fn wide_test(&mut self, random: &mut Random, more: fn(&[u8]) -> bool, place: usize, byte: u8) -> Option<()> {
        *self.node(random, Field::Test, more)?.get_mut(place)? = byte;
        Some(())
    }

    /// Changes the number of a random test that has one, to one that is given by the version.
    fn test_number(&mut self, random: &mut Random, number: fn(&Version) -> i64) -> Option<()> {
        let version = self.version;
        let node = self.node(random, Field::Test, |node| node[16] == 2)?;
        node[20..20 + version.cell].copy_from_slice(&version.write_code(number(&version)));
        Some(())
    }

    /// Changes a byte of any node.
    fn any_node(&mut self, random: &mut Random, place: usize, byte: u8) -> Option<()> {
        let node = random.below(self.nodes.len());
        *self.nodes[node].get_mut(place)? = byte;
        Some(())
    }

    /// Makes these the plan's nodes.
    fn only_nodes(&mut self, nodes: Vec<Vec<u8>>) -> Option<()> {
        self.nodes = nodes;
        Some(())
    }

    /// Changes a byte of the plan.
    fn plan_byte(&mut self, place: usize, byte: u8) -> Option<()> {
        self.bytes[place] = byte;
        Some(())
    }

    /// Keeps only so many bytes of the plan.
    fn cut_plan(&mut self, length: usize) -> Option<()> {
        self.bytes.truncate(length);
        Some(())
    }

    /// Puts so many zeros after the plan.
    fn zeros_after_plan(&mut self, count: usize) -> Option<()> {
        self.bytes.resize(self.bytes.len() + count, 0);
        Some(())
    }

    /// Changes a byte of a random table's header.
    fn table_byte(&mut self, random: &mut Random, place: usize, byte: u8) -> Option<()> {
        self.part(random)?[place] = byte;
        Some(())
    }

    /// Changes the row count of a random table.
    fn table_rows(&mut self, random: &mut Random, rows: u16) -> Option<()> {
        self.part(random)?[6..8].copy_from_slice(&rows.to_le_bytes());
        Some(())
    }

    /// The version that the input is not of.
    fn other(&self) -> Version {
        if self.version == VERSION_1 {
            VERSION_2
        } else {
            VERSION_1
        }
    }

    /// A table of so many columns and rows, written.
    fn written(&self, columns: usize, height: usize) -> Vec<u8> {
        write_table(&self.version, &sized(columns, height))
    }

    /// The header of a table.
    fn header(&self, columns: u8, rows: u16) -> Vec<u8> {
        header(&self.version, b"TBL", columns, rows)
    }

    /// A node of a kind whose other bytes are all zero.
    fn of_kind(&self, kind: u8) -> Vec<u8> {
        let mut node = vec![0; self.version.node];
        node[0] = kind;
        node
    }

    /// A random part that has a whole header; a set without tables gets one.
    fn part(&mut self, random: &mut Random) -> Option<&mut Vec<u8>> {
        if self.parts.is_empty() {
            self.parts.push(self.written(2, 2));
        }
        let place = random.below(self.parts.len());
        Some(&mut self.parts[place]).filter(|part| part.len() >= 8)
    }

    /// The last table's bytes, a new table with cells if it can be added.
    fn last_with_cells(&mut self) -> Option<&mut Vec<u8>> {
        if self.parts.len() < 8 {
            self.parts.push(self.written(2, 2));
        }
        self.parts.last_mut().filter(|part| part.len() > 8)
    }

    /// Puts bytes after the last table, which is not the eighth.
    fn after_tables(&mut self, bytes: &[u8]) -> Option<()> {
        if self.parts.len() == 8 {
            return None;
        }
        self.parts.push(bytes.to_vec());
        Some(())
    }

    /// Fills the set up to eight tables and puts bytes after them.
    fn after_eight(&mut self, bytes: &[u8]) -> Option<()> {
        while self.parts.len() < 8 {
            self.parts.push(self.written(1, 1));
        }
        self.parts.push(bytes.to_vec());
        Some(())
    }

    /// Changes one cell of a random table with cells, to a code that is given by the version.
    fn cell(&mut self, random: &mut Random, code: fn(&Version) -> i64) -> Option<()> {
        if self.parts.iter().all(|part| part.len() <= 8) {
            self.last_with_cells()?;
        }
        let places: Vec<usize> = (0..self.parts.len()).filter(|&place| self.parts[place].len() > 8).collect();
        let (part, size) = (&mut self.parts[random.pick(&places)], self.version.cell);
        let start = 8 + size * random.below(((part.len() - 8) / size).max(1));
        part.get_mut(start..start + size)?.copy_from_slice(&self.version.write_code(code(&self.version)));
        Some(())
    }
}

/// The header of a table with this mark.
fn header(version: &Version, letters: &[u8; 3], columns: u8, rows: u16) -> Vec<u8> {
    [&version.mark(letters)[..], &[columns], &rows.to_le_bytes()].concat()
}

/// A fault made by putting a small faulty plan beside the whole plan.
fn beside(number: u8, name: &'static str, make: fn(&mut Draft) -> Option<Plan>) -> Fault {
    Fault { number, name, alone: false, stage: Stage::Tree, rank: 10 * number, apply: Apply::Beside(make) }
}

/// A fault made by a change at a stage.
fn change(number: u8, name: &'static str, stage: Stage, apply: fn(&mut Draft, &mut Random) -> Option<()>) -> Fault {
    Fault { number, name, alone: false, stage, rank: 10 * number, apply: Apply::Change(apply) }
}

/// The same fault, kept out of pairs.
fn alone(fault: Fault) -> Fault {
    Fault { alone: true, ..fault }
}
