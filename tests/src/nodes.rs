//! Plans as bytes: refusals 6 to 10, and writing a plan.

use crate::plan::{Aggregate, Comparison, Form, Keys, Plan, Test, COMPARISONS};
use crate::version::{Version, VERSION_2};

/// The bytes of one node in version 2.
pub const NODE: usize = VERSION_2.node;
/// The bytes before the first node.
pub const HEADER: usize = 6;
/// The bytes of the largest plan in version 2.
pub const LARGEST_PLAN: usize = HEADER + 64 * NODE;

/// Reads a plan's bytes of a version as a tree. Refusals 6 to 10, each over the whole plan before the next.
pub fn read_tree(version: &Version, bytes: &[u8]) -> Result<Plan, u8> {
    let count = read_header(version, bytes)?;
    let nodes: Vec<&[u8]> = bytes[HEADER..].chunks(version.node).collect();
    assert_eq!(nodes.len(), count);
    if nodes.iter().any(|node| !fields_are_right(version, node)) {
        return Err(9);
    }
    let mut rest = nodes.into_iter();
    let plan = take_tree(version, &mut rest).ok_or(10)?;
    if rest.next().is_some() {
        return Err(10);
    }
    Ok(plan)
}

/// The node count; refusals 6, 7, 8 and again 6.
fn read_header(version: &Version, bytes: &[u8]) -> Result<usize, u8> {
    if bytes.len() < HEADER {
        return Err(6);
    }
    if !version.is_mark(b"RPT", bytes) {
        return Err(7);
    }
    let count = usize::from(bytes[5]);
    if !(1..=64).contains(&count) {
        return Err(8);
    }
    if bytes.len() != HEADER + version.node * count {
        return Err(6);
    }
    Ok(count)
}

/// A field that a kind may list.
#[derive(Clone, Copy, PartialEq, Eq)]
pub enum Field {
    Table,
    Direction,
    Aggregate,
    NewId,
    LeftKey,
    RightKey,
    Comparison,
    AggregateColumn,
    List,
    Test,
}

/// The fields each kind lists, by the kind's number.
const LISTED: [&[Field]; 15] = {
    use Field::*;
    [
        &[],
        &[Table, NewId],
        &[Test],
        &[List],
        &[List],
        &[],
        &[LeftKey, RightKey, Test],
        &[LeftKey, RightKey, Test],
        &[Test],
        &[Test],
        &[Aggregate, NewId, AggregateColumn, Test],
        &[],
        &[Aggregate, NewId, LeftKey, RightKey, Comparison, AggregateColumn, Test],
        &[Aggregate, NewId, LeftKey, RightKey, Comparison, AggregateColumn, Test],
        &[Direction, List],
    ]
};

/// The fields that a kind lists; none for a number that is no kind.
pub fn listed(kind: u8) -> Option<&'static [Field]> {
    LISTED.get(usize::from(kind)).copied()
}

/// The bytes of a node that a field takes. Those of a test end with its number.
pub fn bytes_of(version: &Version, field: Field) -> std::ops::Range<usize> {
    match field {
        Field::Table | Field::Direction | Field::Aggregate => 1..2,
        Field::NewId => 2..3,
        Field::LeftKey => 3..4,
        Field::RightKey => 4..5,
        Field::Comparison => 5..6,
        Field::AggregateColumn => 6..7,
        Field::List => 8..16,
        Field::Test => 16..20 + version.cell,
    }
}

/// Whether a node's bytes are as its kind says: listed fields in range, all others zero.
fn fields_are_right(version: &Version, node: &[u8]) -> bool {
    let Some(fields) = listed(node[0]) else {
        return false;
    };
    let is_listed = |place: usize| fields.iter().any(|&field| bytes_of(version, field).contains(&place));
    (1..version.node).all(|place| is_listed(place) || node[place] == 0)
        && fields.iter().all(|&field| field_is_right(version, field, node))
}

/// Whether one listed field is in its range. Tables and ids are looked at later.
fn field_is_right(version: &Version, field: Field, node: &[u8]) -> bool {
    match field {
        Field::Table | Field::NewId | Field::LeftKey | Field::RightKey => true,
        Field::Direction => node[1] <= 1,
        Field::Aggregate => node[1] <= 3,
        Field::Comparison => node[5] <= 5,
        Field::AggregateColumn => node[1] != 0 || node[6] == 0,
        Field::List => {
            let length = usize::from(node[8]);
            (1..=7).contains(&length) && node[9 + length..16].iter().all(|&byte| byte == 0)
        }
        Field::Test => test_is_right(version, &node[bytes_of(version, Field::Test)]),
    }
}

/// Whether the bytes of a test are in range: form, comparison, not-mark, left, right or number.
fn test_is_right(version: &Version, test: &[u8]) -> bool {
    let zero = |part: &[u8]| part.iter().all(|&byte| byte == 0);
    test[2] <= 1
        && match test[0] {
            0 => test[1] == 0 && zero(&test[3..]),
            1 => test[1] <= 5 && zero(&test[5..]),
            2 => test[1] <= 5 && version.has_number(version.read_code(&test[4..])),
            _ => false,
        }
}

/// Takes one whole tree from the nodes; none when a child is missing.
fn take_tree<'a>(version: &Version, nodes: &mut impl Iterator<Item = &'a [u8]>) -> Option<Plan> {
    let node = nodes.next()?;
    let test = take_test(version, &node[bytes_of(version, Field::Test)]);
    let list = || node[9..9 + usize::from(node[8])].to_vec();
    let aggregate = take_aggregate(node);
    let new = node[2];
    let (left_key, right_key) = (node[3], node[4]);
    let mut child = || take_tree(version, nodes).map(Box::new);
    Some(match node[0] {
        0 => Plan::Unit,
        1 => Plan::Scan { table: node[1], first: new },
        2 => Plan::Select { test, child: child()? },
        3 => Plan::Project { list: list(), child: child()? },
        4 => Plan::Distinct { list: list(), child: child()? },
        5 => Plan::Cross { left: child()?, right: child()? },
        6 => Plan::Semi { left_key, right_key, test, left: child()?, right: child()? },
        7 => Plan::Anti { left_key, right_key, test, left: child()?, right: child()? },
        8 => Plan::Some { test, left: child()?, inner: child()? },
        9 => Plan::Every { test, left: child()?, inner: child()? },
        10 => Plan::Fold { aggregate, new, test, left: child()?, inner: child()? },
        11 => Plan::Each { left: child()?, inner: child()? },
        12 => Plan::Pair { aggregate, new, keys: take_keys(node), test, left: child()?, right: child()? },
        13 => Plan::Group { aggregate, new, keys: take_keys(node), test, child: child()? },
        _ => Plan::Sort { down: node[1] == 1, list: list(), child: child()? },
    })
}

/// The aggregate of a node whose fields are right (for other kinds the answer is not used).
fn take_aggregate(node: &[u8]) -> Aggregate {
    match node[1] {
        0 => Aggregate::Count,
        1 => Aggregate::Sum(node[6]),
        2 => Aggregate::Least(node[6]),
        _ => Aggregate::Greatest(node[6]),
    }
}

/// The compared keys of a Pair or Group whose fields are right.
fn take_keys(node: &[u8]) -> Keys {
    Keys { left: node[3], comparison: comparison(node[5]), right: node[4] }
}

/// The comparison with this number.
fn comparison(byte: u8) -> Comparison {
    COMPARISONS[usize::from(byte)]
}

/// The test in bytes that are right.
fn take_test(version: &Version, test: &[u8]) -> Test {
    let form = match test[0] {
        0 => Form::Always,
        1 => Form::Columns(comparison(test[1]), test[3], test[4]),
        _ => Form::Number(comparison(test[1]), test[3], version.read_code(&test[4..])),
    };
    Test { form, not: test[2] == 1 }
}

/// Writes a plan in version 2. It checks nothing, so that faulty plans can be written too.
pub fn write_plan(plan: &Plan) -> Vec<u8> {
    write_plan_in(&VERSION_2, plan)
}

/// Writes a plan in a version.
pub fn write_plan_in(version: &Version, plan: &Plan) -> Vec<u8> {
    let nodes: Vec<Vec<u8>> = plan.nodes().into_iter().map(|node| write_node(version, node)).collect();
    write_nodes(version, &nodes)
}

/// Writes a plan of nodes already written.
pub fn write_nodes(version: &Version, nodes: &[Vec<u8>]) -> Vec<u8> {
    let mut bytes = version.mark(b"RPT");
    bytes.push(nodes.len() as u8);
    bytes.extend(nodes.concat());
    bytes
}

/// Writes one node in a version, without its children.
pub fn write_node(version: &Version, plan: &Plan) -> Vec<u8> {
    let mut node = vec![0; version.node];
    node[0] = plan.kind();
    if let Some(test) = plan.test() {
        write_test(version, &mut node[bytes_of(version, Field::Test)], test);
    }
    match plan {
        Plan::Scan { table, first } => {
            node[1] = *table;
            node[2] = *first;
        }
        Plan::Project { list, .. } | Plan::Distinct { list, .. } => write_list(&mut node, list),
        Plan::Sort { down, list, .. } => {
            node[1] = u8::from(*down);
            write_list(&mut node, list);
        }
        Plan::Semi { left_key, right_key, .. } | Plan::Anti { left_key, right_key, .. } => {
            node[3] = *left_key;
            node[4] = *right_key;
        }
        Plan::Fold { aggregate, new, .. } => write_aggregate(&mut node, *aggregate, *new),
        Plan::Pair { aggregate, new, keys, .. } | Plan::Group { aggregate, new, keys, .. } => {
            write_aggregate(&mut node, *aggregate, *new);
            node[3] = keys.left;
            node[4] = keys.right;
            node[5] = keys.comparison as u8;
        }
        _ => {}
    }
    node
}

/// Writes a list of at most seven ids with its length.
fn write_list(node: &mut [u8], list: &[u8]) {
    node[8] = list.len() as u8;
    node[9..9 + list.len()].copy_from_slice(list);
}

/// Writes an aggregate with its column and its new id.
fn write_aggregate(node: &mut [u8], aggregate: Aggregate, new: u8) {
    node[1] = match aggregate {
        Aggregate::Count => 0,
        Aggregate::Sum(_) => 1,
        Aggregate::Least(_) => 2,
        Aggregate::Greatest(_) => 3,
    };
    node[2] = new;
    node[6] = aggregate.column().unwrap_or(0);
}

/// Writes a test into its bytes, which are zero.
fn write_test(version: &Version, bytes: &mut [u8], test: &Test) {
    bytes[2] = u8::from(test.not);
    match test.form {
        Form::Always => {}
        Form::Columns(comparison, left, right) => {
            bytes[0] = 1;
            bytes[1] = comparison as u8;
            bytes[3] = left;
            bytes[4] = right;
        }
        Form::Number(comparison, left, number) => {
            bytes[0] = 2;
            bytes[1] = comparison as u8;
            bytes[3] = left;
            bytes[4..].copy_from_slice(&version.write_code(number));
        }
    }
}
