//! The set of tables: refusals 1 to 5, and writing a set.

use crate::version::{Version, VERSION_2};

/// One table. Every row has `columns` cells.
#[derive(Clone, Debug, PartialEq, Eq)]
pub struct Table {
    pub columns: usize,
    pub rows: Vec<Vec<i64>>,
}

/// Reads a whole set of a version. The first faulty table decides; a refusal is its number.
pub fn read_set(version: &Version, set: &[u8]) -> Result<Vec<Table>, u8> {
    let mut tables = Vec::new();
    let mut rest = set;
    while !rest.is_empty() {
        if tables.len() == 8 {
            return Err(5);
        }
        let (table, after) = read_table(version, rest)?;
        tables.push(table);
        rest = after;
    }
    Ok(tables)
}

/// Reads the table at the front of the bytes and gives what follows it.
fn read_table<'a>(version: &Version, bytes: &'a [u8]) -> Result<(Table, &'a [u8]), u8> {
    if bytes.len() < 8 {
        return Err(1);
    }
    let (header, cells) = bytes.split_at(8);
    if !version.is_mark(b"TBL", header) {
        return Err(2);
    }
    let columns = usize::from(header[5]);
    let height = usize::from(u16::from_le_bytes([header[6], header[7]]));
    if !(1..=16).contains(&columns) || height > 1000 {
        return Err(3);
    }
    let size = version.cell * columns * height;
    if cells.len() < size {
        return Err(1);
    }
    let codes = cells[..size].chunks(version.cell).map(|cell| version.read_code(cell));
    let cells_read: Vec<i64> = codes.map(|code| version.cell_of(code).ok_or(4)).collect::<Result<_, u8>>()?;
    let rows = cells_read.chunks(columns).map(|row| row.to_vec()).collect();
    Ok((Table { columns, rows }, &cells[size..]))
}

/// Writes the tables one after another in version 2. It checks nothing, so that faulty sets can be written too.
pub fn write_set(tables: &[Table]) -> Vec<u8> {
    write_set_in(&VERSION_2, tables)
}

/// Writes the tables one after another in a version.
pub fn write_set_in(version: &Version, tables: &[Table]) -> Vec<u8> {
    tables.iter().flat_map(|table| write_table(version, table)).collect()
}

/// Writes one table in a version.
pub fn write_table(version: &Version, table: &Table) -> Vec<u8> {
    let mut bytes = version.mark(b"TBL");
    bytes.push(table.columns as u8);
    bytes.extend((table.rows.len() as u16).to_le_bytes());
    for &cell in table.rows.iter().flatten() {
        bytes.extend(version.write_code(version.code_of(cell)));
    }
    bytes
}
