//! Plain Rust beside the proved codec: makes a batch of close to 4 MiB, and reads and writes it in plain
//! loops. `make` writes the batch to standard output; `read N` and `write N` take it from standard input and
//! do that N times.

use std::env;
use std::io::{self, Read, Write};

enum Cell {
    Null,
    Int(i64),
    Text(String),
    Truth(bool),
}

enum Change {
    Put(Vec<Cell>),
    Remove(Cell),
}

struct Candidate {
    start: u32,
    changes: Vec<(u8, Change)>,
}

struct Batch {
    region: u8,
    epoch: u32,
    items: Vec<Candidate>,
}

/// Rows of a candidate, candidates of the batch, and bytes of a row's text.
const ROWS: u32 = 1024;
const CANDIDATES: u32 = 65;
const NOTE: usize = 40;

/// Columns behind the key of the one table: a number and a text.
const OTHERS: usize = 2;

fn make() -> Vec<u8> {
    let mut out = b"GGB2".to_vec();
    out.push(0);
    out.extend(1u32.to_be_bytes());
    out.extend(CANDIDATES.to_be_bytes());
    for candidate in 0..CANDIDATES {
        out.extend(0u32.to_be_bytes());
        out.extend(ROWS.to_be_bytes());
        for row in 0..ROWS {
            out.extend([0, 1]);
            out.push(1);
            out.extend(i64::from(candidate * ROWS + row).to_be_bytes());
            out.push(1);
            out.extend(i64::from(row * 7).to_be_bytes());
            out.push(2);
            out.extend((NOTE as u16).to_be_bytes());
            out.extend((0..NOTE).map(|i| b'a' + ((row as usize + i) % 26) as u8));
        }
    }
    out
}

fn number(bytes: &[u8], at: &mut usize) -> Option<u32> {
    let field = bytes.get(*at..*at + 4)?;
    *at += 4;
    Some(u32::from_be_bytes(field.try_into().ok()?))
}

fn byte(bytes: &[u8], at: &mut usize) -> Option<u8> {
    let byte = *bytes.get(*at)?;
    *at += 1;
    Some(byte)
}

fn cell(bytes: &[u8], at: &mut usize) -> Option<Cell> {
    Some(match byte(bytes, at)? {
        0 => Cell::Null,
        1 => {
            let field = bytes.get(*at..*at + 8)?;
            *at += 8;
            Cell::Int(i64::from_be_bytes(field.try_into().ok()?))
        }
        2 => {
            let field = bytes.get(*at..*at + 2)?;
            let len = usize::from(u16::from_be_bytes(field.try_into().ok()?));
            let text = bytes.get(*at + 2..*at + 2 + len)?;
            *at += 2 + len;
            Cell::Text(std::str::from_utf8(text).ok()?.to_owned())
        }
        3 => Cell::Truth(false),
        4 => Cell::Truth(true),
        _ => return None,
    })
}

fn read(bytes: &[u8]) -> Option<Batch> {
    let mut at = 4;
    let region = byte(bytes, &mut at)?;
    let epoch = number(bytes, &mut at)?;
    let count = number(bytes, &mut at)?;
    let mut items = Vec::new();
    for _ in 0..count {
        let start = number(bytes, &mut at)?;
        let rows = number(bytes, &mut at)?;
        let mut changes = Vec::new();
        for _ in 0..rows {
            let table = byte(bytes, &mut at)?;
            let kind = byte(bytes, &mut at)?;
            let key = cell(bytes, &mut at)?;
            let change = if kind == 1 {
                let mut row = vec![key];
                for _ in 0..OTHERS {
                    row.push(cell(bytes, &mut at)?);
                }
                Change::Put(row)
            } else {
                Change::Remove(key)
            };
            changes.push((table, change));
        }
        items.push(Candidate { start, changes });
    }
    (at == bytes.len()).then_some(Batch { region, epoch, items })
}

fn write_cell(out: &mut Vec<u8>, cell: &Cell) {
    match cell {
        Cell::Null => out.push(0),
        Cell::Int(n) => {
            out.push(1);
            out.extend(n.to_be_bytes());
        }
        Cell::Text(text) => {
            out.push(2);
            out.extend((text.len() as u16).to_be_bytes());
            out.extend(text.as_bytes());
        }
        Cell::Truth(truth) => out.push(3 + u8::from(*truth)),
    }
}

fn write(batch: &Batch) -> Vec<u8> {
    let mut out = b"GGB2".to_vec();
    out.push(batch.region);
    out.extend(batch.epoch.to_be_bytes());
    out.extend((batch.items.len() as u32).to_be_bytes());
    for candidate in &batch.items {
        out.extend(candidate.start.to_be_bytes());
        out.extend((candidate.changes.len() as u32).to_be_bytes());
        for (table, change) in &candidate.changes {
            out.push(*table);
            match change {
                Change::Put(row) => {
                    out.push(1);
                    row.iter().for_each(|cell| write_cell(&mut out, cell));
                }
                Change::Remove(key) => {
                    out.push(2);
                    write_cell(&mut out, key);
                }
            }
        }
    }
    out
}

fn main() -> io::Result<()> {
    let words: Vec<String> = env::args().skip(1).collect();
    if words[0] == "make" {
        return io::stdout().write_all(&make());
    }
    let rounds: u32 = words[1].parse().expect("a number of rounds");
    let mut bytes = Vec::new();
    io::stdin().read_to_end(&mut bytes)?;
    let batch = read(&bytes).expect("a batch");
    let mut total = 0;
    for _ in 0..rounds {
        total += match words[0].as_str() {
            "read" => read(&bytes).expect("a batch").items.len(),
            _ => write(&batch).len(),
        };
    }
    println!("{total}");
    Ok(())
}
