//! Plain Rust beside the proved readers of texts: makes a play script of just below 16 MiB, of ordinary lines
//! and some statements of 16,380 to 16,384 bytes, and reads it line by line and splits each line on spaces,
//! without a copy of a word. `make` writes the script to standard output; `script N` and `all N` take it from
//! standard input and do that N times: it is the yardstick of both.

use std::env;
use std::io::{self, Read, Write};

/// Bytes of a script, and of the longest statement.
const SCRIPT: usize = 16_777_216;
const STATEMENT: usize = 16_384;

/// A statement as long as may be: one list of rows.
fn long_statement(number: usize) -> String {
    let mut text = format!("INSERT INTO acc VALUES ({number}, 0)");
    let mut row = 1;
    loop {
        let next = format!(", ({}, {row})", number * 1000 + row);
        if text.len() + next.len() > STATEMENT {
            return text;
        }
        text.push_str(&next);
        row += 1;
    }
}

/// A transaction of a bank: two updates between its first and its last line, and what follows it.
fn ordinary_lines(number: usize) -> String {
    let (region, session) = (number % 2, number % 64);
    let (from, to, amount) = (number % 97, number % 89, number % 50 + 1);
    format!(
        "sql {region}.{session} BEGIN\n\
         sql {region}.{session} UPDATE acc SET amount = amount - {amount} WHERE id = {from}\n\
         sql {region}.{session} UPDATE acc SET amount = amount + {amount} WHERE id = {to}\n\
         sql {region}.{session} SELECT id, amount FROM acc WHERE amount > {amount} AND id <> {to} ORDER BY id LIMIT 10\n\
         sql {region}.{session} COMMIT\n\
         seal {region}\ndeliver {number}\npublish {region}\noutcome {region}.{session}\n"
    )
}

fn make() -> String {
    let mut text = "geogauss play 1\nregions 2\ntable acc (id INT KEY, amount INT NOT NULL)\nbegin\n".to_owned();
    for number in 0.. {
        let next = if number % 64 == 63 {
            format!("sql 0.0 {}\n", long_statement(number))
        } else {
            ordinary_lines(number)
        };
        if text.len() + next.len() > SCRIPT {
            break;
        }
        text.push_str(&next);
    }
    text
}

/// The words of each line.
fn read(text: &str) -> usize {
    let mut lines: Vec<Vec<&str>> = Vec::new();
    for line in text.lines() {
        lines.push(line.split(' ').collect());
    }
    lines.len()
}

fn main() -> io::Result<()> {
    let words: Vec<String> = env::args().skip(1).collect();
    if words[0] == "make" {
        return io::stdout().write_all(make().as_bytes());
    }
    let rounds: u32 = words[1].parse().expect("a number of rounds");
    let mut text = String::new();
    io::stdin().read_to_string(&mut text)?;
    let mut total = 0;
    for _ in 0..rounds {
        total += read(&text);
    }
    println!("{total}");
    Ok(())
}
