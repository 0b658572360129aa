//! Plain Rust beside the proved merge of an epoch: the same candidates, the same words with the same steps on them, threads of
//! std, and no proofs. Without a number of rounds it does nothing; else it prints what the program does.

use std::collections::BTreeMap;
use std::env;
use std::sync::atomic::{AtomicU64, Ordering};
use std::thread;
use std::time::Instant;

const REGIONS: u8 = 8;
const CANDIDATES: u32 = 4_096;
const ROWS_BITS: u32 = 14;

const CLAIMED: usize = 0;
const DONE: usize = 1;
const JUDGED: usize = 2;
const HEADERS: usize = 3;

#[derive(Clone, PartialEq, Eq, PartialOrd, Ord)]
#[allow(dead_code)]
enum Cell {
    Null,
    Int(i64),
    Text(String),
    Truth(bool),
}

#[derive(Clone, PartialEq, Eq, PartialOrd, Ord)]
struct RowId {
    table: u8,
    key: Vec<Cell>,
}

#[allow(dead_code)]
enum Change {
    Put(Vec<Cell>),
    Remove,
    Touch,
}

struct Candidate {
    start: u32,
    set: Vec<(RowId, Change)>,
}

struct Batch {
    region: u8,
    items: Vec<Candidate>,
}

fn key_of(number: u32, place: u32) -> i64 {
    let spread = number
        .wrapping_mul(2_654_435_761)
        .wrapping_add(place.wrapping_mul(2_246_822_519));
    i64::from(place) * (1i64 << ROWS_BITS) + i64::from(spread >> (32 - ROWS_BITS))
}

fn candidate(number: u32, rows: u32) -> Candidate {
    let put = |place| {
        let cells = vec![Cell::Int(key_of(number, place))];
        let row = RowId {
            table: 0,
            key: cells.clone(),
        };
        (row, Change::Put(cells))
    };
    Candidate {
        start: 0,
        set: (0..rows).map(put).collect(),
    }
}

fn eight_regions(rows: u32) -> Vec<Batch> {
    let batch = |region: u8| {
        let first = u32::from(region) * CANDIDATES;
        Batch {
            region,
            items: (first..first + CANDIDATES)
                .map(|number| candidate(number, rows))
                .collect(),
        }
    };
    (0..REGIONS).map(batch).collect()
}

/// Rows in the order in which they came, each once, with a table of their places by their hashes.
struct Rows {
    names: Vec<RowId>,
    hashes: Vec<u64>,
    places: Vec<u32>,
}

fn mixed(hash: u64, value: u64) -> u64 {
    let product = u128::from(hash ^ value) * 0x9E37_79B9_7F4A_7C15_F39C_C060_5CED_C835_u128;
    (product >> 64) as u64 ^ product as u64
}

fn hash_of(row: &RowId) -> u64 {
    row.key.iter().fold(mixed(0x243F_6A88_85A3_08D3, u64::from(row.table)), |hash, cell| match cell {
        Cell::Null => mixed(hash, 0),
        Cell::Int(n) => mixed(mixed(hash, 1), *n as u64),
        Cell::Text(text) => text.bytes().fold(mixed(hash, 2), |h, b| mixed(h, u64::from(b))),
        Cell::Truth(truth) => mixed(mixed(hash, 3), u64::from(*truth)),
    })
}

impl Rows {
    fn new() -> Rows {
        Rows {
            names: Vec::new(),
            hashes: Vec::new(),
            places: vec![u32::MAX; 16],
        }
    }

    fn slot(&self, hash: u64, row: &RowId) -> usize {
        let mask = self.places.len() - 1;
        let mut at = hash as usize & mask;
        loop {
            let place = self.places[at] as usize;
            if place == u32::MAX as usize || (self.hashes[place] == hash && self.names[place] == *row) {
                return at;
            }
            at = (at + 1) & mask;
        }
    }

    fn grow(&mut self) {
        let mask = self.places.len() * 2 - 1;
        self.places = vec![u32::MAX; mask + 1];
        for (place, hash) in self.hashes.iter().enumerate() {
            let mut at = *hash as usize & mask;
            while self.places[at] != u32::MAX {
                at = (at + 1) & mask;
            }
            self.places[at] = place as u32;
        }
    }

    fn number(&mut self, row: &RowId) -> u32 {
        if self.names.len() * 2 >= self.places.len() {
            self.grow();
        }
        let hash = hash_of(row);
        let at = self.slot(hash, row);
        if self.places[at] == u32::MAX {
            self.places[at] = self.names.len() as u32;
            self.names.push(row.clone());
            self.hashes.push(hash);
        }
        self.places[at]
    }
}

struct Entry {
    region: u8,
    csn: u32,
    start: u32,
    rows: Vec<u32>,
}

#[derive(Clone, Copy)]
struct CandId {
    epoch: u32,
    region: u8,
    csn: u32,
}

#[derive(Clone, Copy)]
enum Verdict {
    Committed,
    Changed(u32, u32),
    Beaten(u32, CandId),
}

#[allow(dead_code)]
enum Outcome {
    Committed,
    Changed(RowId, u32),
    Beaten(RowId, CandId),
}

/// What a round asks of the epochs before it.
trait Changes {
    fn last_change(&self, row: &RowId) -> u32;
}

/// The rows of the snapshot, none of which was ever changed.
struct Known<'a> {
    rows: &'a BTreeMap<RowId, u8>,
}

impl Changes for Known<'_> {
    fn last_change(&self, row: &RowId) -> u32 {
        self.rows.get(row).map_or(0, |epoch| u32::from(*epoch))
    }
}

fn rows_known(count: u32) -> BTreeMap<RowId, u8> {
    let row = |key| RowId {
        table: 0,
        key: vec![Cell::Int(i64::from(key))],
    };
    (0..count).map(|key| (row(key), 0)).collect()
}

struct Round<C> {
    epoch: u32,
    _batches: Vec<Batch>,
    before: C,
    rows: Rows,
    entries: Vec<Entry>,
    words: Vec<AtomicU64>,
}

struct Seat {
    verdicts: Vec<Option<Verdict>>,
}

impl<C: Changes> Round<C> {
    fn new(batches: Vec<Batch>, before: C, workers: u8) -> (Round<C>, Vec<Seat>) {
        let mut rows = Rows::new();
        let mut entries = Vec::new();
        for batch in &batches {
            for (csn, candidate) in batch.items.iter().enumerate() {
                entries.push(Entry {
                    region: batch.region,
                    csn: csn as u32,
                    start: candidate.start,
                    rows: candidate.set.iter().map(|(row, _)| rows.number(row)).collect(),
                });
            }
        }
        let words = (0..rows.names.len() + HEADERS).map(|_| AtomicU64::new(0)).collect();
        let seats = (0..workers)
            .map(|_| Seat {
                verdicts: vec![None; entries.len()],
            })
            .collect();
        let round = Round {
            epoch: 1,
            _batches: batches,
            before,
            rows,
            entries,
            words,
        };
        (round, seats)
    }

    fn first_changed(&self, entry: &Entry) -> Option<(u32, u32)> {
        for number in &entry.rows {
            let last = self.before.last_change(&self.rows.names[*number as usize]);
            if last > entry.start {
                return Some((*number, last));
            }
        }
        None
    }

    fn word_of(entry: &Entry) -> u64 {
        let csn = (1u64 << 24) - 1 - u64::from(entry.csn);
        let region = u64::from(u8::MAX - entry.region);
        (u64::from(entry.start) + 1) << 32 | csn << 8 | region
    }

    fn claim_next(&self) -> bool {
        let number = self.words[CLAIMED].fetch_add(1, Ordering::SeqCst) as usize;
        let Some(entry) = self.entries.get(number) else {
            return false;
        };
        if self.first_changed(entry).is_none() {
            let word = Self::word_of(entry);
            for row in &entry.rows {
                self.words[*row as usize + HEADERS].fetch_max(word, Ordering::SeqCst);
            }
        }
        self.words[DONE].fetch_add(1, Ordering::SeqCst);
        true
    }

    fn verdict(&self, entry: &Entry) -> Verdict {
        if let Some((row, last)) = self.first_changed(entry) {
            return Verdict::Changed(row, last);
        }
        let word = Self::word_of(entry);
        for row in &entry.rows {
            let header = self.words[*row as usize + HEADERS].load(Ordering::SeqCst);
            if header > word {
                let winner = CandId {
                    epoch: self.epoch,
                    region: u8::MAX - header as u8,
                    csn: (1u32 << 24) - 1 - (header >> 8) as u32 % (1 << 24),
                };
                return Verdict::Beaten(*row, winner);
            }
        }
        Verdict::Committed
    }

    /// Whether there may be more to judge.
    fn judge_next(&self, seat: &mut Seat) -> bool {
        if self.words[DONE].load(Ordering::SeqCst) < self.entries.len() as u64 {
            return true;
        }
        let number = self.words[JUDGED].fetch_add(1, Ordering::SeqCst) as usize;
        let Some(entry) = self.entries.get(number) else {
            return false;
        };
        seat.verdicts[number] = Some(self.verdict(entry));
        true
    }

    fn work(&self, mut seat: Seat) -> Seat {
        while self.claim_next() {}
        while self.judge_next(&mut seat) {}
        seat
    }

    fn gather(self, seats: Vec<Seat>) -> Vec<Outcome> {
        let mut seats = seats.into_iter();
        let mut verdicts = seats.next().expect("a seat").verdicts;
        for other in seats {
            for (mine, theirs) in verdicts.iter_mut().zip(other.verdicts) {
                if mine.is_none() {
                    *mine = theirs;
                }
            }
        }
        let outcome = |verdict: Option<Verdict>| match verdict.expect("a verdict") {
            Verdict::Committed => Outcome::Committed,
            Verdict::Changed(row, last) => Outcome::Changed(self.rows.names[row as usize].clone(), last),
            Verdict::Beaten(row, winner) => Outcome::Beaten(self.rows.names[row as usize].clone(), winner),
        };
        verdicts.into_iter().map(outcome).collect()
    }
}

fn play(known: &BTreeMap<RowId, u8>, rows: u32, workers: u8) -> ([u128; 3], usize) {
    let batches = eight_regions(rows);
    let begun = Instant::now();
    let (round, seats) = Round::new(batches, Known { rows: known }, workers);
    let made = Instant::now();
    let seats = thread::scope(|scope| {
        let mut others = seats.into_iter();
        let own = others.next().expect("a seat");
        let threads: Vec<_> = others.map(|seat| scope.spawn(|| round.work(seat))).collect();
        let mut worked = vec![round.work(own)];
        worked.extend(threads.into_iter().map(|thread| thread.join().expect("a seat")));
        worked
    });
    let worked = Instant::now();
    let outcomes: Vec<Outcome> = round.gather(seats);
    let ended = Instant::now();
    let committed = outcomes.iter().filter(|o| matches!(o, Outcome::Committed)).count();
    let parts = [made - begun, worked - made, ended - worked];
    (parts.map(|part| part.as_micros()), committed)
}

fn main() {
    let rounds: u32 = env::args().nth(1).map_or(0, |word| word.parse().unwrap_or(0));
    if rounds == 0 {
        return;
    }
    for count in [0, 1_000_000] {
        let known = rows_known(count);
        for rows in [1, 4, 16] {
            for workers in [1, 2, 4] {
                let (mut best, committed) = play(&known, rows, workers);
                for _ in 1..rounds {
                    let (next, _) = play(&known, rows, workers);
                    for part in 0..3 {
                        best[part] = best[part].min(next[part]);
                    }
                }
                let [new, work, gather] = best;
                println!("{count} {rows} {workers} {committed} {new} {work} {gather}");
            }
        }
    }
}
