// The plain program of the journal's figures: the same calls of the system as a store makes for each record
// (write, fdatasync, write of one byte, fdatasync), in Rust with no proofs.
//
//     rustc --edition 2021 -O tools/plain_journal.rs -o out/plain_journal
//     time out/plain_journal FOLDER 10000
//
// tools/plain_store.rs has its journal from here.
use std::env;
use std::fs::{File, OpenOptions};
use std::io;
use std::os::unix::fs::FileExt;

pub const HEADER: u64 = 78;

pub struct Journal {
    pub book: File,
    pub offsets: Vec<u64>,
    pub end: u64,
    frame: Vec<u8>,
}

impl Journal {
    fn of(book: File) -> Journal {
        Journal { book, offsets: Vec::new(), end: HEADER, frame: Vec::new() }
    }

    pub fn begin(path: &str, mode: u8) -> io::Result<Journal> {
        let book = OpenOptions::new().read(true).write(true).create(true).truncate(true).open(path)?;
        let mut header = vec![0u8; 79];
        header[1..9].copy_from_slice(b"OVERENC2");
        header[9] = mode;
        book.write_all_at(&header, 0)?;
        book.sync_data()?;
        book.write_all_at(&[1], 0)?;
        book.sync_data()?;
        Ok(Journal::of(book))
    }

    // Opens what an earlier run left: the mode, and the places of all records, of each of which the gate
    // and the length are read.
    pub fn open(path: &str) -> io::Result<(Journal, u8)> {
        let book = OpenOptions::new().read(true).write(true).open(path)?;
        book.sync_data()?;
        let size = book.metadata()?.len();
        let mut header = [0u8; HEADER as usize];
        book.read_exact_at(&mut header, 0)?;
        let mut journal = Journal::of(book);
        while journal.end < size {
            let mut front = [0u8; 5];
            let count = (size - journal.end).min(5) as usize;
            journal.book.read_exact_at(&mut front[..count], journal.end)?;
            if front[0] != 1 {
                break;
            }
            journal.offsets.push(journal.end);
            journal.end += 5 + u64::from(u32::from_be_bytes(front[1..].try_into().unwrap()));
        }
        Ok((journal, header[9]))
    }

    // Fills `body` with the body of record `i`.
    pub fn body(&self, i: usize, body: &mut Vec<u8>) -> io::Result<()> {
        let next = self.offsets.get(i + 1).copied().unwrap_or(self.end);
        body.clear();
        body.resize((next - self.offsets[i] - 5) as usize, 0);
        self.book.read_exact_at(body, self.offsets[i] + 5)
    }

    // Writes a record behind the closed gate at the end.
    pub fn put(&mut self, body: &[u8]) -> io::Result<()> {
        self.frame.clear();
        self.frame.extend_from_slice(&(body.len() as u32).to_be_bytes());
        self.frame.extend_from_slice(body);
        self.frame.push(0);
        self.book.write_all_at(&self.frame, self.end + 1)
    }

    // Opens the gate in front of the record that was put, once that is on the disk.
    pub fn open_gate(&mut self) -> io::Result<()> {
        self.book.sync_data()?;
        self.book.write_all_at(&[1], self.end)?;
        self.book.sync_data()?;
        self.offsets.push(self.end);
        self.end += self.frame.len() as u64;
        Ok(())
    }
}

fn main() -> io::Result<()> {
    let mut words = env::args().skip(1);
    let folder = words.next().unwrap_or_else(|| ".".into());
    let count: u64 = words.next().and_then(|n| n.parse().ok()).unwrap_or(10_000);
    let mut journal = Journal::begin(&format!("{folder}/plain_book"), 0)?;
    for i in 0..count {
        journal.put(&[i as u8; 100])?;
        journal.open_gate()?;
    }
    println!("{} records, {} bytes", journal.offsets.len(), journal.end + 1);
    Ok(())
}
