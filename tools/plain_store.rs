// The plain program of a store's figures: the same calls of the system as a store makes whose files' bytes
// lie in extents of Blobs, and the same pads and hashes, in Rust with no proofs. It reads no script, makes no
// frames and keeps no graph. Users a and b have all files.
//
//     rustc --edition 2021 -O tools/plain_store.rs -o out/plain_store
//     out/plain_store FOLDER make full|delta FILES BYTES    # creates so many files of so many bytes
//     out/plain_store FOLDER grant FILES BYTES              # the same in Delta; c is granted the file in the middle
//     out/plain_store FOLDER revoke FILES BYTES             # the same in Full, and b is taken off each file
//     out/plain_store FOLDER turns full|delta COUNT         # a file of one byte: b is taken off and granted, in turns
//     out/plain_store FOLDER open                           # opens what one of these left
use std::collections::BTreeMap;
use std::env;
use std::fs::{File, OpenOptions};
use std::io;
use std::os::unix::fs::FileExt;

#[allow(dead_code)]
mod plain_cipher;
#[allow(dead_code)]
mod plain_journal;
#[allow(dead_code)]
mod plain_sets;

use plain_cipher::{apply, tables, Tables};
use plain_journal::Journal;
use plain_sets::{compress, sha256, Key, FIRST};

const BLOCK: u64 = 4096;
const PIECE: usize = 65_536;
const DELTA: u8 = 1;

// ---- keyed hashes

// A key, hashed behind both pads.
struct Keyed {
    inner: [u32; 8],
    outer: [u32; 8],
}

// Hashes these texts behind a block, of which this is the state.
fn finish(mut state: [u32; 8], texts: &[&[u8]]) -> Key {
    let (mut block, mut held, mut bytes) = ([0u8; 64], 0, 64);
    for text in texts {
        bytes += text.len() as u64;
        let mut rest = *text;
        while held + rest.len() >= 64 {
            let (now, later) = rest.split_at(64 - held);
            if held == 0 {
                compress(&mut state, now);
            } else {
                block[held..].copy_from_slice(now);
                compress(&mut state, &block);
            }
            (held, rest) = (0, later);
        }
        block[held..held + rest.len()].copy_from_slice(rest);
        held += rest.len();
    }
    block[held] = 0x80;
    block[held + 1..].fill(0);
    if held >= 56 {
        compress(&mut state, &block);
        block.fill(0);
    }
    block[56..].copy_from_slice(&(8 * bytes).to_be_bytes());
    compress(&mut state, &block);
    let mut digest = [0; 32];
    for (bytes, word) in digest.chunks_exact_mut(4).zip(state) {
        bytes.copy_from_slice(&word.to_be_bytes());
    }
    digest
}

impl Keyed {
    fn new(key: &Key) -> Keyed {
        let begun = |pad: u8| {
            let (mut state, mut block) = (FIRST, [pad; 64]);
            block.iter_mut().zip(key).for_each(|(byte, other)| *byte ^= other);
            compress(&mut state, &block);
            state
        };
        Keyed { inner: begun(0x36), outer: begun(0x5c) }
    }

    fn of(&self, texts: &[&[u8]]) -> Key {
        finish(self.outer, &[&finish(self.inner, texts)])
    }

    fn label(&self, tag: u8, number: u32) -> Key {
        self.of(&[&[tag], &number.to_be_bytes()])
    }
}

// ---- blocks

fn blocks_of(length: u32) -> u32 {
    length.div_ceil(BLOCK as u32)
}

// The free runs, by their first blocks.
struct Free(BTreeMap<u32, u32>);

impl Free {
    // Takes the lowest run that is long enough.
    fn place(&mut self, blocks: u32) -> u32 {
        let (first, length) = self.0.iter().find(|run| *run.1 >= blocks).map(|run| (*run.0, *run.1)).unwrap();
        self.0.remove(&first);
        if length > blocks {
            self.0.insert(first + blocks, length - blocks);
        }
        first
    }

    // Takes this run.
    fn hold(&mut self, first: u32, blocks: u32) {
        let (start, length) = self.0.range(..=first).next_back().map(|run| (*run.0, *run.1)).unwrap();
        self.0.remove(&start);
        if start < first {
            self.0.insert(start, first - start);
        }
        if first + blocks < start + length {
            self.0.insert(first + blocks, start + length - first - blocks);
        }
    }

    fn release(&mut self, first: u32, blocks: u32) {
        let (mut first, mut end) = (first, first + blocks);
        if let Some((start, length)) = self.0.range(..first).next_back().map(|run| (*run.0, *run.1)) {
            if start + length == first {
                first = start;
            }
        }
        if let Some(length) = self.0.remove(&end) {
            end += length;
        }
        self.0.insert(first, end - first);
    }
}

// ---- a store

struct Entry {
    length: u32,
    first: u32,
    surface: Option<u32>,
}

struct Store {
    tables: Tables,
    base: Keyed,
    surface: Keyed,
    update: Keyed,
    mode: u8,
    journal: Journal,
    blobs: File,
    free: Free,
    files: Vec<Entry>,
    epoch: u32,
    piece: Vec<u8>,
}

// The nodes of a and b together, in both layers, and of a alone.
const BOTH: u32 = 3;
const ONE: u32 = 0;

impl Store {
    fn of(journal: Journal, mode: u8, blobs: File) -> Store {
        let (base, surface) = (Keyed::new(&[1; 32]), Keyed::new(&[2; 32]));
        let update = Keyed::new(&surface.label(b'U', 0));
        let free = Free(BTreeMap::from([(0, 1 << 31)]));
        let (tables, piece) = (tables(), vec![0; PIECE]);
        Store { tables, base, surface, update, mode, journal, blobs, free, files: Vec::new(), epoch: 0, piece }
    }

    fn begin(folder: &str, mode: u8) -> io::Result<Store> {
        let path = format!("{folder}/plain_blobs");
        let blobs = OpenOptions::new().read(true).write(true).create(true).truncate(true).open(path)?;
        let mut store = Store::of(Journal::begin(&format!("{folder}/plain_book"), mode)?, mode, blobs);
        for name in [b"a", b"b", b"c"] {
            store.commit(&[&[1, 1], name.as_slice()].concat(), &[])?;
        }
        Ok(store)
    }

    // What the owner sends has a tag, which is made and looked at.
    fn seal(&self, spelling: &[u8], text: &[u8]) {
        let epoch = self.epoch.to_be_bytes();
        let texts = [&epoch[..], spelling, text];
        assert_eq!(self.update.of(&texts), self.update.of(&texts));
    }

    // The access key of the base node of all files, and the key of a file's tag.
    fn keys(&self, file: u32) -> (Key, Keyed) {
        let access = sha256(&self.base.label(b'B', BOTH));
        let tag = Keyed::new(&Keyed::new(&access).label(b'T', file));
        (access, tag)
    }

    fn pad(&self, surface: Option<u32>, file: u32, start: u64, bytes: &mut [u8]) {
        if let Some(node) = surface {
            apply(&self.tables, &self.surface.label(b'S', node), b'S', file, start, bytes);
        }
    }

    // Writes a file's bytes into a new extent under another surface, a piece after the other.
    fn rewrite(&mut self, file: u32, text: Option<&[u8]>, first: u32, surface: Option<u32>) -> io::Result<()> {
        let (length, old, was) = {
            let entry = &self.files[file as usize];
            (entry.length as usize, u64::from(entry.first) * BLOCK, entry.surface)
        };
        let mut piece = std::mem::take(&mut self.piece);
        for start in (0..length).step_by(PIECE) {
            let count = (length - start).min(PIECE);
            let whole = count.next_multiple_of(BLOCK as usize);
            piece[count..whole].fill(0);
            match text {
                Some(text) => piece[..count].copy_from_slice(&text[start..start + count]),
                None => {
                    self.blobs.read_exact_at(&mut piece[..count], old + start as u64)?;
                    self.pad(was, file, start as u64, &mut piece[..count]);
                }
            }
            self.pad(surface, file, start as u64, &mut piece[..count]);
            self.blobs.write_all_at(&piece[..whole], u64::from(first) * BLOCK + start as u64)?;
        }
        self.piece = piece;
        Ok(())
    }

    // Puts the record behind the others, in which new first blocks follow the spelling.
    fn commit(&mut self, spelling: &[u8], firsts: &[u32]) -> io::Result<()> {
        let mut body = spelling.to_vec();
        firsts.iter().for_each(|first| body.extend_from_slice(&first.to_be_bytes()));
        self.journal.put(&body)?;
        if !firsts.is_empty() {
            self.blobs.sync_data()?;
        }
        self.journal.open_gate()?;
        self.epoch += 1;
        Ok(())
    }

    fn create(&mut self, name: &str, plain: &[u8]) -> io::Result<()> {
        let (file, length) = (self.files.len() as u32, plain.len() as u32);
        let (access, tag) = self.keys(file);
        let tag = tag.of(&[&u64::from(length).to_be_bytes(), plain]);
        let mut text = plain.to_vec();
        apply(&self.tables, &access, b'B', file, 0, &mut text);
        let mut spelling = vec![2, name.len() as u8];
        spelling.extend_from_slice(name.as_bytes());
        spelling.push(3);
        spelling.extend_from_slice(&[0; 129]);
        spelling.extend_from_slice(&tag);
        spelling.extend_from_slice(&length.to_be_bytes());
        self.seal(&spelling, &text);
        let surface = if self.mode == DELTA { None } else { Some(BOTH) };
        let first = self.free.place(blocks_of(length));
        self.files.push(Entry { length, first, surface });
        self.rewrite(file, Some(&text), first, surface)?;
        self.commit(&spelling, &[first])
    }

    // An update with this spelling, which gives these files another surface.
    fn change(&mut self, spelling: &[u8], files: &[u32], surface: Option<u32>) -> io::Result<()> {
        self.seal(spelling, &[]);
        let mut firsts = Vec::new();
        for file in files {
            firsts.push(self.free.place(blocks_of(self.files[*file as usize].length)));
        }
        for (file, first) in files.iter().zip(&firsts) {
            self.rewrite(*file, None, *first, surface)?;
        }
        self.commit(spelling, &firsts)?;
        for (file, first) in files.iter().zip(&firsts) {
            self.moved(*file, *first, surface);
        }
        Ok(())
    }

    // A file's bytes stand in another extent now, and the old one is free.
    fn moved(&mut self, file: u32, first: u32, surface: Option<u32>) {
        let entry = &mut self.files[file as usize];
        let old = std::mem::replace(&mut entry.first, first);
        entry.surface = surface;
        let blocks = blocks_of(entry.length);
        self.free.release(old, blocks);
    }

    fn revoke(&mut self, file: u32) -> io::Result<()> {
        self.change(&[&[4, 0, 0, 0, 1][..], &file.to_be_bytes()].concat(), &[file], Some(ONE))
    }

    fn grant_again(&mut self, file: u32) -> io::Result<()> {
        let surface = if self.mode == DELTA { None } else { Some(BOTH) };
        self.change(&[&[3, 0, 0, 0, 1][..], &file.to_be_bytes(), &[0]].concat(), &[file], surface)
    }

    // The third user is granted a file, and all others get a coat.
    fn grant(&mut self, file: u32) -> io::Result<()> {
        let (access, _) = self.keys(file);
        let token = self.base.label(b'A', 2).map(|byte| byte ^ access[0]);
        let spelling = [&[3, 0, 0, 0, 2][..], &file.to_be_bytes(), &[1], &token].concat();
        let others: Vec<u32> = (0..self.files.len() as u32).filter(|other| *other != file).collect();
        self.change(&spelling, &others, Some(BOTH))
    }
}

// ---- opening

// The first blocks at the end of a record's body, behind this many bytes.
fn firsts_in(body: &[u8], front: usize) -> Vec<u32> {
    body[front..].chunks_exact(4).map(|word| u32::from_be_bytes(word.try_into().unwrap())).collect()
}

fn number_in(body: &[u8], at: usize) -> u32 {
    u32::from_be_bytes(body[at..at + 4].try_into().unwrap())
}

impl Store {
    fn replay(&mut self, body: &[u8]) {
        match body[0] {
            1 => {}
            2 => {
                let (front, length) = (body.len() - 4, number_in(body, body.len() - 8));
                let first = firsts_in(body, front)[0];
                let surface = if self.mode == DELTA { None } else { Some(BOTH) };
                self.free.hold(first, blocks_of(length));
                self.files.push(Entry { length, first, surface });
            }
            kind => {
                let file = number_in(body, 5);
                let has_token = kind == 3 && body[9] == 1;
                let firsts = firsts_in(body, if has_token { 42 } else if kind == 3 { 10 } else { 9 });
                let files: Vec<u32> = if has_token {
                    (0..self.files.len() as u32).filter(|other| *other != file).collect()
                } else {
                    vec![file]
                };
                let surface = match (kind, has_token, self.mode) {
                    (4, _, _) => Some(ONE),
                    (_, false, DELTA) => None,
                    _ => Some(BOTH),
                };
                for (file, first) in files.iter().zip(firsts) {
                    self.free.hold(first, blocks_of(self.files[*file as usize].length));
                    self.moved(*file, first, surface);
                }
            }
        }
    }

    // Reads a file, takes both coats off, and compares its tag.
    fn check(&self, file: u32, tag: &[u8]) -> io::Result<()> {
        let entry = &self.files[file as usize];
        let mut bytes = vec![0; entry.length as usize];
        self.blobs.read_exact_at(&mut bytes, u64::from(entry.first) * BLOCK)?;
        self.pad(entry.surface, file, 0, &mut bytes);
        let (access, key) = self.keys(file);
        apply(&self.tables, &access, b'B', file, 0, &mut bytes);
        assert_eq!(&key.of(&[&u64::from(entry.length).to_be_bytes(), &bytes])[..], tag);
        Ok(())
    }

    // Reads each record, and then each again, with the file that it created.
    fn open(folder: &str) -> io::Result<Store> {
        let blobs = OpenOptions::new().read(true).write(true).open(format!("{folder}/plain_blobs"))?;
        let (journal, mode) = Journal::open(&format!("{folder}/plain_book"))?;
        let mut store = Store::of(journal, mode, blobs);
        let (count, mut body) = (store.journal.offsets.len(), Vec::new());
        for i in 0..count {
            store.journal.body(i, &mut body)?;
            store.replay(&body);
        }
        let mut file = 0;
        for i in 0..count {
            store.journal.body(i, &mut body)?;
            if body[0] == 2 {
                let tag = body.len() - 40;
                store.check(file, &body[tag..tag + 32])?;
                file += 1;
            }
        }
        store.epoch = count as u32;
        Ok(store)
    }
}

// ---- the command line

fn made(folder: &str, mode: u8, files: u32, bytes: usize) -> io::Result<Store> {
    let mut store = Store::begin(folder, mode)?;
    let plain = vec![b'x'; bytes];
    for file in 0..files {
        store.create(&format!("f{file}"), &plain)?;
    }
    Ok(store)
}

fn number(word: Option<&String>) -> u32 {
    word.and_then(|word| word.parse().ok()).expect("a number")
}

fn mode_of(word: Option<&String>) -> u8 {
    u8::from(word.expect("full or delta") == "delta")
}

fn main() -> io::Result<()> {
    let words: Vec<String> = env::args().skip(1).collect();
    let folder = words.first().expect("a folder");
    let store = match words.get(1).expect("what to do").as_str() {
        "make" => made(folder, mode_of(words.get(2)), number(words.get(3)), number(words.get(4)) as usize)?,
        "grant" => {
            let files = number(words.get(2));
            let mut store = made(folder, DELTA, files, number(words.get(3)) as usize)?;
            store.grant(files / 2)?;
            store
        }
        "revoke" => {
            let files = number(words.get(2));
            let mut store = made(folder, 0, files, number(words.get(3)) as usize)?;
            for file in 0..files {
                store.revoke(file)?;
            }
            store
        }
        "turns" => {
            let mut store = made(folder, mode_of(words.get(2)), 1, 1)?;
            for turn in 0..number(words.get(3)) {
                if turn % 2 == 0 { store.revoke(0)? } else { store.grant_again(0)? }
            }
            store
        }
        "open" => Store::open(folder)?,
        other => panic!("{other} isn't known"),
    };
    println!("epoch {}, {} files, {} bytes of Blobs", store.epoch, store.files.len(), store.blobs.metadata()?.len());
    Ok(())
}
