//! The plain program that `docs/PERFORMANCE.md` compares the layers with: it answers scripts of
//! enrolments and creations of files of no bytes as `overstore run` does, with the same keys, covers,
//! tokens and tags, and makes each plan once. It goes through its list of sets to find one and to plan
//! one, or with `sorted` keeps two orders of the list, by bytes and by size. Nothing of it is proved,
//! and bad input ends it.
//!
//! tools/plain_store.rs has its hash from here.
//!
//! Run: rustc -O tools/plain_sets.rs -o out/plain_sets && out/plain_sets full|delta [sorted] < SCRIPT
use std::cmp::Ordering;
use std::collections::HashMap;
use std::fs::{self, File};
use std::io::{self, BufRead, BufReader, Read, Write};
use std::os::fd::AsFd;

pub type Key = [u8; 32];
const WORDS: usize = 16;
type Set = [u64; WORDS];

const ROUND: [u32; 64] = [
    0x428a2f98, 0x71374491, 0xb5c0fbcf, 0xe9b5dba5, 0x3956c25b, 0x59f111f1, 0x923f82a4, 0xab1c5ed5,
    0xd807aa98, 0x12835b01, 0x243185be, 0x550c7dc3, 0x72be5d74, 0x80deb1fe, 0x9bdc06a7, 0xc19bf174,
    0xe49b69c1, 0xefbe4786, 0x0fc19dc6, 0x240ca1cc, 0x2de92c6f, 0x4a7484aa, 0x5cb0a9dc, 0x76f988da,
    0x983e5152, 0xa831c66d, 0xb00327c8, 0xbf597fc7, 0xc6e00bf3, 0xd5a79147, 0x06ca6351, 0x14292967,
    0x27b70a85, 0x2e1b2138, 0x4d2c6dfc, 0x53380d13, 0x650a7354, 0x766a0abb, 0x81c2c92e, 0x92722c85,
    0xa2bfe8a1, 0xa81a664b, 0xc24b8b70, 0xc76c51a3, 0xd192e819, 0xd6990624, 0xf40e3585, 0x106aa070,
    0x19a4c116, 0x1e376c08, 0x2748774c, 0x34b0bcb5, 0x391c0cb3, 0x4ed8aa4a, 0x5b9cca4f, 0x682e6ff3,
    0x748f82ee, 0x78a5636f, 0x84c87814, 0x8cc70208, 0x90befffa, 0xa4506ceb, 0xbef9a3f7, 0xc67178f2,
];

// The state of a hash of nothing.
pub const FIRST: [u32; 8] =
    [0x6a09e667, 0xbb67ae85, 0x3c6ef372, 0xa54ff53a, 0x510e527f, 0x9b05688c, 0x1f83d9ab, 0x5be0cd19];

pub fn compress(state: &mut [u32; 8], block: &[u8]) {
    let mut w = [0u32; 64];
    for (word, bytes) in w.iter_mut().zip(block.chunks_exact(4)) {
        *word = u32::from_be_bytes([bytes[0], bytes[1], bytes[2], bytes[3]]);
    }
    for i in 16..64 {
        let s0 = w[i - 15].rotate_right(7) ^ w[i - 15].rotate_right(18) ^ (w[i - 15] >> 3);
        let s1 = w[i - 2].rotate_right(17) ^ w[i - 2].rotate_right(19) ^ (w[i - 2] >> 10);
        w[i] = w[i - 16].wrapping_add(s0).wrapping_add(w[i - 7]).wrapping_add(s1);
    }
    let [mut a, mut b, mut c, mut d, mut e, mut f, mut g, mut h] = *state;
    for i in 0..64 {
        let s1 = e.rotate_right(6) ^ e.rotate_right(11) ^ e.rotate_right(25);
        let choice = (e & f) ^ (!e & g);
        let t1 = h.wrapping_add(s1).wrapping_add(choice).wrapping_add(ROUND[i]).wrapping_add(w[i]);
        let s0 = a.rotate_right(2) ^ a.rotate_right(13) ^ a.rotate_right(22);
        let t2 = s0.wrapping_add((a & b) ^ (a & c) ^ (b & c));
        (h, g, f, e, d, c, b, a) = (g, f, e, d.wrapping_add(t1), c, b, a, t1.wrapping_add(t2));
    }
    for (word, new) in state.iter_mut().zip([a, b, c, d, e, f, g, h]) {
        *word = word.wrapping_add(new);
    }
}

// SHA-256 of a text of at most 119 bytes, the longest that is hashed here being 96.
pub fn sha256(text: &[u8]) -> Key {
    let mut blocks = [0; 128];
    blocks[..text.len()].copy_from_slice(text);
    blocks[text.len()] = 0x80;
    let end = if text.len() < 56 { 64 } else { 128 };
    blocks[end - 8..end].copy_from_slice(&(8 * text.len() as u64).to_be_bytes());
    let mut state = FIRST;
    for block in blocks[..end].chunks_exact(64) {
        compress(&mut state, block);
    }
    let mut digest = [0; 32];
    for (bytes, word) in digest.chunks_exact_mut(4).zip(state) {
        bytes.copy_from_slice(&word.to_be_bytes());
    }
    digest
}

// HMAC-SHA256 of a message of at most 32 bytes.
fn mac(key: &Key, message: &[u8]) -> Key {
    let (mut inner, mut outer) = ([0x36; 96], [0x5c; 96]);
    for i in 0..32 {
        inner[i] ^= key[i];
        outer[i] ^= key[i];
    }
    inner[64..64 + message.len()].copy_from_slice(message);
    outer[64..].copy_from_slice(&sha256(&inner[..64 + message.len()]));
    sha256(&outer)
}

fn tagged(tag: u8, number: usize) -> [u8; 5] {
    let [a, b, c, d] = (number as u32).to_be_bytes();
    [tag, a, b, c, d]
}

fn count(set: &Set) -> u32 {
    set.iter().map(|word| word.count_ones()).sum()
}

fn within(set: &Set, other: &Set) -> bool {
    set.iter().zip(other).all(|(word, others)| word & !others == 0)
}

fn with(mut set: Set, user: usize) -> Set {
    set[user / 64] |= 1 << (user % 64);
    set
}

// The order of the bytes of two sets.
fn compare(set: &Set, other: &Set) -> Ordering {
    set.map(u64::swap_bytes).cmp(&other.map(u64::swap_bytes))
}

// A layer: the sets of its nodes, for each node the starts of its edges and their tokens, and where
// they are kept the orders of the nodes by the bytes of their sets and by their sizes, larger first.
struct Layer {
    tag: u8,
    master: Key,
    sets: Vec<Set>,
    edges: Vec<Vec<(u32, Key)>>,
    is_sorted: bool,
    by_set: Vec<u32>,
    by_size: Vec<u32>,
}

impl Layer {
    fn new(tag: u8, master: Key, is_sorted: bool) -> Layer {
        let (sets, edges, by_set, by_size) = (Vec::new(), Vec::new(), Vec::new(), Vec::new());
        Layer { tag, master, sets, edges, is_sorted, by_set, by_size }
    }

    fn set(&self, node: &u32) -> &Set {
        &self.sets[*node as usize]
    }

    // The place in the order of sizes behind all sets that are as large.
    fn place(&self, set: &Set) -> usize {
        let users = count(set);
        self.by_size.partition_point(|node| count(self.set(node)) >= users)
    }

    // The node that has the set, or its place in the order of bytes.
    fn find(&self, set: &Set) -> Result<usize, usize> {
        if !self.is_sorted {
            return self.sets.iter().position(|earlier| earlier == set).ok_or(0);
        }
        let place = self.by_set.binary_search_by(|node| compare(self.set(node), set))?;
        Ok(self.by_set[place] as usize)
    }

    // The cover of a set by the order of sizes.
    fn sorted_cover(&self, set: &Set) -> Vec<u32> {
        let (mut from, mut covered) = (Vec::new(), [0; WORDS]);
        for node in &self.by_size[self.place(set)..] {
            let earlier = self.set(node);
            if within(earlier, set) && !within(earlier, &covered) {
                from.push(*node);
                for (word, more) in covered.iter_mut().zip(earlier) {
                    *word |= more;
                }
                if covered == *set {
                    break;
                }
            }
        }
        from
    }

    fn key(&self, node: usize) -> Key {
        mac(&self.master, &tagged(self.tag, node))
    }

    fn cover(&self, set: &Set) -> Vec<u32> {
        if self.is_sorted {
            return self.sorted_cover(set);
        }
        let mut from = Vec::new();
        if count(set) < 2 {
            return from;
        }
        let mut candidates: Vec<(u32, u32)> = Vec::new();
        for (node, earlier) in self.sets.iter().enumerate() {
            if within(earlier, set) && earlier != set && *earlier != [0; WORDS] {
                candidates.push((node as u32, count(earlier)));
            }
        }
        candidates.sort_by_key(|(_, size)| u32::MAX - size);
        let mut covered = [0; WORDS];
        for (node, _) in candidates {
            let earlier = &self.sets[node as usize];
            if !within(earlier, &covered) {
                from.push(node);
                for (word, more) in covered.iter_mut().zip(earlier) {
                    *word |= more;
                }
            }
        }
        from
    }

    // The node that has the set, which is added where it isn't there, and the node's key.
    fn node(&mut self, set: &Set) -> (usize, Key) {
        let place = match self.find(set) {
            Ok(node) => return (node, self.key(node)),
            Err(place) => place,
        };
        let node = self.sets.len();
        let key = self.key(node);
        let mut edges = Vec::new();
        for from in self.cover(set) {
            let mut token = mac(&self.key(from as usize), &tagged(self.tag, node));
            token.iter_mut().zip(key).for_each(|(byte, other)| *byte ^= other);
            edges.push((from, token));
        }
        if self.is_sorted {
            self.by_set.insert(place, node as u32);
            self.by_size.insert(self.place(set), node as u32);
        }
        self.sets.push(*set);
        self.edges.push(edges);
        (node, key)
    }
}

// What is kept of a file of no bytes.
#[allow(dead_code)]
struct Filed {
    node: usize,
    surface: Option<usize>,
    generation: usize,
    tag: Key,
}

struct Store {
    is_full: bool,
    epoch: usize,
    users: HashMap<Vec<u8>, usize>,
    files: HashMap<Vec<u8>, Filed>,
    base: Layer,
    surface: Layer,
}

impl Store {
    fn accepted(&mut self) -> String {
        self.epoch += 1;
        format!("ok {}\n", self.epoch)
    }

    fn enrol(&mut self, user: &[u8]) -> String {
        let number = self.users.len();
        if self.users.contains_key(user) {
            return "refused 1 Taken\n".to_string();
        }
        if number >= 64 * WORDS {
            return "refused 7 UsersFull\n".to_string();
        }
        self.users.insert(user.to_vec(), number);
        self.base.node(&with([0; WORDS], number));
        self.surface.node(&with([0; WORDS], number));
        self.accepted()
    }

    fn create(&mut self, file: &[u8], list: &[u8]) -> String {
        if self.files.contains_key(file) {
            return "refused 1 Taken\n".to_string();
        }
        let mut set = [0; WORDS];
        for name in list.split(|byte| *byte == b',').filter(|_| list != b"-") {
            match self.users.get(name) {
                Some(user) => set = with(set, *user),
                None => return "refused 2 NoUser\n".to_string(),
            }
        }
        let (node, key) = self.base.node(&set);
        let tag_key = mac(&sha256(&key), &tagged(b'T', self.files.len()));
        let tag = mac(&tag_key, &0u64.to_be_bytes());
        // The holders of the base node are its set, since nothing is granted.
        let is_covered = self.is_full || set != self.base.sets[node];
        let surface = if is_covered { Some(self.surface.node(&set).0) } else { None };
        let filed = Filed { node, surface, generation: self.epoch + 1, tag };
        self.files.insert(file.to_vec(), filed);
        self.accepted()
    }
}

fn read_masters() -> io::Result<[Key; 2]> {
    let text = fs::read_to_string("keys.hex")?;
    let mut masters = [[0; 32]; 2];
    for (master, line) in masters.iter_mut().zip(text.lines()) {
        for (i, byte) in master.iter_mut().enumerate() {
            *byte = u8::from_str_radix(&line[2 * i..2 * i + 2], 16).unwrap();
        }
    }
    Ok(masters)
}

fn main() -> io::Result<()> {
    let [base, surface] = read_masters()?;
    let words: Vec<String> = std::env::args().collect();
    let is_sorted = words.iter().any(|word| word == "sorted");
    let mut store = Store {
        is_full: words.get(1).is_some_and(|word| word == "full"),
        epoch: 0,
        users: HashMap::new(),
        files: HashMap::new(),
        base: Layer::new(b'B', base, is_sorted),
        surface: Layer::new(b'S', surface, is_sorted),
    };
    let mut input = BufReader::with_capacity(32_768, io::stdin().lock());
    // Standard output without the buffer that `io::stdout` puts before it.
    let mut out = File::from(io::stdout().as_fd().try_clone_to_owned()?);
    let mut line = Vec::new();
    while input.read_until(b'\n', &mut line)? > 0 {
        let words: Vec<&[u8]> = line[..line.len() - 1].split(|byte| *byte == b' ').collect();
        let reply = match words[..] {
            [b"enrol", user] => store.enrol(user),
            [b"create", file, list, b"0"] => {
                input.read_exact(&mut [0])?;
                store.create(file, list)
            }
            _ => panic!("neither an enrolment nor a creation of a file of no bytes"),
        };
        out.write_all(reply.as_bytes())?;
        line.clear();
    }
    out.write_all(format!("end epoch {}\n", store.epoch).as_bytes())
}
