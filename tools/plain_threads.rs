// The plain server of the figures of many sessions: a thread serves each connection, and all of them
// answer behind one `Mutex`. It keeps a catalogue in the maps of std, by the updates that it is sent,
// and answers Hello, the question whether a user may be taken off a file, and updates, in the frames
// of docs/FORMATS.md. An update is put into the file BOOK first, by the calls of the system that a
// store makes for one: a write, a sync, a write of one byte, a sync. It checks no tag, and reads what
// the tools send: a wrong frame ends its session, and so does a client that sends or takes nothing for
// five minutes. It never ends itself. Rust with no proofs.
//
//     rustc -O tools/plain_threads.rs -o out/plain_threads
//     out/plain_threads BOOK
use std::collections::HashMap;
use std::env;
use std::fs::File;
use std::io::{self, BufReader, ErrorKind, Read, Write};
use std::net::{TcpListener, TcpStream};
use std::os::unix::fs::FileExt;
use std::sync::{Arc, Mutex};
use std::thread;
use std::time::Duration;

const HEAD: usize = 4;
// How long a call waits for a client, as in the server that this one stands beside.
const SILENCE: Duration = Duration::from_secs(300);

// A set of 1,024 users.
type Set = [u64; 16];

fn has(set: &Set, user: usize) -> bool {
    set[user / 64] >> (user % 64) & 1 == 1
}

fn flipped(mut set: Set, user: usize) -> Set {
    set[user / 64] ^= 1 << (user % 64);
    set
}

// The bytes of a request that aren't read yet.
struct Rest<'a>(&'a [u8]);

impl<'a> Rest<'a> {
    fn bytes(&mut self, count: usize) -> io::Result<&'a [u8]> {
        let (bytes, rest) = self.0.split_at_checked(count).ok_or(ErrorKind::InvalidData)?;
        self.0 = rest;
        Ok(bytes)
    }

    fn byte(&mut self) -> io::Result<u8> {
        Ok(self.bytes(1)?[0])
    }

    fn number(&mut self) -> io::Result<u32> {
        let bytes = self.bytes(4)?;
        Ok(u32::from_be_bytes([bytes[0], bytes[1], bytes[2], bytes[3]]))
    }

    fn name(&mut self) -> io::Result<&'a [u8]> {
        let length = self.byte()? as usize;
        let name = self.bytes(length)?;
        if name.iter().all(|byte| (33..127).contains(byte)) {
            Ok(name)
        } else {
            Err(ErrorKind::InvalidData.into())
        }
    }

    fn set(&mut self) -> io::Result<Set> {
        let mut set = [0; 16];
        for (at, byte) in self.bytes(128)?.iter().enumerate() {
            set[at / 8] |= u64::from(*byte) << (at % 8 * 8);
        }
        Ok(set)
    }
}

// What the sessions share: the users and the files by their names, the list of each file, and the
// nodes of both layers by their sets.
struct Store {
    epoch: u32,
    users: HashMap<Vec<u8>, usize>,
    files: HashMap<Vec<u8>, usize>,
    lists: Vec<Set>,
    base: HashMap<Set, u32>,
    surface: HashMap<Set, u32>,
    book: File,
    end: u64,
}

impl Store {
    fn new(book: File) -> Store {
        let (users, files, lists) = (HashMap::new(), HashMap::new(), Vec::new());
        let (base, surface) = (HashMap::new(), HashMap::new());
        Store { epoch: 0, users, files, lists, base, surface, book, end: 0 }
    }

    // Appends a record as a store does.
    fn append(&mut self, record: &[u8]) -> io::Result<()> {
        self.book.write_all_at(record, self.end + 1)?;
        self.book.sync_data()?;
        self.book.write_all_at(&[1], self.end)?;
        self.book.sync_data()?;
        self.end += record.len() as u64;
        Ok(())
    }

    // The catalogue after the update with this spelling.
    fn take(&mut self, mut rest: Rest) -> io::Result<()> {
        let number = self.base.len() as u32;
        match rest.byte()? {
            1 => {
                let (name, user) = (rest.name()?.to_vec(), self.users.len());
                self.users.insert(name, user);
                self.base.insert(flipped([0; 16], user), number);
                self.surface.insert(flipped([0; 16], user), number);
            }
            2 => {
                let (name, list) = (rest.name()?.to_vec(), rest.set()?);
                self.files.insert(name, self.lists.len());
                self.lists.push(list);
                self.base.entry(list).or_insert(number);
            }
            _ => {
                let (user, file) = (rest.number()? as usize, rest.number()? as usize);
                let list = self.lists.get_mut(file).ok_or(ErrorKind::InvalidData)?;
                *list = flipped(*list, user);
                self.surface.entry(*list).or_insert(number);
            }
        }
        self.epoch += 1;
        Ok(())
    }

    // What an owner is told who takes a user off a file.
    fn known(&self, mut rest: Rest) -> Option<[u32; 6]> {
        let user = *self.users.get(rest.name().ok()?)?;
        let file = *self.files.get(rest.name().ok()?)?;
        let list = self.lists[file];
        let alone = flipped([0; 16], user);
        let (base_root, surface_root) = (*self.base.get(&alone)?, *self.surface.get(&alone)?);
        has(&list, user).then_some(())?;
        let node = self.surface.get(&flipped(list, user)).map_or(0, |node| node + 1);
        Some([self.epoch, user as u32, base_root, surface_root, file as u32, node])
    }

    // Puts the reply to this request, each of them with its length field.
    fn answer(&mut self, request: &[u8], reply: &mut Vec<u8>) -> io::Result<()> {
        reply.clear();
        reply.extend_from_slice(&[0; HEAD]);
        let mut rest = Rest(&request[HEAD..]);
        match (rest.byte()?, rest.0) {
            (1, _) => {
                reply.extend_from_slice(&[0x81, 1]);
                reply.extend_from_slice(&self.epoch.to_be_bytes());
                reply.extend_from_slice(&[0; 32]);
            }
            (2, [4, names @ ..]) => {
                let known = self.known(Rest(names)).ok_or(ErrorKind::InvalidData)?;
                reply.push(0x82);
                known.iter().for_each(|number| reply.extend_from_slice(&number.to_be_bytes()));
                reply.push(0);
            }
            (4, _) => {
                (rest.number()? == self.epoch).then_some(()).ok_or(ErrorKind::InvalidData)?;
                self.append(request)?;
                self.take(rest)?;
                reply.push(0x84);
                reply.extend_from_slice(&self.epoch.to_be_bytes());
            }
            _ => return Err(ErrorKind::InvalidData.into()),
        }
        let length = (reply.len() - HEAD) as u32;
        reply[..HEAD].copy_from_slice(&length.to_be_bytes());
        Ok(())
    }
}

fn serve(mut stream: TcpStream, store: &Mutex<Store>) -> io::Result<()> {
    stream.set_nodelay(true)?;
    stream.set_read_timeout(Some(SILENCE))?;
    stream.set_write_timeout(Some(SILENCE))?;
    let mut source = BufReader::new(stream.try_clone()?);
    let (mut request, mut reply) = (vec![0; HEAD], Vec::new());
    loop {
        source.read_exact(&mut request[..HEAD])?;
        let size = u32::from_be_bytes([request[0], request[1], request[2], request[3]]) as usize;
        request.resize(HEAD + size, 0);
        source.read_exact(&mut request[HEAD..])?;
        store.lock().unwrap().answer(&request, &mut reply)?;
        stream.write_all(&reply)?;
    }
}

fn main() -> io::Result<()> {
    let words: Vec<String> = env::args().collect();
    let store = Arc::new(Mutex::new(Store::new(File::create(&words[1])?)));
    let listener = TcpListener::bind("127.0.0.1:0")?;
    println!("listening {}", listener.local_addr()?);
    loop {
        let (stream, _) = listener.accept()?;
        let store = Arc::clone(&store);
        thread::spawn(move || serve(stream, &store));
    }
}
