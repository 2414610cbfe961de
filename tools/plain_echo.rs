// The plain server of the figures over a network: it reads frames behind their length fields and
// answers each with a frame of the kind and size that REPLIES has in its next line, whatever was asked.
// Where that is Accepted, the frame is first put into the file BOOK by the calls of the system that a
// store makes for an update: a write, a sync, a write of one byte, a sync. It ends with its first
// connection. Rust with no proofs.
//
//     rustc -O tools/plain_echo.rs -o out/plain_echo
//     out/plain_echo REPLIES BOOK        # a reply is one write
//     out/plain_echo REPLIES BOOK two    # its length field is a write of its own
use std::env;
use std::fs::{self, File};
use std::io::{self, BufReader, Read, Write};
use std::net::TcpListener;
use std::os::unix::fs::FileExt;

const ACCEPTED: u8 = 0x84;

// The kinds and sizes of replies.
fn replies(path: &str) -> io::Result<Vec<(u8, usize)>> {
    let number = |word: Option<&str>| word.and_then(|text| text.parse().ok()).unwrap_or(0);
    let text = fs::read_to_string(path)?;
    let mut words = text.split_whitespace();
    let mut replies = Vec::new();
    while let Some(kind) = words.next() {
        replies.push((number(Some(kind)) as u8, number(words.next())));
    }
    Ok(replies)
}

// Appends a record as a store does, and answers where the next one begins.
fn append(book: &File, end: u64, record: &[u8]) -> io::Result<u64> {
    book.write_all_at(record, end + 1)?;
    book.sync_data()?;
    book.write_all_at(&[1], end)?;
    book.sync_data()?;
    Ok(end + record.len() as u64)
}

fn main() -> io::Result<()> {
    let words: Vec<String> = env::args().collect();
    let replies = replies(&words[1])?;
    let book = File::create(&words[2])?;
    let head = if words.len() > 3 { 4 } else { 0 };
    let listener = TcpListener::bind("127.0.0.1:0")?;
    println!("listening {}", listener.local_addr()?);
    let (mut stream, _) = listener.accept()?;
    stream.set_nodelay(true)?;
    let mut source = BufReader::with_capacity(1 << 16, stream.try_clone()?);
    let (mut end, mut request, mut reply) = (0, vec![0; 2 << 20], vec![0; 2 << 20]);
    for (kind, size) in replies {
        source.read_exact(&mut request[..4])?;
        let count = u32::from_be_bytes([request[0], request[1], request[2], request[3]]) as usize;
        source.read_exact(&mut request[4..4 + count])?;
        if kind == ACCEPTED {
            end = append(&book, end, &request[..4 + count])?;
        }
        reply[..4].copy_from_slice(&(size as u32).to_be_bytes());
        reply[4] = kind;
        stream.write_all(&reply[..head])?;
        stream.write_all(&reply[head..4 + size])?;
    }
    Ok(())
}
