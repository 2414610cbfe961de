// The client of the figures over a network: sends frames that were made before, each behind its length
// field, over a connection, and reads each whole reply before it sends the next. Rust with no proofs.
//
//     rustc -O tools/plain_session.rs -o out/plain_session
//     out/plain_session ADDRESS FRAMES REPLIES
//     out/plain_session ADDRESS FRAMES SESSIONS SECONDS [LEADING]
//
// By three words it sends the frames of a file in one session, prints the seconds from the first byte
// to the last, and writes a line `KIND SIZE` for each reply, by which plain servers answer as many
// bytes.
//
// By more it runs so many sessions at once, each in a thread of its own. Behind the first reply to each
// they begin together, send these frames over and over, and end behind so many seconds. Where LEADING
// is named the first session sends the frames of that file instead, once, and all sessions end with it.
// A line of each session says how many replies it had, how many seconds it took, and the kinds of its
// replies.
use std::collections::BTreeSet;
use std::env;
use std::fs;
use std::io::{self, Read, Write};
use std::net::TcpStream;
use std::sync::atomic::{AtomicBool, Ordering};
use std::sync::Barrier;
use std::thread;
use std::time::Instant;

const HEAD: usize = 4;

fn length(head: &[u8]) -> usize {
    u32::from_be_bytes([head[0], head[1], head[2], head[3]]) as usize
}

// The frames of these bytes, with their length fields.
fn frames(bytes: &[u8]) -> Vec<&[u8]> {
    let (mut frames, mut rest) = (Vec::new(), bytes);
    while !rest.is_empty() {
        let (frame, behind) = rest.split_at(HEAD + length(rest));
        frames.push(frame);
        rest = behind;
    }
    frames
}

// Reads one frame without its length field into `reply`, by as few calls as there are pieces.
fn take(stream: &mut TcpStream, reply: &mut [u8]) -> io::Result<usize> {
    let mut count = 0;
    while count < HEAD || count < HEAD + length(reply) {
        match stream.read(&mut reply[count..])? {
            0 => return Err(io::ErrorKind::UnexpectedEof.into()),
            more => count += more,
        }
    }
    Ok(count - HEAD)
}

fn connect(address: &str) -> io::Result<TcpStream> {
    let stream = TcpStream::connect(address)?;
    stream.set_nodelay(true)?;
    Ok(stream)
}

fn one(address: &str, frames: &[&[u8]], replies: &str) -> io::Result<()> {
    let mut reply = vec![0; 2 << 20];
    let mut lines = Vec::with_capacity(frames.len());
    let mut stream = connect(address)?;
    let begun = Instant::now();
    for frame in frames {
        stream.write_all(frame)?;
        let size = take(&mut stream, &mut reply)?;
        lines.push((reply[HEAD], size));
    }
    println!("{:.6}", begun.elapsed().as_secs_f64());
    let text: String = lines.iter().map(|(kind, size)| format!("{kind} {size}\n")).collect();
    fs::write(replies, text)
}

// What the sessions of a run share.
struct Run<'a> {
    address: &'a str,
    first: &'a [u8],
    seconds: f64,
    together: Barrier,
    over: AtomicBool,
}

impl Run<'_> {
    // One session, which sends these frames until the run is over, and its line.
    fn session<'b>(&self, frames: impl Iterator<Item = &'b [u8]>) -> io::Result<String> {
        let mut reply = vec![0; 1 << 16];
        let (mut count, mut kinds) = (0, BTreeSet::new());
        let mut stream = connect(self.address)?;
        // A connection may be there before the server takes it.
        stream.write_all(self.first)?;
        take(&mut stream, &mut reply)?;
        self.together.wait();
        let begun = Instant::now();
        for frame in frames {
            if self.over.load(Ordering::Relaxed) || begun.elapsed().as_secs_f64() > self.seconds {
                break;
            }
            stream.write_all(frame)?;
            take(&mut stream, &mut reply)?;
            kinds.insert(reply[HEAD]);
            count += 1;
        }
        self.over.store(true, Ordering::Relaxed);
        let kinds: Vec<String> = kinds.iter().map(u8::to_string).collect();
        Ok(format!("{count} {:.6} {}", begun.elapsed().as_secs_f64(), kinds.join(" ")))
    }
}

fn many(run: &Run, frames: &[&[u8]], sessions: usize, leading: Option<&[&[u8]]>) -> io::Result<()> {
    let over_and_over = || frames.iter().copied().cycle();
    thread::scope(|scope| {
        let first = scope.spawn(|| match leading {
            Some(leading) => run.session(leading.iter().copied()),
            None => run.session(over_and_over()),
        });
        let others = (1..sessions).map(|_| scope.spawn(|| run.session(over_and_over())));
        // All threads are there before one is waited for.
        let all: Vec<_> = [first].into_iter().chain(others).collect();
        for session in all {
            println!("{}", session.join().unwrap()?);
        }
        Ok(())
    })
}

fn main() -> io::Result<()> {
    let words: Vec<String> = env::args().collect();
    let bytes = fs::read(&words[2])?;
    let frames = frames(&bytes);
    if words.len() == 4 {
        return one(&words[1], &frames, &words[3]);
    }
    let sessions = words[3].parse().unwrap();
    let run = Run {
        address: &words[1],
        first: frames[0],
        seconds: words[4].parse().unwrap(),
        together: Barrier::new(sessions),
        over: AtomicBool::new(false),
    };
    let bytes = words.get(5).map(fs::read).transpose()?;
    let leading = bytes.as_deref().map(self::frames);
    many(&run, &frames, sessions, leading.as_deref())
}
