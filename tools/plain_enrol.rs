//! The plain program that `docs/PERFORMANCE.md` compares with: it answers scripts of enrolments as
//! `overstore run full` does, reads in pieces, keeps the users in a hash set, and writes each reply
//! line at once. Nothing of it is proved, and a failed read or write ends it.
//!
//! Run: rustc -O tools/plain_enrol.rs -o out/plain_enrol && out/plain_enrol < SCRIPT
use std::collections::HashSet;
use std::fs::File;
use std::io::{self, Read, Write};
use std::os::fd::AsFd;
use std::process::ExitCode;

fn is_name(text: &[u8]) -> bool {
    let starts = |byte: u8| byte.is_ascii_lowercase() || byte.is_ascii_digit();
    match text {
        [] => false,
        [first, rest @ ..] => {
            starts(*first)
                && rest.len() < 64
                && rest.iter().all(|byte| starts(*byte) || b"._-".contains(byte))
        }
    }
}

fn reply(users: &mut HashSet<Vec<u8>>, user: &[u8]) -> String {
    if users.contains(user) {
        "refused 1 Taken\n".to_string()
    } else if users.len() >= 1024 {
        "refused 7 UsersFull\n".to_string()
    } else {
        users.insert(user.to_vec());
        format!("ok {}\n", users.len())
    }
}

fn main() -> io::Result<ExitCode> {
    let mut input = io::stdin().lock();
    // Standard output without the buffer that `io::stdout` puts before it.
    let mut out = File::from(io::stdout().as_fd().try_clone_to_owned()?);
    let mut users = HashSet::new();
    let mut buffer = vec![0; 32_768];
    let (mut start, mut end, mut number) = (0, 0, 1);
    loop {
        match buffer[start..end].iter().position(|byte| *byte == b'\n') {
            Some(length) => {
                let line = &buffer[start..start + length];
                match line.strip_prefix(b"enrol ") {
                    Some(user) if is_name(user) => {
                        out.write_all(reply(&mut users, user).as_bytes())?;
                    }
                    _ => {
                        out.write_all(format!("error line {number}\n").as_bytes())?;
                        return Ok(ExitCode::from(3));
                    }
                }
                number += 1;
                start += length + 1;
            }
            None => {
                buffer.copy_within(start..end, 0);
                end -= start;
                start = 0;
                let count = input.read(&mut buffer[end..])?;
                if count == 0 {
                    out.write_all(format!("end epoch {}\n", users.len()).as_bytes())?;
                    return Ok(ExitCode::SUCCESS);
                }
                end += count;
            }
        }
    }
}
