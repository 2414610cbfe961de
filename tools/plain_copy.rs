// The memory copy of the figures for frames: 256 MiB from one buffer to another, five times.
//
//     rustc -O tools/plain_copy.rs -o out/plain_copy && out/plain_copy
use std::time::Instant;

const SIZE: usize = 268_435_456;

fn main() {
    let from = vec![1u8; SIZE];
    let mut to = vec![2u8; SIZE];
    for _ in 0..5 {
        let start = Instant::now();
        to.copy_from_slice(&from);
        println!("{:?} {}", start.elapsed(), to[SIZE / 2]);
    }
}
