// Plain Rust of the figures for the cipher: AES-256 in counter mode by four tables, 64 MiB in calls
// of 64 MiB, of 4,096 bytes or of 64 bytes.
//
//     rustc --edition 2021 -O tools/plain_cipher.rs -o out/plain_cipher
//     out/plain_cipher 67108864; out/plain_cipher 4096; out/plain_cipher 64
//
// tools/plain_store.rs has its cipher from here.
const SIZE: usize = 67_108_864;

pub struct Tables {
    sbox: [u8; 256],
    terms: [[u32; 256]; 4],
}

fn twice(byte: u8) -> u8 {
    (byte << 1) ^ ((byte >> 7) * 0x1b)
}

pub fn tables() -> Tables {
    let mut sbox = [0x63u8; 256];
    let (mut p, mut q) = (1u8, 1u8);
    loop {
        p ^= twice(p);
        q ^= q << 1;
        q ^= q << 2;
        q ^= q << 4;
        q ^= (q >> 7) * 0x09;
        let turned = (1..5).fold(q, |sum, by| sum ^ q.rotate_left(by));
        sbox[p as usize] = turned ^ 0x63;
        if p == 1 {
            break;
        }
    }
    let mut terms = [[0u32; 256]; 4];
    for i in 0..256 {
        let s = sbox[i];
        let term = u32::from_le_bytes([twice(s), s, s, twice(s) ^ s]);
        for row in 0..4 {
            terms[row][i] = term.rotate_left(8 * row as u32);
        }
    }
    Tables { sbox, terms }
}

fn expand(t: &Tables, key: &[u8; 32]) -> [u32; 60] {
    let mut words = [0u32; 60];
    let sub = |w: u32| u32::from_le_bytes(w.to_le_bytes().map(|b| t.sbox[b as usize]));
    let mut power = 1u8;
    for i in 0..60 {
        words[i] = if i < 8 {
            u32::from_le_bytes(key[4 * i..4 * i + 4].try_into().unwrap())
        } else {
            let mut w = words[i - 1];
            if i % 8 == 0 {
                w = sub(w.rotate_right(8)) ^ u32::from(power);
                power = twice(power);
            } else if i % 8 == 4 {
                w = sub(w);
            }
            words[i - 8] ^ w
        };
    }
    words
}

fn block(t: &Tables, words: &[u32; 60], input: [u8; 16]) -> [u8; 16] {
    let mut s = [0u32; 4];
    for c in 0..4 {
        s[c] = u32::from_le_bytes(input[4 * c..4 * c + 4].try_into().unwrap()) ^ words[c];
    }
    let at = |s: &[u32; 4], c: usize, row: usize| (s[(c + row) % 4] >> (8 * row)) as u8 as usize;
    for round in 1..14 {
        let mut next = [0u32; 4];
        for c in 0..4 {
            next[c] = words[4 * round + c]
                ^ (0..4).fold(0, |sum, row| sum ^ t.terms[row][at(&s, c, row)]);
        }
        s = next;
    }
    let mut output = [0u8; 16];
    for c in 0..4 {
        let bytes = [0, 1, 2, 3].map(|row| t.sbox[at(&s, c, row)]);
        let word = u32::from_le_bytes(bytes) ^ words[56 + c];
        output[4 * c..4 * c + 4].copy_from_slice(&word.to_le_bytes());
    }
    output
}

// Takes the pad of a layer off bytes of a file from `start` on, which is a multiple of 16, or lays it.
pub fn apply(t: &Tables, key: &[u8; 32], layer: u8, file: u32, start: u64, bytes: &mut [u8]) {
    let words = expand(t, key);
    let mut counter = [layer, 0, 0, 0, 0, 0, 0, 0, 0, 0, 0, 0, 0, 0, 0, 0];
    counter[4..8].copy_from_slice(&file.to_be_bytes());
    for (number, piece) in bytes.chunks_mut(16).enumerate() {
        counter[8..].copy_from_slice(&(start / 16 + number as u64).to_be_bytes());
        let pad = block(t, &words, counter);
        for (byte, other) in piece.iter_mut().zip(pad) {
            *byte ^= other;
        }
    }
}

fn main() {
    let length: usize = std::env::args().nth(1).and_then(|word| word.parse().ok()).unwrap_or(SIZE);
    let t = tables();
    let mut bytes = vec![0u8; length];
    for _ in 0..SIZE / length {
        apply(&t, &[7; 32], b'B', 2, 0, &mut bytes);
    }
    println!("{length} {}", bytes.iter().map(|byte| u64::from(*byte)).sum::<u64>());
}
