// OpenSSL of the figures for the cipher and the keyed hash: AES-256 in counter mode over 64 MiB, in
// calls of 64 MiB, of 4,096 bytes or of 64 bytes, each with a key to expand; or HMAC-SHA-256 over
// 64 MiB, four times.
//
//     rustc --edition 2021 -O tools/openssl_cipher.rs -l crypto -o out/openssl_cipher
//     OPENSSL_ia32cap=MASK out/openssl_cipher 67108864    # and 4096, 64, mac
use std::ffi::{c_int, c_uchar, c_uint, c_void};
use std::ptr::{null, null_mut};

const SIZE: usize = 67_108_864;

extern "C" {
    fn EVP_CIPHER_CTX_new() -> *mut c_void;
    fn EVP_aes_256_ctr() -> *const c_void;
    fn EVP_EncryptInit_ex(
        context: *mut c_void,
        cipher: *const c_void,
        engine: *const c_void,
        key: *const c_uchar,
        counter: *const c_uchar,
    ) -> c_int;
    fn EVP_EncryptUpdate(
        context: *mut c_void,
        out: *mut c_uchar,
        out_length: *mut c_int,
        bytes: *const c_uchar,
        length: c_int,
    ) -> c_int;
    fn EVP_sha256() -> *const c_void;
    fn HMAC(
        hash: *const c_void,
        key: *const c_void,
        key_length: c_int,
        bytes: *const c_uchar,
        length: usize,
        out: *mut c_uchar,
        out_length: *mut c_uint,
    ) -> *mut c_uchar;
}

fn pads(bytes: &mut [u8]) {
    let mut key = [7u8; 32];
    let counter = [0u8; 16];
    let at = bytes.as_mut_ptr();
    let mut length = 0;
    unsafe {
        let context = EVP_CIPHER_CTX_new();
        let cipher = EVP_aes_256_ctr();
        for i in 0..SIZE / bytes.len() {
            key[..8].copy_from_slice(&i.to_le_bytes());
            let (key, counter) = (key.as_ptr(), counter.as_ptr());
            assert_eq!(1, EVP_EncryptInit_ex(context, cipher, null(), key, counter));
            assert_eq!(1, EVP_EncryptUpdate(context, at, &mut length, at, bytes.len() as c_int));
        }
    }
}

fn mac(bytes: &[u8]) -> [u8; 32] {
    let key = [7u8; 32];
    let mut out = [0u8; 32];
    unsafe {
        let key = key.as_ptr().cast();
        HMAC(EVP_sha256(), key, 32, bytes.as_ptr(), bytes.len(), out.as_mut_ptr(), null_mut());
    }
    out
}

fn main() {
    let word = std::env::args().nth(1).expect("a size of calls, or mac");
    if word == "mac" {
        let mut bytes = vec![1u8; SIZE];
        for _ in 0..4 {
            bytes[0] ^= mac(&bytes)[0];
        }
        println!("{}", bytes[0]);
    } else {
        let mut bytes = vec![0u8; word.parse().expect("a size of calls")];
        pads(&mut bytes);
        println!("{}", bytes.iter().map(|byte| u64::from(*byte)).sum::<u64>());
    }
}
