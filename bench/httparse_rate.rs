//! Counts the request heads of standard input by the Rust crate `httparse`: the peer of `crates/head_rate`.
//!
//! A head may have 16,384 bytes and 64 fields. `bench/head.py` builds it and takes its time.
use std::io::Read;
use std::mem::MaybeUninit;
use std::process::exit;

const HEAD_LIMIT: usize = 16384;
const MAX_FIELDS: usize = 64;

// The length of the head at the front of the bytes, if it is whole.
fn head_len(bytes: &[u8]) -> Result<Option<usize>, httparse::Error> {
    let mut fields = [MaybeUninit::<httparse::Header>::uninit(); MAX_FIELDS];
    let mut head = httparse::Request::new(&mut []);
    match head.parse_with_uninit_headers(bytes, &mut fields)? {
        httparse::Status::Complete(len) => Ok(Some(len)),
        httparse::Status::Partial => Ok(None),
    }
}

fn stop(count: u64, line: &str) -> ! {
    println!("{count}");
    eprintln!("httparse_rate: {line}");
    exit(1)
}

fn main() {
    let mut input = std::io::stdin().lock();
    let mut bytes = vec![0; HEAD_LIMIT];
    let (mut end, mut count) = (0, 0u64);
    loop {
        if end == bytes.len() {
            stop(count, "a head is too long");
        }
        let got = match input.read(&mut bytes[end..]) {
            Ok(0) => break,
            Ok(got) => got,
            Err(_) => stop(count, "read failed"),
        };
        end += got;
        let mut start = 0;
        loop {
            match head_len(&bytes[start..end]) {
                Ok(Some(len)) => start += len,
                Ok(None) => break,
                Err(_) => stop(count, "a head has a fault"),
            }
            count += 1;
        }
        bytes.copy_within(start..end, 0);
        end -= start;
    }
    println!("{count}");
}
