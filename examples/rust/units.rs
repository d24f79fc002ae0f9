//! Enciphers or deciphers a file by data units of 4096 bytes, the first under the number 0.
//!
//!     units encrypt|decrypt KEYFILE FROM TO
//!
//! KEYFILE has 64 bytes for AES-256-XTS, or 16 for AES-128-CBC-ESSIV. FROM has whole data units.
mod blkcrypt;

use blkcrypt::Mode;
use std::error::Error;
use std::fs::File;
use std::io::{Read, Write};

const UNIT: u32 = 4096;
const CALL: usize = 256 * UNIT as usize;

/// Reads until the buffer is full or the file ends, and gives how many bytes there were.
fn fill(from: &mut File, data: &mut [u8]) -> std::io::Result<usize> {
    let mut n = 0;
    while n < data.len() {
        match from.read(&mut data[n..])? {
            0 => break,
            more => n += more,
        }
    }
    Ok(n)
}

/// A progress line for each 64 MiB.
fn tell(bytes: u64) {
    if bytes % (64 << 20) == 0 {
        eprintln!("units: {} MiB", bytes >> 20);
    }
}

/// Reads data units, takes them one way, and writes them.
fn carry(encrypt: bool, mode: Mode, key: &[u8], from: &mut File, to: &mut File) -> Result<(), Box<dyn Error>> {
    let mut data = vec![0; CALL];
    let mut first = 0;
    let mut bytes = 0;
    loop {
        let n = fill(from, &mut data)?;
        if n == 0 {
            return Ok(());
        }
        if encrypt {
            blkcrypt::encrypt_units(mode, UNIT, key, first, &mut data[..n])?;
        } else {
            blkcrypt::decrypt_units(mode, UNIT, key, first, &mut data[..n])?;
        }
        to.write_all(&data[..n])?;
        first += n as u128 / UNIT as u128;
        bytes += n as u64;
        tell(bytes);
    }
}

fn run(words: &[String]) -> Result<(), Box<dyn Error>> {
    let (encrypt, key, from, to) = match words {
        [way, key, from, to] if way == "encrypt" || way == "decrypt" => (way == "encrypt", key, from, to),
        _ => return Err("words: encrypt|decrypt KEYFILE FROM TO".into()),
    };
    let key = std::fs::read(key)?;
    let mode = if key.len() == 16 { Mode::Aes128CbcEssiv } else { Mode::Aes256Xts };
    blkcrypt::check_key(mode, UNIT, 16, &key)?;
    carry(encrypt, mode, &key, &mut File::open(from)?, &mut File::create(to)?)
}

fn main() {
    let words: Vec<String> = std::env::args().skip(1).collect();
    if let Err(error) = run(&words) {
        eprintln!("units: {error}");
        std::process::exit(1);
    }
}
