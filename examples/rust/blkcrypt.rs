//! blkcrypt's unit ciphers for programs in Rust: the declarations of `include/blkcrypt.h`, behind safe functions.

use std::fmt;

/// How data units are enciphered.
#[derive(Clone, Copy, Debug, PartialEq, Eq)]
#[repr(u32)]
pub enum Mode {
    Aes256Xts = 1,
    Aes128CbcEssiv = 2,
}

/// The first test that a call failed, by its number in `blkcrypt.h`.
#[derive(Clone, Copy, Debug, PartialEq, Eq)]
pub struct Status(pub u32);

impl fmt::Display for Status {
    fn fmt(&self, f: &mut fmt::Formatter) -> fmt::Result {
        f.write_str(match self.0 {
            1 => "a key has 64 bytes for AES-256-XTS, or 16 for AES-128-CBC-ESSIV",
            2 => "a data unit has 512, 1024, 2048 or 4096 bytes",
            3 => "a data unit number has 1 to 16 bytes",
            4 => "the two halves of an XTS key are equal",
            6 => "the data isn't whole data units",
            7 => "the number of a data unit would be 2^128 or more",
            _ => "no status of blkcrypt",
        })
    }
}

impl std::error::Error for Status {}

#[repr(C)]
struct Number {
    words: [u64; 4],
}

#[link(name = "bc_c", kind = "static")]
extern "C" {
    fn blkcrypt_check_key(mode: u32, unit: u32, number_bytes: u8, raw: *const u8, raw_len: usize) -> u32;
    fn blkcrypt_encrypt_units(
        mode: u32, unit: u32, raw: *const u8, raw_len: usize, first: *const Number, data: *mut u8, data_len: usize,
    ) -> u32;
    fn blkcrypt_decrypt_units(
        mode: u32, unit: u32, raw: *const u8, raw_len: usize, first: *const Number, data: *mut u8, data_len: usize,
    ) -> u32;
}

/// The number of a call's first data unit, which is below 2^128.
fn number(first: u128) -> Number {
    Number { words: [first as u64, (first >> 64) as u64, 0, 0] }
}

fn result(status: u32) -> Result<(), Status> {
    if status == 0 { Ok(()) } else { Err(Status(status)) }
}

/// Whether a key can be used in this mode, for data units of `unit` bytes whose numbers have at most `number_bytes` bytes.
pub fn check_key(mode: Mode, unit: u32, number_bytes: u8, key: &[u8]) -> Result<(), Status> {
    // SAFETY: a slice's pointer isn't null and has so many initialized bytes; nothing is written.
    result(unsafe { blkcrypt_check_key(mode as u32, unit, number_bytes, key.as_ptr(), key.len()) })
}

/// Enciphers whole consecutive data units in place, unit i under the number `first` plus i. After an error the data is as it
/// was.
pub fn encrypt_units(mode: Mode, unit: u32, key: &[u8], first: u128, data: &mut [u8]) -> Result<(), Status> {
    let first = number(first);
    // SAFETY: as above, and `data` is borrowed alone.
    result(unsafe {
        blkcrypt_encrypt_units(mode as u32, unit, key.as_ptr(), key.len(), &first, data.as_mut_ptr(), data.len())
    })
}

/// Deciphers them.
pub fn decrypt_units(mode: Mode, unit: u32, key: &[u8], first: u128, data: &mut [u8]) -> Result<(), Status> {
    let first = number(first);
    // SAFETY: as above.
    result(unsafe {
        blkcrypt_decrypt_units(mode as u32, unit, key.as_ptr(), key.len(), &first, data.as_mut_ptr(), data.len())
    })
}
