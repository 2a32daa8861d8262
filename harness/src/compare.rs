//! One call of the library held against the answer that is wanted: number, length, the bytes written, the bytes not written.

use crate::{library, reader};

#[derive(Clone, Copy, PartialEq, Debug)]
pub enum Call {
    Sheet,
    Function,
}

/// What the crate's code says, at its full length.
pub type Wanted = Result<Vec<u8>, u8>;

/// The output before the call, with guard bytes before and behind it.
pub struct Room {
    area: Vec<u8>,
    pattern: Vec<u8>,
}

const GUARD: usize = 64;
/// No list is longer (the longest that the generators make has 250,000 bytes).
pub const PLENTY: usize = 300_000;

impl Room {
    pub fn new() -> Room {
        // Each byte differs from its neighbours; its period is no power of two.
        let pattern: Vec<u8> = (0..PLENTY + 2 * GUARD + 251).map(|i| (i % 251) as u8 ^ 0xa5).collect();
        Room { area: vec![0; PLENTY + 2 * GUARD], pattern }
    }

    /// Calls the library with an output of `length` bytes. None: the library has no such call. Some(None): as wanted.
    pub fn check(
        &mut self,
        call: Call,
        input: &[u8],
        length: usize,
        wanted: &Wanted,
        salt: usize,
    ) -> Option<Option<String>> {
        let all = GUARD + length + GUARD;
        let start = salt % 251;
        let before = &self.pattern[start..start + all];
        let area = &mut self.area[..all];
        area.copy_from_slice(before);
        let given = input.to_vec();
        let out = &mut area[GUARD..GUARD + length];
        let got = match call {
            Call::Sheet => library::convert(&given, out),
            Call::Function => library::convert_function(&given, out)?,
        };
        // 9: the output is shorter than the list.
        let (number, list): (u32, &[u8]) = match wanted {
            Ok(list) if list.len() <= length => (0, list),
            Ok(_) => (9, &[]),
            Err(n) => (u32::from(*n), &[]),
        };
        if got.number != number {
            return Some(Some(format!("number {} in place of {}", got.number, number)));
        }
        if got.length != list.len() {
            return Some(Some(format!("length {} in place of {}", got.length, list.len())));
        }
        let end = GUARD + list.len();
        if let Some(i) = (0..list.len()).find(|i| area[GUARD + i] != list[*i]) {
            return Some(Some(format!(
                "byte {} of the list is {:02x} in place of {:02x}",
                i,
                area[GUARD + i],
                list[i]
            )));
        }
        if call == Call::Sheet && number == 0 && !reader::in_layout(&area[GUARD..end]) {
            return Some(Some("the second reader finds the list outside the layout".to_string()));
        }
        let changed = |i: usize| area[i] != before[i];
        if area[end..] != before[end..] {
            let i = (end..all).find(|i| changed(*i)).unwrap();
            return Some(Some(format!(
                "byte {} was written, the list has {} and the output {}",
                i - GUARD,
                list.len(),
                length
            )));
        }
        if area[..GUARD] != before[..GUARD] {
            return Some(Some("a byte before the output was written".to_string()));
        }
        if given != input {
            return Some(Some("the input was written".to_string()));
        }
        Some(None)
    }
}
