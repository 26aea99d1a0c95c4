//! Doubles: codes with the same bytes as an earlier code of their file.

use crate::failure::{Done, Failure};
use crate::files::Input;
use crate::memory;
use std::collections::HashMap;
use std::hash::BuildHasher;

/// Finds the doubles among codes that follow one another in a file. Hashes say where to look and bytes decide, so the
/// answer is exact; the earlier bytes are read from the file again, so that none are held.
pub struct Doubles {
    /// Place and number of each code that is no double, under the hash of its bytes or the next key that was free.
    firsts: HashMap<u64, (u64, u64)>,
    /// The codes so far, and their bytes: number and place of the next.
    codes: u64,
    place: u64,
    /// How many of them are doubles.
    count: u64,
    /// If they are asked for: the number of each double, and that of the first code with its bytes.
    pairs: Option<Vec<(u64, u64)>>,
    /// An earlier code, read again.
    again: Vec<u8>,
}

impl Doubles {
    /// At the start of a file. `list` says whether the doubles are to be told one by one.
    pub fn new(list: bool) -> Doubles {
        Doubles { firsts: HashMap::new(), codes: 0, place: 0, count: 0, pairs: list.then(Vec::new), again: Vec::new() }
    }

    /// Takes the next code of the file. Its head must say its length.
    pub fn next(&mut self, file: &Input, code: &[u8]) -> Done<()> {
        // Keyed at random, so that nobody can prepare codes that have the same hash.
        let hash = self.firsts.hasher().hash_one(code);
        self.next_at(hash, file, code)
    }

    fn next_at(&mut self, hash: u64, file: &Input, code: &[u8]) -> Done<()> {
        if let Some(first) = self.first(hash, file, code)? {
            self.count += 1;
            if let Some(pairs) = &mut self.pairs {
                pairs.try_reserve(1).map_err(|_| no_memory(self.codes))?;
                pairs.push((self.codes, first));
            }
        }
        self.codes += 1;
        self.place += code.len() as u64;
        Ok(())
    }

    /// The number of the first code with these bytes; if there is none yet, this code is kept as that.
    fn first(&mut self, hash: u64, file: &Input, code: &[u8]) -> Done<Option<u64>> {
        let mut key = hash;
        while let Some((place, number)) = self.firsts.get(&key) {
            // As many bytes as this code has are enough: the head among them says the length of either.
            memory::resize(&mut self.again, code.len())?;
            file.bytes_at(*place, &mut self.again)?;
            if self.again == code {
                return Ok(Some(*number));
            }
            // Another code has this hash, or one a little below it.
            key = key.wrapping_add(1);
        }
        self.firsts.try_reserve(1).map_err(|_| no_memory(self.codes))?;
        self.firsts.insert(key, (self.place, self.codes));
        Ok(None)
    }

    /// How many codes there were, doubles and others.
    pub fn codes(&self) -> u64 {
        self.codes
    }

    /// The number of each double, and that of the first code with its bytes; none if they were not asked for.
    pub fn pairs(&self) -> &[(u64, u64)] {
        self.pairs.as_deref().unwrap_or_default()
    }

    /// As "3 are doubles of earlier ones".
    pub fn in_words(&self) -> String {
        match self.count {
            1 => "1 is a double of an earlier one".into(),
            count => format!("{count} are doubles of earlier ones"),
        }
    }
}

fn no_memory(codes: u64) -> Failure {
    Failure::Memory(format!("no memory to find doubles beyond the first {codes} codes"))
}

#[cfg(test)]
mod tests {
    use super::*;

    /// Codes of one block, whose index takes as many bits as the width says.
    fn code(norm: u8, index: &[u8]) -> Vec<u8> {
        [b"FB1\x01", &[8 * index.len() as u8, 1, 0, 0, 0, 2, 0, norm, 60][..], index].concat()
    }

    #[test]
    fn codes_with_the_same_hash_are_told_apart() {
        let (a, b, c, d) = (code(0, &[0]), code(1, &[0]), code(0, &[1]), code(0, &[0, 0]));
        let codes = [&a, &b, &a, &d, &c, &b, &c, &a, &d, &d];
        let path = std::env::temp_dir().join(format!("nuqtelya-test-{}-doubles", std::process::id()));
        std::fs::write(&path, codes.map(Vec::as_slice).concat()).expect("a file");
        let file = Input::open(&path).expect("the file");
        // All the same, the last key of all, and two whose codes come between each other.
        let hashes: [fn(&[u8]) -> u64; 3] = [|_| 7, |_| u64::MAX, |code| u64::from(code[11])];
        for hash in hashes {
            let mut doubles = Doubles::new(true);
            codes.iter().for_each(|code| doubles.next_at(hash(code), &file, code).expect("a code"));
            assert_eq!(doubles.pairs(), [(2, 0), (5, 1), (6, 4), (7, 0), (8, 3), (9, 3)]);
            assert_eq!((doubles.codes(), doubles.count, doubles.firsts.len()), (10, 6, 4));
        }
        std::fs::remove_file(&path).expect("the file");
    }
}
