//! BLIF texts of inputs alone, whose names are of 12 bytes each: by chance, or made to be alike in both hashes of the name table
//! (crates/names/src/hashing.rs, which no caller can choose).
use crate::texts::Random;
use std::collections::HashSet;

/// What the second hash and the sum of the bytes, modulo 256, are made to be.
const HASH: u32 = 0xFB1D_3F50;
const SUM: u32 = 90;

fn mixed(hash: u32, word: u32) -> u32 {
    ((u64::from(hash) + u64::from(word)) * 1_540_483_477 / 2048 % (1 << 32)) as u32
}

/// Four bytes that may stand in a name.
fn word(random: &mut Random) -> u32 {
    u32::from_le_bytes(std::array::from_fn(|_| b'0' + random.below(64) as u8))
}

/// A byte that a name may have anywhere.
fn plain(byte: u8) -> bool {
    (b'$'..=b'~').contains(&byte) && byte != b'\\' && byte != b'.'
}

/// A name that ends so that the second hash is `HASH`; none where that end has other bytes or the sum is another.
fn alike(random: &mut Random) -> Option<String> {
    let (first, second) = (word(random), word(random));
    let last = HASH.checked_sub(mixed(mixed(0, first), second))?;
    let bytes: Vec<u8> = [first, second, last].into_iter().flat_map(u32::to_le_bytes).collect();
    let sum: u32 = bytes.iter().map(|byte| u32::from(*byte)).sum();
    (bytes.iter().all(|byte| plain(*byte)) && sum % 256 == SUM).then(|| String::from_utf8(bytes).expect("ASCII"))
}

fn by_chance(random: &mut Random) -> Option<String> {
    let bytes: Vec<u8> = [word(random), word(random), word(random)].into_iter().flat_map(u32::to_le_bytes).collect();
    bytes.iter().all(|byte| plain(*byte)).then(|| String::from_utf8(bytes).expect("ASCII"))
}

fn inputs(count: usize, mut name: impl FnMut() -> Option<String>) -> String {
    let (mut seen, mut text) = (HashSet::new(), String::from(".inputs"));
    while seen.len() < count {
        if let Some(name) = name() {
            if seen.insert(name.clone()) {
                text.push(' ');
                text.push_str(&name);
            }
        }
    }
    let last = text[text.len() - 12..].to_owned();
    text + "\n.outputs " + &last + "\n"
}

/// So many inputs with names that are alike in both hashes, and as many with names by chance.
pub fn both(count: usize) -> (String, String) {
    let (mut random, mut other) = (Random::new(11), Random::new(12));
    (inputs(count, || alike(&mut random)), inputs(count, || by_chance(&mut other)))
}
