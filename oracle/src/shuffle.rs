//! Shuffle and unshuffle, from the words of the request: the Rust has neither.
use crate::script::Answer;

/// All first bytes, then all second, third and fourth.
pub fn shuffled(block: &[u8]) -> Vec<u8> {
    (0..4).flat_map(|rank| block.iter().skip(rank).step_by(4)).copied().collect()
}

/// The way back: each number's bytes, one of each quarter.
pub fn unshuffled(block: &[u8]) -> Vec<u8> {
    let quarter = block.len() / 4;
    (0..quarter).flat_map(|i| (0..4).map(move |rank| block[rank * quarter + i])).collect()
}

/// The places of the output, and the block.
pub fn block(words: &[u32]) -> Option<(usize, Vec<u8>)> {
    let (&places, &len) = (words.first()?, words.get(1)?);
    let bytes: Vec<u8> = words[2..].iter().flat_map(|w| w.to_le_bytes()).collect();
    let len = len as usize;
    (len.div_ceil(4) == words.len() - 2).then(|| (places as usize, bytes[..len].to_vec()))
}

pub fn put(a: &mut Answer, bytes: &[u8]) {
    for w in bytes.chunks(4) {
        a.u(u32::from_le_bytes(w.try_into().expect("four bytes")) as usize);
    }
}
