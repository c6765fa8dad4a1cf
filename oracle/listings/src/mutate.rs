//! Random damage to bytes.

use reading::Rng;

/// Bytes that decide something: lengths, kinds, counts, statuses and their neighbours.
const TELLING: [u8; 14] = [0, 1, 2, 3, 4, 5, 8, 11, 16, 18, 19, 127, 128, 255];

/// One to three changes: bits turned over, a byte set, a part cut off, taken out or repeated, a part of `other` put in.
pub fn mutated(rng: &mut Rng, bytes: &[u8], other: &[u8]) -> Vec<u8> {
    let mut bytes = bytes.to_vec();
    for _ in 0..rng.between(1, 3) {
        change(rng, &mut bytes, other);
    }
    bytes
}

fn change(rng: &mut Rng, bytes: &mut Vec<u8>, other: &[u8]) {
    let at = rng.below(bytes.len());
    let end = rng.between(at, bytes.len().min(at + 40));
    match rng.below(7) {
        0 | 1 if at < bytes.len() => bytes[at] ^= 1 << rng.below(8),
        2 if at < bytes.len() => bytes[at] = rng.pick(&TELLING),
        3 => bytes.truncate(at),
        4 => {
            bytes.drain(at..end);
        }
        5 => {
            let part = bytes[at..end].to_vec();
            bytes.splice(at..at, part);
        }
        _ => {
            let from = rng.below(other.len());
            let to = rng.between(from, other.len().min(from + 40));
            bytes.splice(at..end, other[from..to].iter().copied());
        }
    }
}

/// Any bytes, or mostly small ones in the low places of two-byte numbers, so that reading gets somewhere.
pub fn random(rng: &mut Rng, length: usize) -> Vec<u8> {
    let small = rng.one_in(2);
    let byte = |place: usize| {
        let any = rng.number().to_le_bytes()[0];
        match (small, place % 2) {
            (false, _) => any,
            (true, 0) => rng.pick(&TELLING),
            (true, _) => rng.pick(&[0, 0, 0, 1, any]),
        }
    };
    (0..length).map(byte).collect()
}
