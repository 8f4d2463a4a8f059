//! SHA-256 (FIPS 180-4), as the standard library has none.

use std::sync::OnceLock;

/// The first 32 bits of what follows the point in a root of each of the first 64 primes.
fn roots(cube: bool) -> impl Iterator<Item = u32> {
    let is_prime = |n: &u64| !(2..*n).any(|d| n / d * d == *n);
    (2u64..).filter(is_prime).map(move |prime| {
        // The greatest root with root^k <= prime * 2^(32 k).
        let power = |x: u128| if cube { x * x * x } else { x * x };
        let bound = u128::from(prime) << if cube { 96 } else { 64 };
        let root = (0..36).rev().fold(0u128, |root, bit| {
            let next = root | 1 << bit;
            if power(next) <= bound {
                next
            } else {
                root
            }
        });
        root as u32
    })
}

/// The constants of the rounds, and the state at first.
fn constants() -> &'static (Vec<u32>, [u32; 8]) {
    static CONSTANTS: OnceLock<(Vec<u32>, [u32; 8])> = OnceLock::new();
    CONSTANTS.get_or_init(|| {
        let state: Vec<u32> = roots(false).take(8).collect();
        (roots(true).take(64).collect(), state.try_into().unwrap())
    })
}

/// The SHA-256 of bytes.
pub fn sha256(data: &[u8]) -> [u8; 32] {
    let (constants, mut state) = constants().clone();
    let mut padded = data.to_vec();
    padded.push(0x80);
    padded.resize((padded.len() + 8).next_multiple_of(64) - 8, 0);
    padded.extend_from_slice(&(8 * data.len() as u64).to_be_bytes());
    for block in padded.chunks_exact(64) {
        let mut words: Vec<u32> = block.chunks_exact(4).map(|w| u32::from_be_bytes(w.try_into().unwrap())).collect();
        for t in 16..64 {
            let (a, b) = (words[t - 15], words[t - 2]);
            let s0 = a.rotate_right(7) ^ a.rotate_right(18) ^ (a >> 3);
            let s1 = b.rotate_right(17) ^ b.rotate_right(19) ^ (b >> 10);
            words.push(words[t - 16].wrapping_add(s0).wrapping_add(words[t - 7]).wrapping_add(s1));
        }
        let mut v = state;
        for t in 0..64 {
            let [a, b, c, d, e, f, g, h] = v;
            let s1 = e.rotate_right(6) ^ e.rotate_right(11) ^ e.rotate_right(25);
            let s0 = a.rotate_right(2) ^ a.rotate_right(13) ^ a.rotate_right(22);
            let choice = (e & f) ^ (!e & g);
            let majority = (a & b) ^ (a & c) ^ (b & c);
            let one = h.wrapping_add(s1).wrapping_add(choice).wrapping_add(constants[t]).wrapping_add(words[t]);
            let two = s0.wrapping_add(majority);
            v = [one.wrapping_add(two), a, b, c, d.wrapping_add(one), e, f, g];
        }
        for (word, more) in state.iter_mut().zip(v) {
            *word = word.wrapping_add(more);
        }
    }
    let bytes: Vec<u8> = state.iter().flat_map(|word| word.to_be_bytes()).collect();
    bytes.try_into().unwrap()
}
