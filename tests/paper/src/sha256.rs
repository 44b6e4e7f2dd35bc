//! SHA-256, from FIPS 180-4: section 4.1.2 (functions), 4.2.2 (constants), 5.1.1 (padding), 5.3.3 (first hash value) and
//! 6.2.2 (the computation). It takes any length.

/// FIPS 180-4, 4.2.2: the first 32 bits of the fractional parts of the cube roots of the first 64 primes.
const K: [u32; 64] = [
    0x428a2f98, 0x71374491, 0xb5c0fbcf, 0xe9b5dba5, 0x3956c25b, 0x59f111f1, 0x923f82a4, 0xab1c5ed5, 0xd807aa98,
    0x12835b01, 0x243185be, 0x550c7dc3, 0x72be5d74, 0x80deb1fe, 0x9bdc06a7, 0xc19bf174, 0xe49b69c1, 0xefbe4786,
    0x0fc19dc6, 0x240ca1cc, 0x2de92c6f, 0x4a7484aa, 0x5cb0a9dc, 0x76f988da, 0x983e5152, 0xa831c66d, 0xb00327c8,
    0xbf597fc7, 0xc6e00bf3, 0xd5a79147, 0x06ca6351, 0x14292967, 0x27b70a85, 0x2e1b2138, 0x4d2c6dfc, 0x53380d13,
    0x650a7354, 0x766a0abb, 0x81c2c92e, 0x92722c85, 0xa2bfe8a1, 0xa81a664b, 0xc24b8b70, 0xc76c51a3, 0xd192e819,
    0xd6990624, 0xf40e3585, 0x106aa070, 0x19a4c116, 0x1e376c08, 0x2748774c, 0x34b0bcb5, 0x391c0cb3, 0x4ed8aa4a,
    0x5b9cca4f, 0x682e6ff3, 0x748f82ee, 0x78a5636f, 0x84c87814, 0x8cc70208, 0x90befffa, 0xa4506ceb, 0xbef9a3f7,
    0xc67178f2,
];

/// FIPS 180-4, 5.3.3: the same of the square roots of the first eight primes.
const FIRST: [u32; 8] =
    [0x6a09e667, 0xbb67ae85, 0x3c6ef372, 0xa54ff53a, 0x510e527f, 0x9b05688c, 0x1f83d9ab, 0x5be0cd19];

fn ch(x: u32, y: u32, z: u32) -> u32 {
    (x & y) ^ (!x & z)
}

fn maj(x: u32, y: u32, z: u32) -> u32 {
    (x & y) ^ (x & z) ^ (y & z)
}

fn big_sigma0(x: u32) -> u32 {
    x.rotate_right(2) ^ x.rotate_right(13) ^ x.rotate_right(22)
}

fn big_sigma1(x: u32) -> u32 {
    x.rotate_right(6) ^ x.rotate_right(11) ^ x.rotate_right(25)
}

fn small_sigma0(x: u32) -> u32 {
    x.rotate_right(7) ^ x.rotate_right(18) ^ (x >> 3)
}

fn small_sigma1(x: u32) -> u32 {
    x.rotate_right(17) ^ x.rotate_right(19) ^ (x >> 10)
}

/// 6.2.2, step 1: the message schedule of one block.
fn schedule(block: &[u8]) -> [u32; 64] {
    let mut w = [0; 64];
    for (word, octets) in w.iter_mut().zip(block.chunks_exact(4)) {
        *word = u32::from_be_bytes([octets[0], octets[1], octets[2], octets[3]]);
    }
    for t in 16..64 {
        w[t] =
            small_sigma1(w[t - 2]).wrapping_add(w[t - 7]).wrapping_add(small_sigma0(w[t - 15])).wrapping_add(w[t - 16]);
    }
    w
}

/// 6.2.2, steps 2 to 4: the hash value after one more block.
fn after_block(hash: [u32; 8], block: &[u8]) -> [u32; 8] {
    let w = schedule(block);
    let [mut a, mut b, mut c, mut d, mut e, mut f, mut g, mut h] = hash;
    // Eight rounds bring every letter back to its place. An inner loop of eight lets the compiler see that, and no word is moved.
    for (ks, ws) in K.chunks_exact(8).zip(w.chunks_exact(8)) {
        for (k, w) in ks.iter().zip(ws) {
            let t1 = h.wrapping_add(big_sigma1(e)).wrapping_add(ch(e, f, g)).wrapping_add(*k).wrapping_add(*w);
            let t2 = big_sigma0(a).wrapping_add(maj(a, b, c));
            (h, g, f, e) = (g, f, e, d.wrapping_add(t1));
            (d, c, b, a) = (c, b, a, t1.wrapping_add(t2));
        }
    }
    let mut next = hash;
    for (word, worked) in next.iter_mut().zip([a, b, c, d, e, f, g, h]) {
        *word = word.wrapping_add(worked);
    }
    next
}

/// 5.1.1: what follows the whole blocks of a message: the octets left, a one bit, zeros, and the length in bits. One block
/// or two; the number of octets in use comes with them.
fn padded_end(message: &[u8]) -> ([u8; 128], usize) {
    let left = &message[message.len() / 64 * 64..];
    let used = if left.len() < 56 { 64 } else { 128 };
    let mut end = [0; 128];
    end[..left.len()].copy_from_slice(left);
    end[left.len()] = 0x80;
    let bits = 8 * message.len() as u64;
    end[used - 8..used].copy_from_slice(&bits.to_be_bytes());
    (end, used)
}

/// The digest of a message.
pub fn sha256(message: &[u8]) -> [u8; 32] {
    let (end, used) = padded_end(message);
    let blocks = message.chunks_exact(64).chain(end[..used].chunks_exact(64));
    let hash = blocks.fold(FIRST, after_block);
    let mut digest = [0; 32];
    for (octets, word) in digest.chunks_exact_mut(4).zip(hash) {
        octets.copy_from_slice(&word.to_be_bytes());
    }
    digest
}

#[cfg(test)]
mod tests {
    use super::*;
    use crate::published::{digests, million_a, MILLION_A};

    fn primes() -> impl Iterator<Item = u128> {
        (2u128..).filter(|n| (2..*n).all(|d| n % d != 0))
    }

    /// The largest number whose power is not over `n`.
    fn root(n: u128, power: u32) -> u128 {
        let (mut low, mut high) = (0u128, 1 << 40);
        while high - low > 1 {
            let middle = (low + high) / 2;
            if middle.pow(power) <= n {
                low = middle
            } else {
                high = middle
            }
        }
        low
    }

    #[test]
    fn the_constants_are_the_roots() {
        for (k, prime) in K.iter().zip(primes()) {
            assert_eq!(*k, root(prime << 96, 3) as u32);
        }
        for (word, prime) in FIRST.iter().zip(primes()) {
            assert_eq!(*word, root(prime << 64, 2) as u32);
        }
    }

    #[test]
    fn the_published_digests() {
        for (message, digest) in digests() {
            assert_eq!(sha256(&message), digest);
        }
        assert_eq!(sha256(&million_a()), MILLION_A);
    }
}
