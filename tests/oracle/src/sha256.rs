//! SHA-256 (FIPS 180-4) of bytes, for stored outputs that are given by it.

/// The digest as hexadecimal digits.
pub fn sha256(bytes: &[u8]) -> String {
    let primes: Vec<u128> = (2..).filter(|n| (2..*n).all(|d| n % d != 0)).take(64).collect();
    let mut state: Vec<u32> = primes[..8].iter().map(|prime| fraction(*prime, 2)).collect();
    let constants: Vec<u32> = primes.iter().map(|prime| fraction(*prime, 3)).collect();
    let mut padded = bytes.to_vec();
    padded.push(0x80);
    while padded.len() % 64 != 56 {
        padded.push(0);
    }
    padded.extend((8 * bytes.len() as u64).to_be_bytes());
    padded.chunks(64).for_each(|block| take_block(&mut state, &constants, block));
    state.iter().map(|word| format!("{word:08x}")).collect()
}

/// The first 32 bits behind the point of a root of a number: the root of the number × 2^(32 × degree), below 2^32.
fn fraction(number: u128, degree: u32) -> u32 {
    let scaled = number << (32 * degree);
    let mut root: u128 = 0;
    for bit in (0..37).rev() {
        let next = root | 1 << bit;
        if next.pow(degree) <= scaled {
            root = next;
        }
    }
    root as u32
}

fn take_block(state: &mut [u32], constants: &[u32], block: &[u8]) {
    let word = |bytes: &[u8]| bytes.iter().fold(0, |word, byte| word << 8 | u32::from(*byte));
    let turned = |word: u32, by: [u32; 3]| by.map(|bits| word.rotate_right(bits));
    let mut words: Vec<u32> = block.chunks(4).map(word).collect();
    for i in 16..64 {
        let ([a, b, _], [c, d, _]) = (turned(words[i - 15], [7, 18, 0]), turned(words[i - 2], [17, 19, 0]));
        let (low, high) = (a ^ b ^ (words[i - 15] >> 3), c ^ d ^ (words[i - 2] >> 10));
        words.push(words[i - 16].wrapping_add(low).wrapping_add(words[i - 7]).wrapping_add(high));
    }
    let mut v: [u32; 8] = state.try_into().expect("eight words");
    for (constant, word) in constants.iter().zip(words) {
        let [a, b, c, d, e, f, g, h] = v;
        let xor = |[x, y, z]: [u32; 3]| x ^ y ^ z;
        let chosen = (e & f) ^ (!e & g);
        let major = (a & b) ^ (a & c) ^ (b & c);
        let first = h.wrapping_add(xor(turned(e, [6, 11, 25]))).wrapping_add(chosen);
        let first = first.wrapping_add(*constant).wrapping_add(word);
        let second = xor(turned(a, [2, 13, 22])).wrapping_add(major);
        v = [first.wrapping_add(second), a, b, c, d.wrapping_add(first), e, f, g];
    }
    state.iter_mut().zip(v).for_each(|(word, more)| *word = word.wrapping_add(more));
}

#[cfg(test)]
mod tests {
    use super::sha256;

    /// The examples of the standard, and the empty text.
    #[test]
    fn known_digests() {
        let none = "e3b0c44298fc1c149afbf4c8996fb92427ae41e4649b934ca495991b7852b855";
        assert_eq!(sha256(b""), none);
        let abc = "ba7816bf8f01cfea414140de5dae2223b00361a396177a9cb410ff61f20015ad";
        assert_eq!(sha256(b"abc"), abc);
        let two_blocks = "248d6a61d20638b8e5c026930c3e6039a33ce45964ff2167f6ecedd419db06c1";
        assert_eq!(sha256(b"abcdbcdecdefdefgefghfghighijhijkijkljklmklmnlmnomnopnopq"), two_blocks);
    }
}
