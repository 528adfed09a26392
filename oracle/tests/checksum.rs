//! The sources being judged are the published ones, byte for byte.

const BOUNDED: &str = "f161cc0e03f59cc764a44dc0782f7fcef7325fc328dfc8cb8c7fd608fc259cc8";
const SINGLE: &str = "610671ffb6f3b3bc9d375b99f4e004c61eece74caa29c2a3af6977d4764185f4";
const UNBOUNDED: &str = "e90ea841f3f1eac5503b1c3cd2949de64956fc6a164ca65150c6c2bba02d0e16";

#[test]
fn sources_are_unmodified() {
    assert_eq!(sha256(include_bytes!("../src/bounded.rs")), BOUNDED);
    assert_eq!(include_str!("../src/bounded.rs.sha256"), format!("{BOUNDED}  bounded.rs\n"));
    assert_eq!(sha256(include_bytes!("../src/single.rs")), SINGLE);
    assert_eq!(include_str!("../src/single.rs.sha256"), format!("{SINGLE}  single.rs\n"));
    assert_eq!(sha256(include_bytes!("../src/unbounded.rs")), UNBOUNDED);
    assert_eq!(include_str!("../src/unbounded.rs.sha256"), format!("{UNBOUNDED}  unbounded.rs\n"));
}

#[test]
fn checksum_is_sha_256() {
    // FIPS 180-4's examples: one block, and two.
    assert_eq!(sha256(b"abc"), "ba7816bf8f01cfea414140de5dae2223b00361a396177a9cb410ff61f20015ad");
    let two = b"abcdbcdecdefdefgefghfghighijhijkijkljklmklmnlmnomnopnopq";
    assert_eq!(sha256(two), "248d6a61d20638b8e5c026930c3e6039a33ce45964ff2167f6ecedd419db06c1");
}

fn sha256(message: &[u8]) -> String {
    let primes: Vec<u64> = (2..312).filter(|n| (2..*n).all(|d| n % d != 0)).collect();
    assert_eq!(primes.len(), 64);
    let constants: Vec<u32> = primes.iter().map(|prime| root_fraction(*prime, 3)).collect();
    let mut hash: Vec<u32> = primes[..8].iter().map(|prime| root_fraction(*prime, 2)).collect();
    let mut padded = message.to_vec();
    padded.push(0x80);
    padded.resize(padded.len().next_multiple_of(64), 0);
    if message.len() % 64 >= 56 {
        padded.resize(padded.len() + 64, 0);
    }
    let end = padded.len() - 8;
    padded[end..].copy_from_slice(&(8 * message.len() as u64).to_be_bytes());
    for block in padded.chunks(64) {
        compress(&mut hash, block, &constants);
    }
    hash.iter().map(|word| format!("{word:08x}")).collect()
}

/// The first 32 bits of the fraction of a number's square or cube root: the largest r with r^power <= n * 2^(32 * power).
fn root_fraction(n: u64, power: u32) -> u32 {
    let wanted = u128::from(n) << (32 * power);
    let mut root: u128 = 0;
    for bit in (0..38).rev() {
        let next = root | 1 << bit;
        if next.pow(power) <= wanted {
            root = next;
        }
    }
    root as u32
}

fn compress(hash: &mut [u32], block: &[u8], constants: &[u32]) {
    let mut w: Vec<u32> = block.chunks(4).map(|bytes| u32::from_be_bytes(bytes.try_into().unwrap())).collect();
    for i in 16..64 {
        let s0 = w[i - 15].rotate_right(7) ^ w[i - 15].rotate_right(18) ^ (w[i - 15] >> 3);
        let s1 = w[i - 2].rotate_right(17) ^ w[i - 2].rotate_right(19) ^ (w[i - 2] >> 10);
        w.push(w[i - 16].wrapping_add(s0).wrapping_add(w[i - 7]).wrapping_add(s1));
    }
    let mut v = hash.to_vec();
    for i in 0..64 {
        let s1 = v[4].rotate_right(6) ^ v[4].rotate_right(11) ^ v[4].rotate_right(25);
        let choice = (v[4] & v[5]) ^ (!v[4] & v[6]);
        let t1 = [s1, choice, constants[i], w[i]].iter().fold(v[7], |sum, term| sum.wrapping_add(*term));
        let s0 = v[0].rotate_right(2) ^ v[0].rotate_right(13) ^ v[0].rotate_right(22);
        let majority = (v[0] & v[1]) ^ (v[0] & v[2]) ^ (v[1] & v[2]);
        v.rotate_right(1);
        v[4] = v[4].wrapping_add(t1);
        v[0] = t1.wrapping_add(s0).wrapping_add(majority);
    }
    hash.iter_mut().zip(v).for_each(|(word, term)| *word = word.wrapping_add(term));
}
