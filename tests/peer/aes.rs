//! AES-128 by the plain steps of FIPS 197, with the S-box worked out from the field, and the cascade over it.

use crate::mode::{xor, Block, Cipher};

fn times(mut a: u8, mut b: u8) -> u8 {
    let mut sum = 0;
    while b != 0 {
        if b & 1 == 1 {
            sum ^= a;
        }
        a = a << 1 ^ if a & 0x80 != 0 { 0x1b } else { 0 };
        b >>= 1;
    }
    sum
}

fn sbox_of(x: u8) -> u8 {
    let inverse = (1..=255).find(|y| times(x, *y) == 1).unwrap_or(0);
    let start = if cfg!(fault = "sbox") && x == 0x53 { 0x62 } else { 0x63 };
    (0..8).fold(start, |out, i| {
        let bit = [0, 4, 5, 6, 7].iter().fold(0, |b, k| b ^ inverse >> ((i + k) % 8) & 1);
        out ^ bit << i
    })
}

/// The round keys and the S-box both ways.
pub struct Aes {
    keys: Vec<Block>,
    sbox: [u8; 256],
    inverse: [u8; 256],
}

impl Aes {
    pub fn new(key: Block) -> Aes {
        let sbox: [u8; 256] = std::array::from_fn(|x| sbox_of(x as u8));
        let mut inverse = [0; 256];
        for x in 0..256 {
            inverse[usize::from(sbox[x])] = x as u8;
        }
        // Words of four bytes, FIPS 197's w.
        let mut w: Vec<[u8; 4]> = key.chunks(4).map(|c| c.try_into().unwrap()).collect();
        let mut constant = 1;
        for i in 4..44 {
            let mut t = w[i - 1];
            if i % 4 == 0 {
                t.rotate_left(1);
                t = t.map(|b| sbox[usize::from(b)]);
                t[0] ^= constant;
                constant = times(constant, 2);
            }
            w.push(std::array::from_fn(|k| w[i - 4][k] ^ t[k]));
        }
        let keys = w.chunks(4).map(|c| c.concat().try_into().unwrap()).collect();
        Aes { keys, sbox, inverse }
    }

    pub fn encrypt(&self, block: &Block) -> Block {
        let mut s = xor(block, &self.keys[0]);
        for round in 1..=10 {
            s = s.map(|b| self.sbox[usize::from(b)]);
            s = std::array::from_fn(|i| s[(i + 4 * (i % 4)) % 16]);
            if round < 10 {
                s = mix(&s, [2, 3, 1, 1]);
            }
            s = xor(&s, &self.keys[round]);
        }
        s
    }

    pub fn decrypt(&self, block: &Block) -> Block {
        let mut s = *block;
        for round in (1..=10).rev() {
            s = xor(&s, &self.keys[round]);
            if round < 10 {
                s = mix(&s, [14, 11, 13, 9]);
            }
            s = std::array::from_fn(|i| s[(i + 12 * (i % 4)) % 16]);
            s = s.map(|b| self.inverse[usize::from(b)]);
        }
        xor(&s, &self.keys[0])
    }
}

/// Each column times the circulant matrix whose first row is given.
fn mix(s: &Block, first: [u8; 4]) -> Block {
    std::array::from_fn(|i| {
        let (column, row) = (i / 4, i % 4);
        (0..4).fold(0, |sum, k| sum ^ times(s[4 * column + k], first[(k + 4 - row) % 4]))
    })
}

pub struct Cascade(pub Aes);

impl Cipher for Cascade {
    fn encrypt(&self, head: &Block, body: &Block, block: &Block) -> Block {
        let inner = self.0.encrypt(&xor(head, &self.0.encrypt(block)));
        self.0.encrypt(&xor(body, &inner))
    }

    fn decrypt(&self, head: &Block, body: &Block, block: &Block) -> Block {
        let inner = self.0.decrypt(&xor(body, &self.0.decrypt(block)));
        self.0.decrypt(&xor(head, &inner))
    }
}
