//! SKINNY-128-384, from docs/CIPHERS.md: 4 rows of 4 cells, a step at a time, with the S-box by single bits.

use crate::mode::{Block, Cipher};

type Rows = [[u8; 4]; 4];

pub struct Skinny {
    key: Block,
}

impl Skinny {
    pub fn new(key: Block) -> Skinny {
        Skinny { key }
    }
}

fn rows(b: &Block) -> Rows {
    std::array::from_fn(|r| std::array::from_fn(|c| b[4 * r + c]))
}

fn block(s: &Rows) -> Block {
    std::array::from_fn(|i| s[i / 4][i % 4])
}

fn sbox(cell: u8) -> u8 {
    // bit[0] is x7
    let mut bit: [u8; 8] = std::array::from_fn(|i| cell >> (7 - i) & 1);
    let nor = |a: u8, b: u8| 1 ^ (a | b);
    for step in 1..=4 {
        bit[3] ^= nor(bit[0], bit[1]);
        bit[7] ^= nor(bit[4], bit[5]);
        bit = if step < 4 {
            [bit[5], bit[6], bit[0], bit[1], bit[3], bit[7], bit[4], bit[2]]
        } else {
            [bit[0], bit[1], bit[2], bit[3], bit[4], bit[6], bit[5], bit[7]]
        };
    }
    bit.iter().fold(0, |n, b| n << 1 | b)
}

/// The table turned round.
fn inverse_sbox(cell: u8) -> u8 {
    (0..=255).find(|x| sbox(*x) == cell).expect("the S-box is one to one")
}

/// What each of the 56 rounds adds after the S-box.
fn round_sums(head: &Block, body: &Block, key: &Block) -> Vec<Rows> {
    let mut tweakey = [*head, *body, *key];
    let mut constant = 0u8;
    let mut sums = Vec::new();
    for _ in 0..56 {
        constant = (constant << 1 & 0x3f) | (1 ^ (constant >> 5 & 1) ^ (constant >> 4 & 1));
        let mut sum = [[0; 4]; 4];
        for i in 0..8 {
            sum[i / 4][i % 4] = tweakey[0][i] ^ tweakey[1][i] ^ tweakey[2][i];
        }
        sum[0][0] ^= constant & 0xf;
        sum[1][0] ^= constant >> 4;
        sum[2][0] ^= 2;
        sums.push(sum);
        for (n, tk) in tweakey.iter_mut().enumerate() {
            let old = *tk;
            for (i, from) in [9, 15, 8, 13, 10, 14, 12, 11, 0, 1, 2, 3, 4, 5, 6, 7].into_iter().enumerate() {
                tk[i] = old[from];
            }
            for x in &mut tk[..8] {
                *x = match n {
                    0 => *x,
                    1 => *x << 1 | ((*x >> 7 ^ *x >> 5) & 1),
                    _ => *x >> 1 | ((*x ^ *x >> 6) & 1) << 7,
                };
            }
        }
    }
    sums
}

impl Cipher for Skinny {
    fn encrypt(&self, head: &Block, body: &Block, plain: &Block) -> Block {
        let mut s = rows(plain);
        for sum in round_sums(head, body, &self.key) {
            for r in 0..4 {
                for c in 0..4 {
                    s[r][c] = sbox(s[r][c]) ^ sum[r][c];
                }
                s[r].rotate_right(r);
            }
            for c in 0..4 {
                let [a, b, d, e] = [s[0][c], s[1][c], s[2][c], s[3][c]];
                s[0][c] = a ^ d ^ e;
                s[1][c] = a;
                s[2][c] = b ^ d;
                s[3][c] = a ^ d;
            }
        }
        block(&s)
    }

    fn decrypt(&self, head: &Block, body: &Block, sealed: &Block) -> Block {
        let table: [u8; 256] = std::array::from_fn(|x| inverse_sbox(x as u8));
        let mut s = rows(sealed);
        for sum in round_sums(head, body, &self.key).iter().rev() {
            for c in 0..4 {
                let [p, q, t, u] = [s[0][c], s[1][c], s[2][c], s[3][c]];
                let a = q;
                let d = u ^ a;
                s[0][c] = a;
                s[1][c] = t ^ d;
                s[2][c] = d;
                s[3][c] = p ^ a ^ d;
            }
            for r in 0..4 {
                s[r].rotate_left(r);
                for c in 0..4 {
                    s[r][c] = table[usize::from(s[r][c] ^ sum[r][c])];
                }
            }
        }
        block(&s)
    }
}
