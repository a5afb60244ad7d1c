//! The mode, from docs/MODE.md: blocks are arrays of 16 bytes, and every sum is taken with its power of alpha written
//! out, so that nothing here has the shape of the proved code.

pub type Block = [u8; 16];

/// What the mode asks of a cipher.
pub trait Cipher {
    fn encrypt(&self, head: &Block, body: &Block, block: &Block) -> Block;
    fn decrypt(&self, head: &Block, body: &Block, block: &Block) -> Block;
}

/// Adds the body to the block.
pub struct Bench;

impl Cipher for Bench {
    fn encrypt(&self, _: &Block, body: &Block, block: &Block) -> Block {
        xor(body, block)
    }
    fn decrypt(&self, _: &Block, body: &Block, block: &Block) -> Block {
        xor(body, block)
    }
}

pub fn xor(a: &Block, b: &Block) -> Block {
    std::array::from_fn(|i| a[i] ^ b[i])
}

/// One multiplication by alpha, bit by bit from the last byte to the first.
pub fn alpha(x: &Block) -> Block {
    let mut out = [0; 16];
    let mut carry = 0;
    for i in (0..16).rev() {
        out[i] = (x[i] << 1) | carry;
        carry = x[i] >> 7;
    }
    if carry == 1 {
        out[15] ^= 0x87;
    }
    out
}

/// The sum of alpha^(step * (n - i)) x_i over x_1 .. x_n.
fn weighted(step: usize, xs: &[Block]) -> Block {
    let mut sum = [0; 16];
    for (i, x) in xs.iter().enumerate() {
        let mut term = *x;
        for _ in 0..step * (xs.len() - 1 - i) {
            term = alpha(&term);
        }
        sum = xor(&sum, &term);
    }
    sum
}

fn head(domain: &str, index: usize) -> Block {
    let names = ["t", "s", "c", "b", "xL", "xR", "yL", "yR", "p", "ts", "ss", "cs", "bs"];
    let number = 1 + names.iter().position(|n| *n == domain).expect("a domain of the mode");
    let mut out = [0; 16];
    out[0] = number as u8;
    out[12..].copy_from_slice(&(index as u32).to_be_bytes());
    out
}

fn enc(c: &impl Cipher, domain: &str, index: usize, body: &Block, block: &Block) -> Block {
    c.encrypt(&head(domain, index), body, block)
}

fn dec(c: &impl Cipher, domain: &str, index: usize, body: &Block, block: &Block) -> Block {
    c.decrypt(&head(domain, index), body, block)
}

fn hash(c: &impl Cipher, i: usize, u: &Block, v: &Block) -> (Block, Block) {
    (enc(c, "p", i, v, u), enc(c, "p", i + 1, v, u))
}

/// H(i; halves of the padded tail), or nothing for an empty tail.
fn tail_hash(c: &impl Cipher, i: usize, tail: &[u8]) -> (Block, Block) {
    if tail.is_empty() {
        return ([0; 16], [0; 16]);
    }
    let mut padded = tail.to_vec();
    padded.push(0x80);
    padded.resize(32, 0);
    hash(c, i, padded[..16].try_into().unwrap(), padded[16..].try_into().unwrap())
}

/// A message in parts: left and right blocks, and the tail.
struct Parts {
    left: Vec<Block>,
    right: Vec<Block>,
    tail: Vec<u8>,
}

fn split(message: &[u8]) -> Parts {
    let full = message.len() / 32;
    let block = |at: usize| -> Block { message[at..at + 16].try_into().unwrap() };
    Parts {
        left: (0..full).map(|i| block(32 * i)).collect(),
        right: (0..full).map(|i| block(32 * i + 16)).collect(),
        tail: message[32 * full..].to_vec(),
    }
}

fn join(p: &Parts) -> Vec<u8> {
    let mut out = Vec::new();
    for (l, r) in p.left.iter().zip(&p.right) {
        out.extend_from_slice(l);
        out.extend_from_slice(r);
    }
    out.extend_from_slice(&p.tail);
    out
}

/// S_0 .. S_z.
fn chain(c: &impl Cipher, s: Block, z: usize) -> Vec<Block> {
    let mut all = vec![s];
    for j in 1..=z {
        let j = if cfg!(fault = "chain") { 1 } else { j };
        all.push(enc(c, "s", 0, &(j as u128).to_be_bytes(), &all[j - 1]));
    }
    all
}

fn x_sums(c: &impl Cipher, l: usize, x: &[Block], r: &[Block]) -> (Block, Block) {
    let both: Vec<Block> = x.iter().zip(r).map(|(a, b)| xor(a, b)).collect();
    let (left, right) = (weighted(1, x), weighted(2, &both));
    (enc(c, "xL", l, &right, &left), enc(c, "xR", l, &left, &right))
}

fn y_sums(c: &impl Cipher, l: usize, y: &[Block], new_left: &[Block]) -> (Block, Block) {
    let both: Vec<Block> = y.iter().zip(new_left).map(|(a, b)| xor(a, b)).collect();
    let (left, right) = (weighted(if cfg!(fault = "alpha") { 1 } else { 2 }, &both), weighted(1, y));
    (enc(c, "yL", l, &right, &left), enc(c, "yR", l, &left, &right))
}

pub fn admitted(n: usize) -> bool {
    (32..=65536).contains(&n)
}

/// None where the length is not admitted.
pub fn encipher(c: &impl Cipher, message: &[u8]) -> Option<Vec<u8>> {
    if !admitted(message.len()) {
        return None;
    }
    let p = split(message);
    let l = p.left.len();
    // Step 1.
    let h = tail_hash(c, 0, &p.tail);
    let (last_l, last_r) = (xor(&p.left[l - 1], &h.0), xor(&p.right[l - 1], &h.1));
    // Step 2.
    let x: Vec<Block> = (1..l).map(|i| enc(c, "t", i, &p.right[i - 1], &p.left[i - 1])).collect();
    let (xl, xr) = x_sums(c, l, &x, &p.right[..l - 1]);
    // Step 3.
    let mixed = xor(&last_r, &xr);
    let s = enc(c, "ts", l, &mixed, &xor(&last_l, &xl));
    let t = enc(c, "ss", l, &s, &mixed);
    // Steps 4 and 5.
    let links = chain(c, s, (l - 1).div_ceil(128));
    let (mut left, mut right, mut y) = (Vec::new(), Vec::new(), Vec::new());
    for k in 1..l {
        let sj = links[k.div_ceil(128)];
        let z = enc(c, "c", k, &t, &sj);
        left.push(xor(&x[k - 1], &z));
        y.push(xor(&xor(&p.right[k - 1], &z), &sj));
        right.push(enc(c, "b", k, &left[k - 1], &y[k - 1]));
    }
    let (yl, yr) = y_sums(c, l, &y, &left);
    // Step 6.
    let cl = enc(c, "cs", l, &t, &s);
    let cr = enc(c, "bs", l, &cl, &t);
    let (new_l, new_r) = (xor(&cl, &yl), xor(&cr, &yr));
    // Step 7.
    let mut tail = p.tail.clone();
    if !tail.is_empty() {
        let m = hash(c, 2, &xor(&last_l, &new_l), &xor(&last_r, &new_r));
        for (b, k) in tail.iter_mut().zip(m.0.iter().chain(&m.1)) {
            *b ^= k;
        }
    }
    let h = tail_hash(c, if cfg!(fault = "hash") { 0 } else { 4 }, &tail);
    left.push(xor(&new_l, &h.0));
    right.push(xor(&new_r, &h.1));
    Some(join(&Parts { left, right, tail }))
}

/// None where the length is not admitted.
pub fn decipher(c: &impl Cipher, message: &[u8]) -> Option<Vec<u8>> {
    if !admitted(message.len()) {
        return None;
    }
    let p = split(message);
    let l = p.left.len();
    // Step 7, its second half.
    let h = tail_hash(c, 4, &p.tail);
    let (new_l, new_r) = (xor(&p.left[l - 1], &h.0), xor(&p.right[l - 1], &h.1));
    // Step 6.
    let y: Vec<Block> = (1..l).map(|k| dec(c, "b", k, &p.left[k - 1], &p.right[k - 1])).collect();
    let (yl, yr) = y_sums(c, l, &y, &p.left[..l - 1]);
    let (cl, cr) = (xor(&new_l, &yl), xor(&new_r, &yr));
    let t = dec(c, "bs", l, &cl, &cr);
    let s = dec(c, "cs", l, &t, &cl);
    // Steps 5 and 4.
    let links = chain(c, s, (l - 1).div_ceil(128));
    let (mut x, mut right) = (Vec::new(), Vec::new());
    for k in 1..l {
        let sj = links[k.div_ceil(128)];
        let z = enc(c, "c", k, &t, &sj);
        x.push(xor(&p.left[k - 1], &z));
        right.push(xor(&xor(&y[k - 1], &z), &sj));
    }
    // Steps 3 and 2.
    let (xl, xr) = x_sums(c, l, &x, &right);
    let mixed = dec(c, "ss", l, &s, &t);
    let last_l = xor(&dec(c, "ts", l, &mixed, &s), &xl);
    let last_r = xor(&mixed, &xr);
    let mut left: Vec<Block> = (1..l).map(|i| dec(c, "t", i, &right[i - 1], &x[i - 1])).collect();
    // Step 7, its first half, and step 1.
    let mut tail = p.tail.clone();
    if !tail.is_empty() {
        let m = hash(c, 2, &xor(&last_l, &new_l), &xor(&last_r, &new_r));
        for (b, k) in tail.iter_mut().zip(m.0.iter().chain(&m.1)) {
            *b ^= k;
        }
    }
    let h = tail_hash(c, 0, &tail);
    left.push(xor(&last_l, &h.0));
    right.push(xor(&last_r, &h.1));
    Some(join(&Parts { left, right, tail }))
}
