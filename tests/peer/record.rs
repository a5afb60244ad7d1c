//! The two kinds of records, from docs/FORMATS.md: the numbers of a record are kept as they were given, and every range
//! stands in a table.

/// What the store asks of a kind.
pub trait Kind: Sized {
    const LABEL: [u8; 4];
    const WIDTH: usize;
    fn write(&self) -> Vec<u8>;
    /// The record that the bytes are, or the lowest wrong field.
    fn read(bytes: &[u8]) -> Result<Self, u32>;
}

/// The lowest number that is out of its range, counted from 1.
fn lowest_outside(numbers: &[i64], ranges: &[(i64, i64)]) -> Option<u32> {
    let at = numbers.iter().zip(ranges).position(|(n, (low, high))| n < low || n > high)?;
    Some(1 + at as u32)
}

/// Each pair of bytes as a number, the high byte first.
fn pairs(bytes: &[u8]) -> impl Iterator<Item = u16> + '_ {
    bytes.chunks_exact(2).map(|c| u16::from(c[0]) << 8 | u16::from(c[1]))
}

/// The number modulo 2^16 in two bytes, the high byte first.
fn two_bytes(n: i64) -> [u8; 2] {
    let n = if cfg!(fault = "twos") && n < 0 { n + 65535 } else { n.rem_euclid(65536) };
    [(n / 256) as u8, (n % 256) as u8]
}

/// A refusal by number 8, for a record that is made and not read.
fn refused(field: u32) -> Vec<u32> {
    vec![8, field]
}

/// The commissioning sheet.
pub struct Sheet([i64; 7]);

impl Sheet {
    fn of(numbers: [i64; 7]) -> Result<Sheet, u32> {
        let sensor = (1, 9999);
        let reading = (0, 1000);
        let outside = lowest_outside(&numbers, &[sensor, sensor, reading, reading, reading, reading, reading]);
        let equal = (numbers[0] == numbers[1]).then_some(2);
        match [outside, equal].into_iter().flatten().min() {
            Some(field) => Err(field),
            None => Ok(Sheet(numbers)),
        }
    }

    pub fn make(numbers: [i64; 7]) -> Result<Sheet, Vec<u32>> {
        Sheet::of(numbers).map_err(refused)
    }

    pub fn numbers(&self) -> [i64; 7] {
        self.0
    }
}

impl Kind for Sheet {
    const LABEL: [u8; 4] = *b"COMM";
    const WIDTH: usize = 14;

    fn write(&self) -> Vec<u8> {
        self.0.iter().flat_map(|n| two_bytes(*n)).collect()
    }

    fn read(bytes: &[u8]) -> Result<Sheet, u32> {
        let mut numbers = [0; 7];
        for (n, pair) in numbers.iter_mut().zip(pairs(bytes)) {
            *n = i64::from(pair);
        }
        Sheet::of(numbers)
    }
}

/// The parameter set: slope, shift, flow maximum, hot water target, mode.
pub struct Parameters([i64; 5]);

impl Parameters {
    fn of(numbers: [i64; 5]) -> Result<Parameters, u32> {
        let flow_maximum = numbers[2];
        match lowest_outside(&numbers, &[(10, 350), (-100, 100), (200, 650), (300, flow_maximum), (0, 3)]) {
            Some(field) => Err(field),
            None => Ok(Parameters(numbers)),
        }
    }

    pub fn make(numbers: [i64; 5]) -> Result<Parameters, Vec<u32>> {
        Parameters::of(numbers).map_err(refused)
    }

    pub fn numbers(&self) -> [i64; 5] {
        self.0
    }
}

impl Kind for Parameters {
    const LABEL: [u8; 4] = *b"PARA";
    const WIDTH: usize = 9;

    fn write(&self) -> Vec<u8> {
        let mut out: Vec<u8> = self.0[..4].iter().flat_map(|n| two_bytes(*n)).collect();
        out.push(self.0[4] as u8);
        out
    }

    fn read(bytes: &[u8]) -> Result<Parameters, u32> {
        let mut numbers = [0; 5];
        for (n, pair) in numbers.iter_mut().zip(pairs(&bytes[..8])) {
            *n = i64::from(pair);
        }
        if numbers[1] >= 32768 {
            numbers[1] -= 65536;
        }
        numbers[4] = i64::from(bytes[8]);
        Parameters::of(numbers)
    }
}
