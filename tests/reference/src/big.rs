//! Whole numbers of up to 512 bits, for the roots of demand 3 and the squares of #104. A result that doesn't fit stops the run.

use std::cmp::Ordering;
use std::ops::{Add, Mul, Sub};

const WORDS: usize = 8;

/// Words of 64 bits, the lowest first.
#[derive(Clone, Copy, Debug, PartialEq, Eq)]
pub(crate) struct Big([u64; WORDS]);

impl From<u128> for Big {
    fn from(n: u128) -> Big {
        let mut words = [0; WORDS];
        words[0] = n as u64;
        words[1] = (n >> 64) as u64;
        Big(words)
    }
}

impl Add for Big {
    type Output = Big;
    fn add(self, other: Big) -> Big {
        let mut words = [0; WORDS];
        let mut carry = 0;
        for w in 0..WORDS {
            let sum = u128::from(self.0[w]) + u128::from(other.0[w]) + carry;
            words[w] = sum as u64;
            carry = sum >> 64;
        }
        assert_eq!(carry, 0, "sum above 512 bits");
        Big(words)
    }
}

impl Sub for Big {
    type Output = Big;
    fn sub(self, other: Big) -> Big {
        let mut words = [0; WORDS];
        let mut borrow = 0;
        for w in 0..WORDS {
            let taken = u128::from(other.0[w]) + borrow;
            let from = u128::from(self.0[w]);
            borrow = u128::from(from < taken);
            words[w] = (from + (borrow << 64) - taken) as u64;
        }
        assert_eq!(borrow, 0, "difference below 0");
        Big(words)
    }
}

impl Mul for Big {
    type Output = Big;
    fn mul(self, other: Big) -> Big {
        let mut words = [0; 2 * WORDS];
        for v in 0..WORDS {
            let mut carry = 0;
            for w in 0..WORDS {
                let sum = u128::from(self.0[v]) * u128::from(other.0[w]) + u128::from(words[v + w]) + carry;
                words[v + w] = sum as u64;
                carry = sum >> 64;
            }
            words[v + WORDS] = carry as u64;
        }
        assert!(words[WORDS..].iter().all(|&word| word == 0), "product above 512 bits");
        Big(words[..WORDS].try_into().unwrap())
    }
}

impl Ord for Big {
    fn cmp(&self, other: &Big) -> Ordering {
        self.0.iter().rev().cmp(other.0.iter().rev())
    }
}

impl PartialOrd for Big {
    fn partial_cmp(&self, other: &Big) -> Option<Ordering> {
        Some(self.cmp(other))
    }
}

impl Big {
    /// The quotient rounded down and the quotient rounded up.
    pub fn quotients(self, divisor: u64) -> (Big, Big) {
        let mut words = [0; WORDS];
        let mut rest = 0;
        for w in (0..WORDS).rev() {
            let upper = (rest << 64) + u128::from(self.0[w]);
            words[w] = (upper / u128::from(divisor)) as u64;
            rest = upper % u128::from(divisor);
        }
        (Big(words), if rest == 0 { Big(words) } else { Big(words) + Big::from(1) })
    }

    /// The root rounded down and the root rounded up; they are equal when the number is a whole square.
    pub fn roots(self) -> (Big, Big) {
        let mut root = Big([0; WORDS]);
        for bit in (0..64 * WORDS / 2).rev() {
            let mut larger = root;
            larger.0[bit / 64] |= 1 << (bit % 64);
            if larger * larger <= self {
                root = larger;
            }
        }
        (root, if root * root == self { root } else { root + Big::from(1) })
    }
}

#[cfg(test)]
mod tests {
    use super::*;

    #[test]
    fn small_numbers_agree_with_u128() {
        let values =
            [0, 1, 2, 9, 10, u128::from(u64::MAX) - 1, u128::from(u64::MAX), 1 << 64, 123_456_789_012_345_678_901];
        for x in values {
            for y in values {
                assert_eq!(Big::from(x) + Big::from(y), Big::from(x + y));
                assert_eq!(Big::from(x) < Big::from(y), x < y);
                if x >= y {
                    assert_eq!(Big::from(x) - Big::from(y), Big::from(x - y));
                }
                if let Some(product) = x.checked_mul(y) {
                    assert_eq!(Big::from(x) * Big::from(y), Big::from(product));
                }
            }
            assert_eq!(Big::from(x).quotients(7), (Big::from(x / 7), Big::from(x.div_ceil(7))));
        }
    }

    #[test]
    fn roots_of_long_numbers() {
        let long = Big::from(u128::MAX) * Big::from(1 << 100) + Big::from(12_345);
        assert_eq!((long * long).roots(), (long, long));
        assert_eq!((long * long + Big::from(1)).roots(), (long, long + Big::from(1)));
        assert_eq!((long * long - Big::from(1)).roots(), (long - Big::from(1), long));
        assert_eq!((long * Big::from(1_000) + Big::from(1)).quotients(1_000), (long, long + Big::from(1)));
        assert_eq!(Big::from(0).roots(), (Big::from(0), Big::from(0)));
    }
}
