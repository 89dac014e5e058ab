//! Stand-in for `num_bigint`: the value of an integer literal. Every literal has type ℤ, whatever its value.

#[derive(Debug, Clone, PartialEq, Eq, Hash)]
pub struct BigInt(i64);

impl From<i64> for BigInt {
    fn from(value: i64) -> BigInt {
        BigInt(value)
    }
}
