//! No. 8 of paper 02, real-time payment, written out from the paper alone. The sum over the pieces is an exact fraction, and is
//! rounded once.

use crate::model::{Fraction, Int};

/// Prices in pence per MW and hour, K and F in thousandths, pieces of quantity in kW and duration in seconds. None is below 0.
#[derive(Clone, Debug)]
pub struct Payment {
    pub price: Int,
    pub adjustment: Int,
    pub k: Int,
    pub f: Int,
    pub pieces: Vec<(Int, Int)>,
}

/// Thousandths as a fraction.
fn thousandths(n: Int) -> Fraction {
    Fraction::new(n, 1_000)
}

/// A price times quantity and time.
fn earned(price: Int, (quantity, duration): (Int, Int)) -> Fraction {
    let megawatts = Fraction::new(quantity, 1_000);
    let hours = Fraction::new(duration, 3_600);
    Fraction::whole(price).of(megawatts).of(hours)
}

/// "Rounded once to whole pence, a half upward."
fn rounded(exact: Fraction) -> Int {
    exact.plus(Fraction::new(1, 2)).rounded_down()
}

impl Payment {
    /// "Any figure or count over its limit, in the order price, adjustment price, K, F, pieces": which of the five is the first.
    pub fn over(&self) -> Option<usize> {
        let quantities = self.pieces.iter().all(|&(q, _)| q <= 1_000_000);
        let together: Int = self.pieces.iter().map(|&(_, d)| d).sum();
        let within = [
            self.price <= 10_000,
            self.adjustment <= 10_000,
            self.k <= 1_000,
            self.f <= 1_000,
            self.pieces.len() <= 64 && quantities && together <= 1_800,
        ];
        within.iter().position(|within| !within)
    }

    /// What the pieces earn, before anything goes from it.
    fn gross_exactly(&self) -> Fraction {
        let each = self.pieces.iter().map(|&piece| earned(self.price, piece));
        each.fold(Fraction::whole(0), |sum, x| sum.plus(x).reduced())
    }

    /// "A piece earns price times quantity and time. From that goes the greater of the two prices times the same, times the part by
    /// which K times F falls short of 1."
    pub fn exactly(&self) -> Fraction {
        let short = Fraction::whole(1).minus(thousandths(self.k).of(thousandths(self.f)));
        let greater = self.price.max(self.adjustment);
        let mut sum = Fraction::whole(0);
        for &piece in &self.pieces {
            let lost = earned(greater, piece).of(short);
            let pays = earned(self.price, piece).minus(lost).reduced();
            sum = sum.plus(pays).reduced();
        }
        sum
    }

    pub fn amount(&self) -> Int {
        rounded(self.exactly())
    }

    /// "Price times quantity and time, rounded alike."
    pub fn gross(&self) -> Int {
        rounded(self.gross_exactly())
    }

    /// The pieces as a C host lends them: two little-endian u32 each.
    pub fn bytes(&self) -> Vec<u8> {
        let numbers = self.pieces.iter().flat_map(|&(q, d)| [q, d]);
        numbers.flat_map(|n| (n as u32).to_le_bytes()).collect()
    }

    /// The same with the pieces that the bytes hold; none where they are not whole pieces.
    pub fn with_bytes(&self, bytes: &[u8]) -> Option<Payment> {
        let (pieces, rest) = bytes.as_chunks::<8>();
        let piece = |b: &[u8; 8]| {
            let number = |at: usize| u32::from_le_bytes([b[at], b[at + 1], b[at + 2], b[at + 3]]);
            (Int::from(number(0)), Int::from(number(4)))
        };
        rest.is_empty().then(|| Payment {
            pieces: pieces.iter().map(piece).collect(),
            ..self.clone()
        })
    }

    /// 13 where the bytes are not whole pieces, then 20.
    pub fn soe_payment(&self, bytes: &[u8]) -> Result<Int, i64> {
        let payment = self.with_bytes(bytes).ok_or(13)?;
        match payment.over() {
            Some(_) => Err(20),
            None => Ok(payment.amount()),
        }
    }
}
