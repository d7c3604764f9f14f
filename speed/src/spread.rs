//! The middle of many numbers, and how far they lie apart.

/// The quartiles: a quarter of the numbers is below `low`, half below `median`, a quarter above
/// `high`.
#[derive(Clone, Copy, Debug, PartialEq)]
pub struct Spread {
    pub low: f64,
    pub median: f64,
    pub high: f64,
}

impl Spread {
    /// Of numbers of which there is at least one.
    pub fn of(mut numbers: Vec<f64>) -> Self {
        numbers.sort_by(f64::total_cmp);
        let at = |part| quantile(&numbers, part);
        Spread {
            low: at(0.25),
            median: at(0.5),
            high: at(0.75),
        }
    }
}

/// The number that stands so far in sorted numbers; between two of them, a part of each.
fn quantile(sorted: &[f64], part: f64) -> f64 {
    let place = (sorted.len() - 1) as f64 * part;
    let (before, after) = (place.floor(), place.ceil());
    let more = place - before;
    sorted[before as usize] * (1.0 - more) + sorted[after as usize] * more
}

#[cfg(test)]
mod tests {
    use super::*;

    fn of(numbers: &[f64]) -> [f64; 3] {
        let spread = Spread::of(numbers.to_vec());
        [spread.low, spread.median, spread.high]
    }

    #[test]
    fn odd_and_even_counts() {
        assert_eq!(of(&[7.0]), [7.0, 7.0, 7.0]);
        assert_eq!(of(&[4.0, 2.0]), [2.5, 3.0, 3.5]);
        assert_eq!(of(&[9.0, 1.0, 2.0]), [1.5, 2.0, 5.5]);
        assert_eq!(of(&[4.0, 1.0, 100.0, 2.0]), [1.75, 3.0, 28.0]);
        assert_eq!(of(&[5.0, 1.0, 3.0, 2.0, 4.0]), [2.0, 3.0, 4.0]);
    }
}
