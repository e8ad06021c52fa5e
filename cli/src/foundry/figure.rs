//! Areas and delays as exact decimals: nothing is rounded.

/// A figure of digits with or without a point: its value is `digits` over ten to the power of `places`.
#[derive(Clone, Copy, Debug, PartialEq, Eq)]
pub struct Figure {
    pub digits: u128,
    pub places: u32,
}

/// More digits than any figure that is used, and few enough for exact numbers.
const MOST_DIGITS: usize = 30;

/// The whole and the broken part of a figure in form.
pub fn parts(word: &[u8]) -> Option<(&[u8], &[u8])> {
    let point = word.iter().position(|&byte| byte == b'.');
    let (whole, broken) = point.map_or((word, &b""[..]), |k| (&word[..k], &word[k + 1..]));
    let digits = whole.iter().chain(broken).all(u8::is_ascii_digit);
    (digits && whole.len() + broken.len() > 0).then_some((whole, broken))
}

/// The same figure as the proved reader takes it: a digit on either side of a point, and no zeros behind the third decimal.
pub fn written(word: &[u8]) -> Vec<u8> {
    let Some((whole, broken)) = parts(word) else { return word.to_vec() };
    let zeros = broken.iter().rev().take_while(|&&byte| byte == b'0').count();
    let kept = &broken[..broken.len().min((broken.len() - zeros).max(3))];
    let mut figure = if whole.is_empty() { b"0".to_vec() } else { whole.to_vec() };
    if !kept.is_empty() {
        figure.push(b'.');
        figure.extend_from_slice(kept);
    }
    figure
}

/// The value, where it has no more digits than can be counted with.
pub fn value(word: &[u8]) -> Option<Figure> {
    let (whole, broken) = parts(word)?;
    let zeros = broken.iter().rev().take_while(|&&byte| byte == b'0').count();
    let broken = &broken[..broken.len() - zeros];
    let start = whole.iter().take_while(|&&byte| byte == b'0').count();
    if whole.len() - start + broken.len() > MOST_DIGITS {
        return None;
    }
    let digits = whole.iter().chain(broken).fold(0, |sum: u128, byte| sum * 10 + u128::from(byte - b'0'));
    Some(Figure { digits, places: broken.len() as u32 })
}

impl Figure {
    /// The digits where so many places stand behind the point; there are no fewer than the figure has.
    fn at(self, places: u32) -> Option<u128> {
        self.digits.checked_mul(10u128.checked_pow(places - self.places)?)
    }

    pub fn larger(self, other: Figure) -> Option<Figure> {
        let places = self.places.max(other.places);
        let (one, two) = (self.at(places)?, other.at(places)?);
        Some(if one >= two { self } else { other })
    }
}

/// What one of a cell text's figures stands for in the library's own: `digits` over ten to the power of `places`.
#[derive(Clone, Copy, Debug, PartialEq, Eq)]
pub struct Unit {
    pub digits: u128,
    pub places: u32,
}

/// The proved reader's own: a thousandth.
pub const THOUSANDTH: Unit = Unit { digits: 1, places: 3 };

impl Unit {
    /// The greatest figure of which each of them is a whole multiple; 1 where all are 0.
    pub fn common(figures: &[Figure]) -> Option<Unit> {
        let places = figures.iter().map(|figure| figure.places).max().unwrap_or(0);
        let mut digits = 0;
        for figure in figures {
            digits = common_divisor(digits, figure.at(places)?);
        }
        Some(if digits == 0 { Unit { digits: 1, places: 0 } } else { Unit { digits, places } })
    }

    /// How many times it goes into a figure of which it is a common measure.
    pub fn count(self, figure: Figure) -> Option<u128> {
        Some(
            figure.at(self.places.max(figure.places))?
                / Figure { digits: self.digits, places: self.places }.at(self.places.max(figure.places))?,
        )
    }

    /// So many of it, in the library's own figures: 12 of a thousandth are `0.012`.
    pub fn times(self, n: u64) -> String {
        let digits = self.digits.saturating_mul(u128::from(n));
        let Some(one) = 10u128.checked_pow(self.places) else { return String::from("0") };
        let broken = format!("{:0places$}", digits % one, places = self.places as usize);
        match broken.trim_end_matches('0') {
            "" => (digits / one).to_string(),
            broken => format!("{}.{broken}", digits / one),
        }
    }
}

fn common_divisor(mut one: u128, mut other: u128) -> u128 {
    while other != 0 {
        (one, other) = (other, one % other);
    }
    one
}

#[cfg(test)]
mod tests {
    use super::*;

    #[test]
    fn a_figure_keeps_its_value() {
        let cases: [(&[u8], &[u8]); 8] = [
            (b"12", b"12"),
            (b".5", b"0.5"),
            (b"1.", b"1"),
            (b"0.4200", b"0.420"),
            (b"0.4213", b"0.4213"),
            (b"1.50", b"1.50"),
            (b"007", b"007"),
            (b"0.00000", b"0.000"),
        ];
        for (given, due) in cases {
            assert_eq!(written(given), due);
            assert_eq!(value(given), value(due));
        }
        for bad in [&b""[..], b".", b"1e3", b"-1", b"1.2.3", b"x"] {
            assert_eq!(parts(bad), None);
        }
    }

    #[test]
    fn figures_are_multiples_of_their_measure() {
        let figures: Vec<Figure> = [&b"0.9"[..], b"1.20", b"3"].iter().filter_map(|word| value(word)).collect();
        let unit = Unit::common(&figures).expect("small figures");
        assert_eq!(unit, Unit { digits: 3, places: 1 });
        assert_eq!(figures.iter().filter_map(|&figure| unit.count(figure)).collect::<Vec<_>>(), [3, 4, 10]);
        assert_eq!(unit.times(3), "0.9");
        assert_eq!(unit.times(10), "3");
        assert_eq!(THOUSANDTH.times(12), "0.012");
        assert_eq!(THOUSANDTH.times(0), "0");
        assert_eq!(Unit::common(&[]), Some(Unit { digits: 1, places: 0 }));
    }
}
