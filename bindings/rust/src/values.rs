//! Values that fields have, which lend octets of the input.

use std::fmt;

/// An OBJECT IDENTIFIER. Its text is as `2.16.840.1.101.3.4.2.1`; or `hex:` and its contents if a subidentifier is 2^64 or more.
#[derive(Clone, Copy, PartialEq, Eq, Hash)]
pub struct Oid<'a>(&'a [u8]);

impl<'a> Oid<'a> {
    pub(crate) fn new(contents: &'a [u8]) -> Self {
        Oid(contents)
    }

    /// Returns its contents octets (X.690, section 8.19).
    #[must_use]
    pub fn contents(&self) -> &'a [u8] {
        self.0
    }

    /// Whether each subidentifier is less than 2^64.
    fn is_short(&self) -> bool {
        self.0.split_inclusive(|it| *it < 0x80).all(|it| it.len() < 10 || it.len() == 10 && it[0] == 0x81)
    }
}

impl fmt::Display for Oid<'_> {
    fn fmt(&self, to: &mut fmt::Formatter<'_>) -> fmt::Result {
        if !self.is_short() {
            to.write_str("hex:")?;
            return self.0.iter().try_for_each(|it| write!(to, "{it:02x}"));
        }
        for (index, octets) in self.0.split_inclusive(|it| *it < 0x80).enumerate() {
            let number = octets.iter().fold(0u64, |number, it| number << 7 | u64::from(it & 0x7f));
            match index {
                0 => write!(to, "{}.{}", (number / 40).min(2), number - 40 * (number / 40).min(2))?,
                _ => write!(to, ".{number}")?,
            }
        }
        Ok(())
    }
}

impl fmt::Debug for Oid<'_> {
    fn fmt(&self, to: &mut fmt::Formatter<'_>) -> fmt::Result {
        fmt::Display::fmt(self, to)
    }
}

/// An INTEGER of any length. Its text is decimal; or `hex:` and its contents if it does not fit into an `i128`.
#[derive(Clone, Copy, PartialEq, Eq, Hash)]
pub struct Integer<'a>(&'a [u8]);

impl<'a> Integer<'a> {
    pub(crate) fn new(contents: &'a [u8]) -> Self {
        Integer(contents)
    }

    /// Returns its contents octets: two's complement, the most significant octet first, and no octet more than needed (X.690,
    /// section 8.3).
    #[must_use]
    pub fn contents(&self) -> &'a [u8] {
        self.0
    }

    /// Returns the number, if it fits.
    #[must_use]
    pub fn to_i128(&self) -> Option<i128> {
        let first = *self.0.first()?;
        let sign = if first < 0x80 { 0 } else { -1 };
        (self.0.len() <= 16).then(|| self.0.iter().fold(sign, |number, it| number << 8 | i128::from(*it)))
    }

    /// Returns the number, if it fits.
    #[must_use]
    pub fn to_u64(&self) -> Option<u64> {
        self.to_i128().and_then(|it| it.try_into().ok())
    }
}

impl fmt::Display for Integer<'_> {
    fn fmt(&self, to: &mut fmt::Formatter<'_>) -> fmt::Result {
        match self.to_i128() {
            Some(number) => fmt::Display::fmt(&number, to),
            None => {
                to.write_str("hex:")?;
                self.0.iter().try_for_each(|it| write!(to, "{it:02x}"))
            }
        }
    }
}

impl fmt::Debug for Integer<'_> {
    fn fmt(&self, to: &mut fmt::Formatter<'_>) -> fmt::Result {
        fmt::Display::fmt(self, to)
    }
}

/// A BIT STRING with named bits (X.680, section 22).
#[derive(Clone, Copy, Debug, PartialEq, Eq)]
pub struct NamedBits<'a>(&'a [u8]);

impl<'a> NamedBits<'a> {
    pub(crate) fn new(contents: &'a [u8]) -> Self {
        NamedBits(contents)
    }

    /// Returns its contents octets, as they were received: how many bits of the last octet are not used, and the octets of the
    /// bits. Octets that differ may stand for the same bits.
    #[must_use]
    pub fn contents(&self) -> &'a [u8] {
        self.0
    }

    /// Returns whether the bit with this number is set, from 0 for the first one. A bit past the end is not set.
    #[must_use]
    pub fn is_set(&self, number: usize) -> bool {
        let Some((unused, octets)) = self.0.split_first() else {
            return false;
        };
        let bits = (8 * octets.len()).saturating_sub(usize::from(*unused));
        number < bits && octets[number / 8] & 0x80 >> (number % 8) != 0
    }
}

/// A GeneralizedTime in DER (X.690, section 11.7): a time in UTC, in a year from 0000 to 9999, with a fraction of any length. Its
/// text is as `20240229235959.125Z`.
#[derive(Clone, Copy, PartialEq, Eq, Hash)]
pub struct GeneralizedTime<'a>(&'a str);

impl<'a> GeneralizedTime<'a> {
    pub(crate) fn new(contents: &'a [u8]) -> Self {
        GeneralizedTime(std::str::from_utf8(contents).expect("a GeneralizedTime has digits, a full stop and Z"))
    }

    /// Returns the text.
    #[must_use]
    pub fn as_str(&self) -> &'a str {
        self.0
    }

    /// Returns the digits of the fraction of a second; none if there is no fraction.
    #[must_use]
    pub fn fraction(&self) -> &'a str {
        self.0[14..].trim_matches(['.', 'Z'])
    }

    /// Returns the seconds since 1970-01-01 00:00:00 UTC, without the fraction.
    #[must_use]
    pub fn unix_seconds(&self) -> i64 {
        let number = |begin: usize, end: usize| self.0[begin..end].bytes().fold(0, |number, it| number * 10 + i64::from(it & 0x0f));
        let days = days_before(number(0, 4), number(4, 6)) + number(6, 8) - 1;
        86_400 * days + 3_600 * number(8, 10) + 60 * number(10, 12) + number(12, 14)
    }
}

impl fmt::Display for GeneralizedTime<'_> {
    fn fmt(&self, to: &mut fmt::Formatter<'_>) -> fmt::Result {
        to.write_str(self.0)
    }
}

impl fmt::Debug for GeneralizedTime<'_> {
    fn fmt(&self, to: &mut fmt::Formatter<'_>) -> fmt::Result {
        to.write_str(self.0)
    }
}

/// Whether digits as `20240229235959` are a date, but for the year 0000, and a time of day without leap seconds.
pub(crate) fn is_date(digits: &str) -> bool {
    if digits.len() != 14 || !digits.bytes().all(|it| it.is_ascii_digit()) {
        return false;
    }
    let number = |begin: usize, end: usize| digits[begin..end].parse::<i64>().unwrap_or(-1);
    let (year, month, day) = (number(0, 4), number(4, 6), number(6, 8));
    let is_month = (1..=12).contains(&month);
    let (next_year, next_month) = if month == 12 { (year + 1, 1) } else { (year, month + 1) };
    let is_day = is_month && 1 <= day && day <= days_before(next_year, next_month) - days_before(year, month);
    year > 0 && is_day && number(8, 10) < 24 && number(10, 12) < 60 && number(12, 14) < 60
}

/// The days from 1970-01-01 to the first day of a month, in the Gregorian calendar.
fn days_before(year: i64, month: i64) -> i64 {
    const BEFORE_1970: i64 = 719_528; // days from 0000-01-01
    const BEFORE_MONTH: [i64; 12] = [0, 31, 59, 90, 120, 151, 181, 212, 243, 273, 304, 334];
    let is_leap = year % 4 == 0 && (year % 100 != 0 || year % 400 == 0);
    let leap_days = (year + 3).div_euclid(4) - (year + 99).div_euclid(100) + (year + 399).div_euclid(400);
    let leap_day = i64::from(is_leap && month > 2);
    365 * year + leap_days + BEFORE_MONTH[month as usize - 1] + leap_day - BEFORE_1970
}

#[cfg(test)]
mod tests {
    use super::*;

    #[test]
    fn object_identifiers() {
        let texts: [(&[u8], &str); 7] = [
            (&[0x2a, 0x03, 0x04], "1.2.3.4"),
            (&[0x27], "0.39"),
            (&[0x28], "1.0"),
            (&[0x4f], "1.39"),
            (&[0x50, 0x81, 0x00], "2.0.128"),
            (&[0x81, 0xff, 0xff, 0xff, 0xff, 0xff, 0xff, 0xff, 0xff, 0x7f], "2.18446744073709551535"),
            (&[0x82, 0x80, 0x80, 0x80, 0x80, 0x80, 0x80, 0x80, 0x80, 0x00], "hex:82808080808080808000"),
        ];
        for (contents, text) in texts {
            assert_eq!(Oid::new(contents).to_string(), text);
        }
    }

    #[test]
    fn integers() {
        let assert_is = |contents: &[u8], wide: Option<i128>, number: Option<u64>, text: &str| {
            let it = Integer::new(contents);
            assert_eq!((it.to_i128(), it.to_u64(), it.to_string().as_str()), (wide, number, text));
        };
        assert_is(&[0x00], Some(0), Some(0), "0");
        assert_is(&[0x7f], Some(127), Some(127), "127");
        assert_is(&[0xff, 0x7f], Some(-129), None, "-129");
        assert_is(&[&[0x00][..], &[0xff; 8]].concat(), Some((1 << 64) - 1), Some(u64::MAX), "18446744073709551615");
        assert_is(&[&[0x01][..], &[0x00; 8]].concat(), Some(1 << 64), None, "18446744073709551616");
        assert_is(&[&[0x80][..], &[0x00; 15]].concat(), Some(i128::MIN), None, "-170141183460469231731687303715884105728");
        assert_is(&[&[0x00, 0x80][..], &[0x00; 15]].concat(), None, None, "hex:0080000000000000000000000000000000");
    }

    #[test]
    fn named_bits() {
        let set = |contents: &[u8]| (0..40).filter(|it| NamedBits::new(contents).is_set(*it)).collect::<Vec<_>>();
        assert_eq!(set(&[0x00]), []);
        assert_eq!(set(&[0x02, 0x80]), [0]);
        assert_eq!(set(&[0x02, 0x07]), [5]); // the bits that are not used count for nothing
        assert_eq!(set(&[0x06, 0x00, 0x00, 0x00, 0xc0]), [24, 25]);
    }

    #[test]
    fn times() {
        let times = [
            ("19700101000000Z", 0, ""),
            ("00000101000000Z", -62_167_219_200, ""),
            ("00000301000000.5Z", -62_162_035_200, "5"),
            ("20000229235959.1234567890123Z", 951_868_799, "1234567890123"),
            ("16000229000000Z", -11_670_998_400, ""),
            ("19000301000000Z", -2_203_891_200, ""),
            ("20000301000000Z", 951_868_800, ""),
            ("20240301000000Z", 1_709_251_200, ""),
            ("20241231235959Z", 1_735_689_599, ""),
            ("21000301000000Z", 4_107_542_400, ""),
            ("99991231235959Z", 253_402_300_799, ""),
        ];
        for (text, seconds, fraction) in times {
            let time = GeneralizedTime::new(text.as_bytes());
            assert_eq!((time.unix_seconds(), time.fraction()), (seconds, fraction), "{text}");
        }
    }
}
