//! The text form: one record a line, fields parted by tabs.

/// The longest text, in bytes.
const LONGEST_TEXT: usize = 65_535;

/// The most arguments that a record carries.
const MOST_PAIRS: u32 = 4;

/// A record of one of the three texts: made from its letter and its numbers, or not at all where the line breaks the form.
pub trait Record: Sized {
    fn read(letter: u8, numbers: &mut Numbers) -> Option<Self>;
}

/// The pairs of argument number and value that a record carries, argument numbers rising.
pub type Pairs = Vec<(u32, u32)>;

/// The records of a text, one for each line; or the first line that breaks the form, 0 for a text that is too long.
pub fn read_text<R: Record>(text: &[u8]) -> Result<Vec<R>, u32> {
    if text.len() > LONGEST_TEXT {
        return Err(0);
    }
    let mut records = Vec::new();
    let mut rest = text;
    while !rest.is_empty() {
        let line = records.len() as u32 + 1;
        let end = rest.iter().position(|byte| *byte == b'\n').ok_or(line)?;
        records.push(read_line(&rest[..end]).ok_or(line)?);
        rest = &rest[end + 1..];
    }
    Ok(records)
}

fn read_line<R: Record>(line: &[u8]) -> Option<R> {
    let (first, rest) = match line.iter().position(|byte| *byte == b'\t') {
        Some(tab) => (&line[..tab], Some(&line[tab + 1..])),
        None => (line, None),
    };
    let [letter] = first else { return None };
    let mut numbers = Numbers { rest };
    let record = R::read(*letter, &mut numbers)?;
    numbers.ended().then_some(record)
}

/// The fields of a line behind its letter, taken one by one.
pub struct Numbers<'a> {
    rest: Option<&'a [u8]>,
}

impl Numbers<'_> {
    /// The next field as a number; nothing where it is missing or no number.
    pub fn take(&mut self) -> Option<u32> {
        let rest = self.rest?;
        let end = rest.iter().position(|byte| *byte == b'\t');
        self.rest = end.map(|tab| &rest[tab + 1..]);
        number(&rest[..end.unwrap_or(rest.len())])
    }

    /// The next field as a list mark.
    pub fn take_mark(&mut self) -> Option<bool> {
        match self.take()? {
            0 => Some(false),
            1 => Some(true),
            _ => None,
        }
    }

    /// A count and as many pairs.
    pub fn take_pairs(&mut self) -> Option<Pairs> {
        let count = self.take()?;
        if count > MOST_PAIRS {
            return None;
        }
        let mut pairs = Pairs::new();
        for _ in 0..count {
            pairs.push((self.take()?, self.take()?));
        }
        let rising = pairs.windows(2).all(|two| two[0].0 < two[1].0);
        rising.then_some(pairs)
    }

    /// All fields that are left, as numbers.
    pub fn take_rest(&mut self) -> Option<Vec<u32>> {
        let mut values = Vec::new();
        while !self.ended() {
            values.push(self.take()?);
        }
        Some(values)
    }

    fn ended(&self) -> bool {
        self.rest.is_none()
    }
}

/// A decimal number of at most nine digits, which is at most 999,999,999, with no needless leading zero.
fn number(digits: &[u8]) -> Option<u32> {
    let needless_zero = digits.len() > 1 && digits[0] == b'0';
    let all_digits = digits.iter().all(u8::is_ascii_digit);
    if digits.is_empty() || digits.len() > 9 || needless_zero || !all_digits {
        return None;
    }
    Some(digits.iter().fold(0, |value, digit| value * 10 + (digit - b'0') as u32))
}

#[cfg(test)]
mod tests {
    use super::{number, read_text, Numbers, Record};

    /// A record `X` with pairs, to try the reader on.
    #[derive(Debug, PartialEq)]
    struct X(super::Pairs);

    impl Record for X {
        fn read(letter: u8, numbers: &mut Numbers) -> Option<X> {
            if letter != b'X' {
                return None;
            }
            numbers.take_pairs().map(X)
        }
    }

    #[test]
    fn numbers_are_plain_decimals() {
        assert_eq!(number(b"0"), Some(0));
        assert_eq!(number(b"999999999"), Some(999_999_999));
        for wrong in ["", "00", "01", "1000000000", "-1", "+1", " 1", "1 ", "1\r", "1a"] {
            assert_eq!(number(wrong.as_bytes()), None, "{wrong:?}");
        }
    }

    #[test]
    fn lines_end_in_a_newline_and_the_first_broken_one_counts() {
        assert_eq!(read_text::<X>(b""), Ok(vec![]));
        assert_eq!(read_text::<X>(b"X\t0\nX\t1\t7\t8\n"), Ok(vec![X(vec![]), X(vec![(7, 8)])]));
        assert_eq!(read_text::<X>(b"X\t0\nX\t0"), Err(2));
        assert_eq!(read_text::<X>(b"X\t0\n\n"), Err(2));
        assert_eq!(read_text::<X>(b"\nX\t0"), Err(1));
        assert_eq!(read_text::<X>(&[b'\n'; 65_536]), Err(0));
        assert_eq!(read_text::<X>(&[b'\n'; 65_535]), Err(1));
    }

    #[test]
    fn a_line_has_one_letter_its_fields_and_no_more() {
        for wrong in ["\t0", "XX\t0", "x\t0", "X", "X\t", "X\t0\t", "X\t0\t1", "X\t1\t7", "X\t5", "X\t2\t7\t0\t7\t0"] {
            assert_eq!(read_text::<X>(format!("{wrong}\n").as_bytes()), Err(1), "{wrong:?}");
        }
    }
}
