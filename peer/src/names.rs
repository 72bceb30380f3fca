//! Bytes, names and dates.

pub const SPACE: u8 = 1;
pub const ALNUM: u8 = 2;
pub const NAME_SIGN: u8 = 3;
pub const MARKUP: u8 = 4;
pub const OTHER: u8 = 5;

/// Longest name and longest long name.
pub const NAME_LEN: usize = 16;
pub const LONG_NAME_LEN: usize = 64;
/// Longest value of an item.
pub const VALUE_LEN: usize = 40;
pub const DATE_LEN: usize = 19;
const DAY_LEN: usize = 10;

/// The class of each byte; 0 is never allowed.
pub static CLASS: [u8; 256] = class_table();

const fn class_table() -> [u8; 256] {
    let mut table = [0; 256];
    let mut byte = 0;
    while byte < 256 {
        table[byte] = class_of(byte as u8);
        byte += 1;
    }
    table
}

const fn class_of(byte: u8) -> u8 {
    match byte {
        9 | 10 | 13 | 32 => SPACE,
        b'A'..=b'Z' | b'a'..=b'z' | b'0'..=b'9' => ALNUM,
        b'.' | b'_' | b'-' | b'/' => NAME_SIGN,
        b'<' | b'>' | b'&' | b'"' | b'\'' => MARKUP,
        33..=126 => OTHER,
        _ => 0,
    }
}

pub fn is_space(byte: u8) -> bool {
    CLASS[byte as usize] == SPACE
}

fn is_name_byte(byte: u8) -> bool {
    matches!(CLASS[byte as usize], ALNUM | NAME_SIGN)
}

/// Every byte of `text` may stand in a name. No early way out: names are short.
fn all_name_bytes(text: &[u8]) -> bool {
    text.iter().fold(true, |good, &byte| good & is_name_byte(byte))
}

pub fn is_long_name(text: &[u8]) -> bool {
    (1..=LONG_NAME_LEN).contains(&text.len()) && all_name_bytes(text)
}

/// Bytes an item's value may hold.
pub fn all_value_bytes(text: &[u8]) -> bool {
    text.iter().fold(true, |good, &byte| good & (byte.wrapping_sub(32) < 95))
}

/// YYYY-MM-DDThh:mm:ss, Gregorian.
pub fn is_date(text: &[u8]) -> bool {
    if text.len() != DATE_LEN {
        return false;
    }
    let (day, time) = text.split_at(DAY_LEN);
    is_day(day)
        && has_shape(time, b"T00:00:00")
        && number(&time[1..3]) <= 23
        && number(&time[4..6]) <= 59
        && number(&time[7..9]) <= 59
}

/// The first ten bytes of a date.
pub fn is_day(text: &[u8]) -> bool {
    if text.len() != DAY_LEN || !has_shape(text, b"0000-00-00") {
        return false;
    }
    let (year, month, day) = (number(&text[..4]), number(&text[5..7]), number(&text[8..]));
    year >= 1 && (1..=12).contains(&month) && (1..=days_of(year, month)).contains(&day)
}

/// Digits where the shape has a 0, and its signs where they are.
fn has_shape(text: &[u8], shape: &[u8]) -> bool {
    let fits = |(&given, &wanted): (&u8, &u8)| match wanted {
        b'0' => given.is_ascii_digit(),
        sign => given == sign,
    };
    text.iter().zip(shape).all(fits)
}

fn number(digits: &[u8]) -> u32 {
    digits.iter().fold(0, |sum, &digit| sum * 10 + (digit - b'0') as u32)
}

/// One or more digits, perhaps after `-`.
pub fn is_integer(text: &[u8]) -> bool {
    all_digits(text.strip_prefix(b"-").unwrap_or(text))
}

/// An integer, perhaps with `.` and one or more digits behind.
pub fn is_float(text: &[u8]) -> bool {
    match text.iter().position(|&byte| byte == b'.') {
        Some(point) => is_integer(&text[..point]) && all_digits(&text[point + 1..]),
        None => is_integer(text),
    }
}

fn all_digits(text: &[u8]) -> bool {
    !text.is_empty() && text.iter().all(u8::is_ascii_digit)
}

fn days_of(year: u32, month: u32) -> u32 {
    let leap = year % 4 == 0 && (year % 100 != 0 || year % 400 == 0);
    match month {
        2 if leap => 29,
        2 => 28,
        4 | 6 | 9 | 11 => 30,
        _ => 31,
    }
}

/// `len` bytes at `at`, at most 16, as one number, if all are name bytes: the text first, zeros
/// behind. No name byte is 0, so equal numbers are equal names, an absent name is 0, and the order
/// of numbers is the key order.
pub fn packed_name(buffer: &[u8], at: usize, len: usize) -> Option<u128> {
    let window = match buffer.get(at..at + NAME_LEN) {
        Some(window) => u128::from_be_bytes(window.try_into().unwrap()),
        None => padded(&buffer[at..at + len]),
    };
    let behind = BEHIND[len];
    // All 16 bytes are looked at together, with letters for those that are not of the name.
    let text = window & !behind;
    all_name_bytes_of_16(text | every(b'A') & behind).then_some(text)
}

/// Ones behind the first so many bytes.
static BEHIND: [u128; NAME_LEN + 1] = {
    let mut masks = [0; NAME_LEN + 1];
    let mut len = 0;
    while len < NAME_LEN {
        masks[len] = u128::MAX >> (8 * len);
        len += 1;
    }
    masks
};

fn padded(text: &[u8]) -> u128 {
    let mut padded = [0; NAME_LEN];
    padded[..text.len()].copy_from_slice(text);
    u128::from_be_bytes(padded)
}

/// The same byte sixteen times.
const fn every(byte: u8) -> u128 {
    u128::from_ne_bytes([byte; NAME_LEN])
}

/// Sets the top bit of each byte from `low` to `high`; all bytes have to be below 128.
const fn within(bytes: u128, low: u8, high: u8) -> u128 {
    (bytes + every(128 - low)) & !(bytes + every(127 - high))
}

/// The class table's rule for name bytes, on 16 bytes in one number: a byte's top bit says that
/// it lies in a range. Bytes from 128 on are none of a name; without them no sum carries over.
fn all_name_bytes_of_16(bytes: u128) -> bool {
    let tops = every(128);
    if bytes & tops != 0 {
        return false;
    }
    let letters = within(bytes | every(32), b'a', b'z');
    let digits_and_signs = within(bytes, b'-', b'9');
    let underscores = within(bytes, b'_', b'_');
    (letters | digits_and_signs | underscores) & tops == tops
}

/// Length of a packed name.
pub fn packed_len(name: u128) -> usize {
    NAME_LEN - name.trailing_zeros() as usize / 8
}

/// A number that differs for most different texts, to compare few of them whole.
pub fn mark(text: &[u8]) -> u64 {
    let mix = |mark: u64, part: u64| (mark.rotate_left(5) ^ part).wrapping_mul(0x9E37_79B9_7F4A_7C15);
    let chunks = text.chunks_exact(8);
    let mut last = [0; 8];
    last[..chunks.remainder().len()].copy_from_slice(chunks.remainder());
    let whole = chunks.fold(0, |sum, part| mix(sum, u64::from_le_bytes(part.try_into().unwrap())));
    mix(whole, u64::from_le_bytes(last))
}

#[cfg(test)]
mod tests {
    use super::*;

    #[test]
    fn classes_follow_their_rule() {
        for byte in 0..=255u8 {
            let class = CLASS[byte as usize];
            assert_eq!(class == SPACE, [9, 10, 13, 32].contains(&byte));
            assert_eq!(class == ALNUM, byte.is_ascii_alphanumeric());
            assert_eq!(class == NAME_SIGN, b"._-/".contains(&byte));
            assert_eq!(class == MARKUP, b"<>&\"'".contains(&byte));
            assert_eq!(class == 0, !(33..=126).contains(&byte) && class != SPACE);
            assert!(class <= OTHER);
        }
    }

    #[test]
    fn long_names_of_sixty_four_bytes_and_not_more() {
        assert!(!is_long_name(b""));
        assert!(is_long_name(&[b'/'; 64]));
        assert!(!is_long_name(&[b'/'; 65]));
    }

    #[test]
    fn dates_are_gregorian() {
        for good in ["2012-02-29T00:00:00", "0001-01-01T23:59:59", "2000-02-29T09:00:00", "9999-12-31T09:00:00"] {
            assert!(is_date(good.as_bytes()), "{good}");
        }
        for bad in [
            "2014-02-29T09:00:00", "1900-02-29T09:00:00", "0000-01-01T00:00:00", "2014-13-01T00:00:00",
            "2014-00-01T00:00:00", "2014-04-31T00:00:00", "2014-04-00T00:00:00", "2014-04-01T24:00:00",
            "2014-04-01T00:60:00", "2014-04-01T00:00:60", "2014-04-01 00:00:00", "2014-04-01T00:00:0",
            "2014-04-01T00:00:000", "", "2014-04-01T00:00:0:",
        ] {
            assert!(!is_date(bad.as_bytes()), "{bad}");
        }
    }

    #[test]
    fn a_day_is_what_a_date_begins_with() {
        for date in ["2012-02-29T00:00:00", "2014-02-29T00:00:00", "2014-13-01T00:00:00", "2014-1--01T00:00:00", "9999-12-31T23:59:59"] {
            assert_eq!(is_day(&date.as_bytes()[..10]), is_date(date.as_bytes()), "{date}");
            assert!(!is_day(date.as_bytes()) && !is_day(&date.as_bytes()[..9]));
        }
    }

    #[test]
    fn numbers_are_digits_with_a_sign_and_a_point() {
        for (text, integer, float) in [
            ("0", true, true), ("-0", true, true), ("007", true, true), ("-12", true, true), ("1.5", false, true),
            ("-0.0", false, true), ("00.50", false, true), ("", false, false), ("-", false, false), ("+5", false, false),
            ("--5", false, false), ("5-", false, false), ("1.", false, false), (".5", false, false), (".", false, false),
            ("-.5", false, false), ("1.-5", false, false), ("1.2.3", false, false), ("1,5", false, false), ("1e5", false, false),
            (" 1", false, false), ("1 ", false, false), ("0x1", false, false), ("NaN", false, false),
        ] {
            assert_eq!((is_integer(text.as_bytes()), is_float(text.as_bytes())), (integer, float), "{text}");
        }
    }

    #[test]
    fn packed_names_keep_the_order() {
        let order: [&[u8]; 7] = [b"", b"-", b"1", b"10", b"1A", b"9", b"ABCDEFGHIJKLMNOP"];
        let packed = |text: &[u8]| packed_name(text, 0, text.len()).unwrap();
        for pair in order.windows(2) {
            assert!(packed(pair[0]) < packed(pair[1]));
        }
        for text in order {
            assert_eq!(packed_len(packed(text)), text.len());
            for filling in [b'Z', 0, b'<', 255] {
                let mut long = text.to_vec();
                long.extend([filling; 16]);
                assert_eq!(packed_name(&long, 0, text.len()), Some(packed(text)));
            }
        }
    }

    #[test]
    fn packed_names_follow_the_class_table() {
        for byte in 0..=255u8 {
            for at in [0, 7, 15] {
                let mut text = [b'a'; NAME_LEN];
                text[at] = byte;
                assert_eq!(packed_name(&text, 0, NAME_LEN).is_some(), is_name_byte(byte));
                assert_eq!(packed_name(&text, 0, at + 1).is_some(), is_name_byte(byte));
                assert!(packed_name(&text, 0, at).is_some());
            }
        }
    }
}
