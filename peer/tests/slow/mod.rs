//! Dates and the bodies of typed items, read slowly and as plainly as the documents say it.

pub const TYPES: [&str; 5] = ["ItemDataString", "ItemDataInteger", "ItemDataFloat", "ItemDataDate", "ItemDataDatetime"];

pub fn is_date(text: &[u8]) -> bool {
    let Ok(text) = std::str::from_utf8(text) else { return false };
    let digits: String = text.chars().filter(char::is_ascii_digit).collect();
    if text.len() != 19 || digits.len() != 14 {
        return false;
    }
    let part = |from: usize, to: usize| digits[from..to].parse::<u32>().unwrap();
    let (year, month, day) = (part(0, 4), part(4, 6), part(6, 8));
    let (hour, minute, second) = (part(8, 10), part(10, 12), part(12, 14));
    let leap = (year % 4 == 0 && year % 100 != 0) || year % 400 == 0;
    let days = [31, if leap { 29 } else { 28 }, 31, 30, 31, 30, 31, 31, 30, 31, 30, 31];
    text == format!("{year:04}-{month:02}-{day:02}T{hour:02}:{minute:02}:{second:02}")
        && year > 0
        && (1..=12).contains(&month)
        && (1..=days[month as usize - 1]).contains(&day)
        && hour < 24
        && minute < 60
        && second < 60
}

/// The five entities decoded; `None` where another `&` stands.
pub fn decoded(text: &[u8]) -> Option<Vec<u8>> {
    let mut parts = text.split(|&byte| byte == b'&');
    let mut value = parts.next()?.to_vec();
    for part in parts {
        let end = part.iter().position(|&byte| byte == b';')?;
        value.push(match &part[..end] {
            b"lt" => b'<',
            b"gt" => b'>',
            b"amp" => b'&',
            b"quot" => b'"',
            b"apos" => b'\'',
            _ => return None,
        });
        value.extend(&part[end + 1..]);
    }
    Some(value)
}

fn find(text: &[u8], what: &[u8]) -> Option<usize> {
    text.windows(what.len()).position(|part| part == what)
}

/// What a body says and what stands behind it; `None` if it is not of the written form. A tag has to stand behind it, which is not
/// looked at here.
pub fn body(text: &[u8]) -> Option<(Vec<u8>, &[u8])> {
    let printable = |text: &[u8]| text.iter().all(|byte| (32..=126).contains(byte));
    if let Some(inside) = text.strip_prefix(b"<![CDATA[") {
        let end = find(inside, b"]]>")?;
        return printable(&inside[..end]).then(|| (inside[..end].to_vec(), &inside[end + 3..]));
    }
    let (raw, rest) = text.split_at(text.iter().position(|&byte| byte == b'<')?);
    if !printable(raw) || find(raw, b"]]>").is_some() {
        return None;
    }
    Some((decoded(raw)?, rest))
}

/// Whether a value is null or of its type's pattern, and no longer than a value may be.
pub fn fits(element: &str, value: &[u8]) -> bool {
    let Ok(text) = std::str::from_utf8(value) else { return false };
    let digits = |text: &str| !text.is_empty() && text.chars().all(|sign| sign.is_ascii_digit());
    let after_sign = text.strip_prefix('-').unwrap_or(text);
    let good = match element {
        "ItemDataInteger" => digits(after_sign),
        "ItemDataFloat" => match after_sign.split_once('.') {
            Some((whole, part)) => digits(whole) && digits(part),
            None => digits(after_sign),
        },
        "ItemDataDate" => is_date(format!("{text}T00:00:00").as_bytes()),
        "ItemDataDatetime" => is_date(value),
        _ => true,
    };
    text.is_empty() || good && text.len() <= 40
}
