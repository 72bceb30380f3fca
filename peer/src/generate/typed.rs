//! Typed items: values of each type, the ways to write one, and bodies that are mostly none.

use super::document::{later, value};
use super::random::Random;

pub const TYPES: [&str; 5] = ["ItemDataString", "ItemDataInteger", "ItemDataFloat", "ItemDataDate", "ItemDataDatetime"];

/// A value of the type's pattern, now and then null.
pub fn good(random: &mut Random, element: &str) -> Vec<u8> {
    if random.chance(12) {
        return Vec::new();
    }
    match element {
        "ItemDataInteger" => integer(random),
        "ItemDataFloat" if random.chance(30) => integer(random),
        "ItemDataFloat" => float(random),
        "ItemDataDate" => later(random, None)[..10].to_vec(),
        "ItemDataDatetime" => later(random, None),
        _ => string(random),
    }
}

fn string(random: &mut Random) -> Vec<u8> {
    match random.below(8) {
        0 => random.pick(&["]]>", "]]", "a]]>b", "]]]>", ">", " ", "  x ", "&amp;", "<![CDATA[", "]]&gt;"]).as_bytes().to_vec(),
        1 => {
            let len = *random.pick(&[39, 40]);
            value(random, len)
        }
        _ => {
            let len = 1 + random.below(12);
            value(random, len)
        }
    }
}

fn digits(random: &mut Random, len: usize) -> Vec<u8> {
    (0..len).map(|_| b'0' + random.below(10) as u8).collect()
}

fn integer(random: &mut Random) -> Vec<u8> {
    match random.below(8) {
        0 => random.pick(&["-0", "007", "0", "-1", "9"]).as_bytes().to_vec(),
        1 => digits(random, 40),
        2 => [b"-".to_vec(), digits(random, 39)].concat(),
        _ => random.below(200).to_string().into_bytes(),
    }
}

fn float(random: &mut Random) -> Vec<u8> {
    match random.below(8) {
        0 => random.pick(&["-0.0", "00.50", "0.1", "-1.5"]).as_bytes().to_vec(),
        1 => [digits(random, 1), b".".to_vec(), digits(random, 38)].concat(),
        2 => [b"-".to_vec(), digits(random, 37), b".".to_vec(), digits(random, 1)].concat(),
        _ => format!("{}.{}", random.below(200), random.below(100)).into_bytes(),
    }
}

/// A value as the body of an item: text, with more entities than it needs or not, or a CDATA section where one can hold it.
pub fn written(random: &mut Random, value: &[u8]) -> Vec<u8> {
    let section_ends = value.windows(3).any(|part| part == b"]]>");
    if random.chance(30) && !section_ends {
        return [b"<![CDATA[", value, b"]]>"].concat();
    }
    let often = random.chance(30);
    let mut text = Vec::new();
    for (place, &byte) in value.iter().enumerate() {
        let after_brackets = value[..place].ends_with(b"]]");
        let entity: &[u8] = match byte {
            b'<' => b"&lt;",
            b'&' => b"&amp;",
            b'>' if often || after_brackets => b"&gt;",
            b'"' if often => b"&quot;",
            b'\'' if often => b"&apos;",
            _ => &[byte],
        };
        text.extend(entity);
    }
    text
}

/// Bodies that are off one pattern or off all, not of the written form, or odd and good; some hold a child.
const ODD: &[&str] = &[
    "", " ", "  ", "\t", "\n", "\r\n", "1\n", "\n1", " 1", "1 ", "+5", "1.", ".5", "-", "--1", "-0", "007", "1e5", "1.5", "1.2.3", "-.5", "1,5",
    "2014-02-29", "2012-02-29", "2012-2-29", "2014-02-29T09:00:00", "2012-02-29T09:00:00", "2012-02-29Z", "2012-02-29T09:00:00Z", "2012-02-29T",
    "2012-02-29T24:00:00", "0000-01-01", "a&b", "&bad;", "&", "&#65;", "&lt", "&lt;", "&lt;&gt;&amp;&quot;&apos;", "&amp;lt;", "-&amp;", "\"'",
    ">", "]]>", "a]]>b", "]]]]>", "]]&gt;", "]] >", "]>", "]]", "]]]", "\u{7f}", "\u{1f}", "a\0", "\u{80}", "\u{ff}x",
    "<![CDATA[]]>", "<![CDATA[120]]>", "<![CDATA[2012-02-29]]>", "<![CDATA[-0.5]]>", "<![CDATA[ ]]>", "<![CDATA[a]]b&<>&amp;]]>", "<![CDATA[]]]>",
    "<![CDATA[]]]]>", "<![CDATA[>]]>", "<![CDATA[]>]]>", "<![CDATA[<![CDATA[]]>", "<![CDATA[</ItemDataString>]]>", "<![CDATA[x]]> ", " <![CDATA[x]]>",
    "\n<![CDATA[x]]>", "<![CDATA[x]]>\n", "<![CDATA[x]]><![CDATA[y]]>", "<![CDATA[]]><![CDATA[]]>", "<![CDATA[]]>x", "x<![CDATA[]]>",
    "<![CDATA[x]]>]]>", "<![CDATA[x]]>&amp;", "<![CDATA[x", "<![CDATA[x]]", "<![CDATA[x]>", "<![CDATA[x]]&gt;", "<![CDATA[\n]]>", "<![CDATA[\t1]]>",
    "<![CDATA[\u{7f}]]>", "<![CDATA[\u{e9}]]>", "<![cdata[x]]>", "<![CDATA [x]]>", "<! [CDATA[x]]>", "<![CDATA[", "<![CDATA", "<!", "<",
    "<Foo/>", "a<Foo/>", "a&b<Foo/>", "a]]><Foo/>", "<Foo>", "</Foo>", "<![CDATA[x]]><Foo/>", "<Foo/><![CDATA[x]]>", "<Foo a='' a=''/>",
    "<AuditRecord/>", "\n<AuditRecord/>", " <AuditRecord/>", "<ItemDataString ItemOID=\"X\"/>", "<ItemData ItemOID=\"X\"/>", "<!-- c -->", "<?pi?>",
];

/// What a body of many bytes is made of; `|` stands for the filling.
const LONG: &[&str] = &["|", "<![CDATA[|]]>", "|<Foo/>", "&amp;|", " |", "-|", "0.|"];

pub fn odd_body(random: &mut Random) -> Vec<u8> {
    if random.chance(75) {
        return latin(*random.pick(ODD));
    }
    let filling = match random.below(4) {
        0 => "&lt;".repeat(*random.pick(&[39, 40, 41])),
        1 => "]".repeat(*random.pick(&[38, 40, 41, 100])),
        _ => "1".repeat(*random.pick(&[37, 38, 39, 40, 41, 64, 300])),
    };
    latin(&random.pick(LONG).replace('|', &filling))
}

/// Signs up to 255 as single bytes.
pub fn latin(text: &str) -> Vec<u8> {
    text.chars().map(|sign| sign as u8).collect()
}

#[cfg(test)]
mod tests {
    use super::*;
    use crate::{import, open, BYTES_LEN, NUMBERS_LEN};

    fn imported(item: &[u8]) -> u32 {
        let head = "<ODM xmlns=\"http://www.cdisc.org/ns/odm/v1.3\" FileType=\"Snapshot\" FileOID=\"F1\" CreationDateTime=\"2014-03-01T09:00:00\" \
                    ODMVersion=\"1.3.2\"><ClinicalData StudyOID=\"ST\" MetaDataVersionOID=\"V1\"><SubjectData SubjectKey=\"7\"><StudyEventData \
                    StudyEventOID=\"E\"><FormData FormOID=\"F\"><ItemGroupData ItemGroupOID=\"G\">";
        let tail = "</ItemGroupData></FormData></StudyEventData></SubjectData></ClinicalData></ODM>";
        let (mut numbers, mut bytes) = (vec![0; NUMBERS_LEN], vec![0; BYTES_LEN]);
        open(&mut numbers, &mut bytes, b"ST", b"V1");
        import(&mut numbers, &mut bytes, &[head.as_bytes(), item, tail.as_bytes()].concat()).refusal
    }

    fn item(element: &str, body: &[u8]) -> Vec<u8> {
        [format!("<{element} ItemOID=\"I\">").as_bytes(), body, format!("</{element}>").as_bytes()].concat()
    }

    #[test]
    fn good_values_are_taken_however_they_are_written() {
        let mut random = Random::new(3);
        for _ in 0..400 {
            for element in TYPES {
                let value = good(&mut random, element);
                let body = written(&mut random, &value);
                assert_eq!(imported(&item(element, &body)), 0, "{element} {}", String::from_utf8_lossy(&body));
            }
        }
    }

    /// Each type takes some odd bodies and refuses others with each number that a body can have.
    #[test]
    fn odd_bodies_are_of_every_kind() {
        let mut random = Random::new(4);
        for element in TYPES {
            let mut seen = [false; 17];
            (0..500).for_each(|_| seen[imported(&item(element, &odd_body(&mut random))) as usize] = true);
            let met: Vec<usize> = (0..17).filter(|&number| seen[number]).collect();
            assert_eq!(met, [0, 4, 5, 7], "{element}");
        }
    }
}
