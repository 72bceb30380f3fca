//! The stored calls about typed items: their bodies, the two sorts in one file, and the faults that meet at one of their tags.

use super::chain::{around, Writer};
use super::faults::{pairs, refuse_body, Tag};
use super::typed::{latin, TYPES};
use crate::FILE_LEN;

/// Bodies that each type takes, the shortest and the longest among them.
const TAKEN: [&[&str]; 5] = [
    &[
        "", "x", " ", "  x ", "]]&gt;", "]] >", "]>", ">", "&lt;&gt;&amp;&quot;&apos;", "\"'", "&amp;lt;", "<![CDATA[]]>", "<![CDATA[ ]]>",
        "<![CDATA[a]]b&<>&amp;]]>", "<![CDATA[]]]>", "<![CDATA[]]]]>", "<![CDATA[<![CDATA[]]>", "<![CDATA[</ItemDataString>]]>",
        "1234567890123456789012345678901234567890", "<![CDATA[&234567890123456789012345678901234567890]]>",
        "&lt;234567890123456789012345678901234567&amp;9&gt;",
    ],
    &[
        "", "0", "-0", "007", "-12", "9234567890123456789012345678901234567890", "-234567890123456789012345678901234567890", "<![CDATA[-5]]>",
        "<![CDATA[]]>",
    ],
    &["", "1.5", "-0.0", "00.50", "7", "-0", "9.34567890123456789012345678901234567890", "<![CDATA[-1.5]]>", "<![CDATA[]]>"],
    &["", "2012-02-29", "0001-01-01", "9999-12-31", "<![CDATA[2000-02-29]]>", "<![CDATA[]]>"],
    &["", "2012-02-29T09:00:00", "0001-01-01T00:00:00", "9999-12-31T23:59:59", "<![CDATA[2000-02-29T23:59:59]]>", "<![CDATA[]]>"],
];

/// Bodies of a String that are not of the written form.
const BROKEN: &[&str] = &[
    "\t", "a\nb", "\u{1f}", "\u{7f}", "\u{80}", "a&b", "&bad;", "&#65;", "&lt", "]]>", "a]]]>", "<![CDATA[x]]> ", " <![CDATA[x]]>", "\n<![CDATA[x]]>",
    "<![CDATA[x]]><![CDATA[y]]>", "<![CDATA[]]>x", "x<![CDATA[]]>", "<![CDATA[x]]>]]>", "<![CDATA[\n]]>", "<![CDATA[\u{e9}]]>", "<![cdata[x]]>",
    "<![CDATA[x]>", "<!-- c -->", "<?pi?>", "a&b<Foo/>", "\n<AuditRecord/>", "<Foo a='' a=''/>", "</Foo>", "</ItemDataDate>",
];

/// Bodies with a child, which is not judged further; what they say is judged at a closing tag that never comes.
const PARENTS: &[&str] = &[
    "<AuditRecord/>", " <AuditRecord/>", "x<Foo>", "<![CDATA[x]]><Foo/>", "12345678901234567890123456789012345678901<Foo/>",
    "<ItemDataString ItemOID='A'/>",
];

/// Bodies off the pattern of each type, or longer than a value may be.
const OFF: [&[&str]; 5] = [
    &[
        "12345678901234567890123456789012345678901", "&lt;2345678901234567890123456789012345678901",
        "<![CDATA[12345678901234567890123456789012345678901]]>",
    ],
    &[" ", "+5", "1.", "-", "1.0", "1 ", "<![CDATA[ 1]]>", "92345678901234567890123456789012345678901", "&lt;", "x"],
    &[" ", ".5", "1.", "-.5", "1e5", "1.2.3", "9.345678901234567890123456789012345678901"],
    &[" ", "2014-02-29", "2012-02-29Z", "2012-02-29T09:00:00", "2012-2-29"],
    &[" ", "2012-02-29", "2014-02-29T09:00:00", "2012-02-29T09:00:00Z", "2012-02-29T24:00:00"],
];

pub fn typed(writer: &mut Writer) {
    writer.emit_change("open 5354 5631".into());
    snapshots(writer);
    bodies(writer);
    sorts(writer);
    ends(writer);
    writer.emit_change("open 5354 5631".into());
    fill(writer);
    tag_faults(writer, false, 0);
    (1..3).for_each(|variant| tag_faults(writer, true, variant));
    (0..3).for_each(|variant| closing_faults(writer, variant));
    (0..2).for_each(|variant| untyped_faults(writer, variant));
}

/// Item A in four entities, and 507 other items: 512 live.
fn fill(writer: &mut Writer) {
    let others: String = (0..507).map(|n| format!("<ItemDataDate ItemOID='{n}'/>")).collect();
    take_body(writer, &around("Insert", &format!("<ItemDataString ItemOID='A'>a</ItemDataString>{others}")));
}

fn take_body(writer: &mut Writer, body: &str) {
    assert_eq!(writer.import_body(body), 0, "{body}");
}

/// A file with bytes outside ASCII, each sign one byte.
fn import_latin(writer: &mut Writer, body: &str, number: u32) {
    let frame = writer.framed("|");
    let bar = frame.iter().position(|&byte| byte == b'|').expect("one was written");
    let file = [&frame[..bar], &latin(body), &frame[bar + 1..]].concat();
    assert_eq!(writer.import_file(&file), number, "{body}");
}

fn item(element: &str, oid: &str, word: &str, body: &str) -> String {
    format!("<{element} ItemOID='{oid}' TransactionType='{word}'>{body}</{element}>")
}

/// Snapshot files of typed items, on an empty store: taken without words and with Insert.
fn snapshots(writer: &mut Writer) {
    let group = "<ItemDataString ItemOID='A'>a</ItemDataString><ItemDataDate ItemOID='B' TransactionType='Insert'/>";
    let whole = around("Insert", group).replace(" TransactionType='Insert'>", ">");
    for (body, number) in [
        (whole.clone(), 0),
        (whole.replace("='Insert'/>", "='Upsert'/>"), 10),
        (whole.replace("='Insert'/>", "='Update'/>"), 10),
        (whole.replace("='B'", "='A'"), 11),
        (whole.replace("<ItemDataDate", "<ItemData"), 16),
        (whole.replace("ItemDataString", "ItemDataDate"), 7),
    ] {
        let file = String::from_utf8(writer.framed(&body)).expect("ASCII").replace("Transactional", "Snapshot");
        assert_eq!(writer.import_file(file.as_bytes()), number, "{body}");
        if number == 0 {
            writer.snapshot();
            writer.withdraw_last();
        }
    }
}

/// Each good body under each word, then each bad one.
fn bodies(writer: &mut Writer) {
    for (element, bodies) in TYPES.into_iter().zip(TAKEN) {
        let items = |word: &str, bodies: &[&str]| -> String {
            bodies.iter().enumerate().map(|(place, body)| item(element, &format!("{}{place}", &element[8..]), word, body)).collect()
        };
        let backwards: Vec<&str> = bodies.iter().rev().copied().collect();
        take_body(writer, &around("Upsert", &items("Insert", bodies)));
        take_body(writer, &around("Context", &(items("Update", &backwards) + &items("Context", &bodies[..4]))));
        take_body(writer, &around("Context", &(items("Upsert", &bodies[..2]) + &items("Remove", &backwards[..3]))));
        // The next file is of the other sort.
        take_body(writer, &around("Context", &format!("<ItemData ItemOID='{}0' TransactionType='Upsert' Value='u'/>", &element[8..])));
    }
    writer.snapshot();
    writer.read_back();
    // The words in turn: a body's form is judged under each. What is not live shows after it.
    let mut words = ["Upsert", "Context", "Insert", "Remove", "Update"].into_iter().cycle();
    let mut refuse_item = |writer: &mut Writer, element: &str, body: &str, number: u32| {
        let word = words.next().unwrap_or("Upsert");
        import_latin(writer, &around("Context", &item(element, "String0", word, body)), number);
    };
    BROKEN.iter().for_each(|body| refuse_item(writer, "ItemDataString", body, 4));
    PARENTS.iter().for_each(|body| refuse_item(writer, "ItemDataString", body, 5));
    for (element, bodies) in TYPES.into_iter().zip(OFF) {
        bodies.iter().for_each(|body| refuse_item(writer, element, body, 7));
    }
}

/// Typed and untyped items in one file: the first of the other sort is refused under every word.
fn sorts(writer: &mut Writer) {
    let typed = "<ItemDataString ItemOID='String0'>x</ItemDataString>";
    let untyped = "<ItemData ItemOID='String0' Value='x'/>";
    for word in ["Insert", "Update", "Upsert", "Remove", "Context"] {
        for (first, second) in [(typed, untyped), (untyped, typed)] {
            let second = second.replace(" ItemOID", &format!(" TransactionType='{word}' ItemOID"));
            refuse_body(writer, &around("Context", &format!("{first}{second}")), 16);
        }
    }
    // Under Remove the first one is ended before.
    refuse_body(writer, &around("Remove", &format!("{untyped}{typed}")), 16);
    // The sort is the file's, not the group's.
    for (first, second) in [(typed, untyped), (untyped, typed)] {
        let body = around("Context", first) + "</ClinicalData><ClinicalData StudyOID=\"ST\" MetaDataVersionOID=\"V1\">" + &around("Upsert", second);
        refuse_body(writer, &body, 16);
    }
    let types: String = TYPES.iter().map(|element| format!("<{element} ItemOID='{element}'/>")).collect();
    take_body(writer, &around("Upsert", &types));
    writer.snapshot();
}

/// Files that end in a body, the longest ones with many bytes in it.
fn ends(writer: &mut Writer) {
    for body in ["", "x", "&lt", "<![CDATA[", "<![CDATA[x]]", "<![CDATA[x]]>", "x<", "x</", "x</ItemDataString"] {
        let mut file = writer.framed(&around("Upsert", &format!("<ItemDataString ItemOID='A'>{body}|")));
        file.truncate(file.iter().position(|&byte| byte == b'|').expect("one was written"));
        assert_eq!(writer.import_file(&file), 4, "{body}");
    }
    for (body, number) in [("a", 4), ("]", 4), (">", 4), (" ", 4), ("<![CDATA[a", 4), ("<![CDATA[]", 4), ("", 0)] {
        for (len, number) in [(FILE_LEN + 1, 3), (FILE_LEN, number)] {
            let mut file = writer.framed(&around("Upsert", &item("ItemDataString", "A", "Upsert", &format!("{body}|"))));
            let bar = file.iter().position(|&byte| byte == b'|').expect("one was written");
            match body.as_bytes().last() {
                Some(&last) => {
                    file.truncate(bar);
                    file.resize(len, last);
                }
                // The whole file, white space behind it.
                None => {
                    file.remove(bar);
                    file.resize(len, b'\n');
                }
            }
            assert_eq!(writer.import_file(&file), number, "{body}");
        }
    }
}

/// The numbers of an item's tag in their order: 16 before 7.
const NUMBERS: [u32; 9] = [4, 5, 6, 16, 7, 10, 11, 12, 13];

/// A store of 512 live entities has item A: what is there, what is not, and what finds no room.
fn asked(has: impl Fn(u32) -> bool, variant: usize) -> (&'static str, &'static str) {
    match () {
        _ if has(11) => ("A", "Insert"),
        _ if has(13) => ("new", "Insert"),
        // Remove would be the right word under Remove.
        _ if has(12) => ("new", if has(10) { "Update" } else { ["Update", "Remove", "Context"][variant % 3] }),
        _ if has(10) => ("A", ["Upsert", "Context", "Update"][variant % 3]),
        _ => ("A", "Context"),
    }
}

/// Of 11, 12 and 13 a tag has one.
fn meet(faults: &[u32]) -> bool {
    faults.len() == 1 || faults[0] < 11 || faults[0] > 13
}

/// Items in their group, which is removed if the word inside is to be wrong.
fn grouped(items: &str, removed: bool) -> String {
    let body = around("Context", items);
    match removed {
        true => body.replace("ItemGroupOID='G'", "ItemGroupOID='G' TransactionType='Remove'"),
        false => body,
    }
}

/// Faults of a typed item's opening tag; of a self-closing one also those that else wait for the closing tag.
fn tag_faults(writer: &mut Writer, closed: bool, variant: usize) {
    let numbers = if closed { &NUMBERS[..] } else { &NUMBERS[..6] };
    for (turn, faults) in pairs(numbers).into_iter().enumerate().filter(|(_, faults)| meet(faults)) {
        let has = |number: u32| faults.contains(&number);
        let (oid, word) = asked(has, variant);
        let element = TYPES[(turn + variant) % 5];
        let mut tag = Tag::new(element, vec![("ItemOID", oid.into()), ("TransactionType", word.into())]);
        let (mut before, mut behind) = (if has(16) { "<ItemData ItemOID='A'/>" } else { "" }, "");
        for &number in faults.iter().rev() {
            match (number, variant % 3) {
                (5, 0) if !has(16) => tag.element = "AdminData".into(),
                (5, 1) if !has(16) => tag.element += "X",
                // A child of another item: of a typed one, or of one that is of the other sort as well.
                (5, _) if has(16) => (before, behind) = ("<ItemData ItemOID='A'>", "</ItemData>"),
                (5, _) => (before, behind) = ("<ItemDataDate ItemOID='A'>", "</ItemDataDate>"),
                (6, 0) => tag.set("Value", "1"),
                (6, 1) => tag.set("IsNull", "Yes"),
                (6, _) if has(7) => tag.set("Sex", "F"),
                (6, _) => tag.drop("ItemOID"),
                (7, 0) => tag.set("ItemOID", ""),
                (7, 1) => tag.set("ItemOID", "12345678901234567"),
                (7, _) => tag.set("ItemOID", "A&amp;"),
                (4, _) => tag.spoil(4, variant),
                _ => {}
            }
        }
        let end = if closed { "/>".into() } else { format!("></{}>", tag.element) };
        refuse_body(writer, &grouped(&format!("{before}{}{behind}", tag.opening(&end)), has(10)), faults[0]);
    }
}

/// Faults of the tag behind a typed item's body, and of the body.
fn closing_faults(writer: &mut Writer, variant: usize) {
    for (turn, faults) in pairs(&[4, 5, 7, 11, 12, 13]).into_iter().enumerate().filter(|(_, faults)| meet(faults)) {
        let has = |number: u32| faults.contains(&number);
        let (oid, word) = asked(has, variant);
        let kind = (turn + variant) % 5;
        let bodies = if has(7) { OFF[kind] } else { TAKEN[kind] };
        let mut body = bodies[(turn + variant) % bodies.len()].to_string();
        let mut closing = TYPES[kind];
        match (has(4), has(5), variant) {
            // How a body is written is judged with the tag behind it, whichever that is.
            (true, true, 0) => body += "&b<Foo/>",
            (true, true, 1) => body += "<Foo a='' a=''/>",
            (true, true, _) => body += "\n<AuditRecord/>",
            (true, _, 0) => body += "&b",
            (true, _, 1) => closing = TYPES[(kind + 1) % 5],
            (true, _, _) => body = format!("<![CDATA[]]>{body}x"),
            (_, true, 0) => body += "<Foo/>",
            (_, true, 1) => body += "<ItemDataString ItemOID='A'/>",
            (_, true, _) => body += "<ItemData ItemOID='A'>",
            _ => {}
        }
        let item = item(TYPES[kind], oid, word, &body).replace(&format!("</{}>", TYPES[kind]), &format!("</{closing}>"));
        refuse_body(writer, &grouped(&item, false), faults[0]);
    }
}

/// Faults of an untyped item's tag behind a typed item.
fn untyped_faults(writer: &mut Writer, variant: usize) {
    for faults in pairs(&NUMBERS).into_iter().filter(|faults| faults.contains(&16)) {
        let has = |number: u32| faults.contains(&number);
        let (oid, word) = asked(has, variant);
        let mut tag = Tag::new("ItemData", vec![("ItemOID", oid.into()), ("TransactionType", word.into())]);
        let (mut before, mut behind) = ("<ItemDataString ItemOID='A'>x</ItemDataString>", "");
        for &number in faults.iter().rev() {
            match (number, variant) {
                (5, _) => (before, behind) = ("<ItemDataString ItemOID='A'>x", "</ItemDataString>"),
                (6, _) => tag.spoil(6, variant),
                (7, 0) => tag.set("IsNull", "No"),
                (7, _) => tag.set("Value", &"v".repeat(41)),
                (4, _) => tag.spoil(4, variant),
                _ => {}
            }
        }
        refuse_body(writer, &grouped(&format!("{before}{}{behind}", tag.opening("/>")), has(10)), faults[0]);
    }
}
