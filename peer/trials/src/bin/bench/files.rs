//! The files and stores that are timed.

use store::{BYTES_LEN, FILE_LEN, NUMBERS_LEN};

/// A store's two buffers.
pub type Image = (Vec<u32>, Vec<u8>);

pub const DATE: &[u8] = b"2014-03-02T09:00:00";

/// Items of a subject; 35 full subjects and one with six items are 500 entities.
const ITEMS: usize = 10;
const ALL_ITEMS: usize = 356;

/// One writing of an item: the subject's number and the item's.
type Visit = (usize, usize);

/// Every item once, then again from the first, as often as given.
fn visits(count: usize) -> Vec<Visit> {
    (0..count).map(|place| place % ALL_ITEMS).map(|item| (item / ITEMS, item % ITEMS)).collect()
}

/// Always the same disorder.
fn scrambled(mut visits: Vec<Visit>) -> Vec<Visit> {
    let mut state = 1u64;
    for at in (1..visits.len()).rev() {
        state = state.wrapping_mul(6_364_136_223_846_793_005).wrapping_add(1_442_695_040_888_963_407);
        visits.swap(at, (state >> 33) as usize % (at + 1));
    }
    visits
}

/// File number `number` of a series F1, F2 and so on.
fn framed(number: usize, body: &str) -> Vec<u8> {
    let prior = if number > 1 { format!(" PriorFileOID=\"F{}\"", number - 1) } else { String::new() };
    format!(
        "<ODM xmlns=\"http://www.cdisc.org/ns/odm/v1.3\" FileType=\"Transactional\" FileOID=\"F{number}\"{prior} \
         CreationDateTime=\"2014-03-01T09:00:00\" ODMVersion=\"1.3.2\">\n{body}</ODM>\n"
    )
    .into_bytes()
}

fn clinical(body: &str) -> String {
    format!("<ClinicalData StudyOID=\"ST\" MetaDataVersionOID=\"V1\">\n{body}</ClinicalData>\n")
}

/// The elements around items of one subject.
fn nest(subject: usize, word: &str, items: &str) -> String {
    format!(
        "<SubjectData SubjectKey=\"{subject:02}\" TransactionType=\"{word}\">\n<StudyEventData StudyEventOID=\"SCR\">\n\
         <FormData FormOID=\"VS\">\n<ItemGroupData ItemGroupOID=\"BP\" ItemGroupRepeatKey=\"1\">\n{items}\
         </ItemGroupData>\n</FormData>\n</StudyEventData>\n</SubjectData>\n"
    )
}

/// Items that follow each other in one subject share a nest. An entity that is not there yet is made.
fn nests(visits: &[Visit], word: &str) -> Vec<String> {
    let item = |&(subject, item): &Visit| {
        let value = 100 + item * subject % 37;
        format!("<ItemData ItemOID=\"IT{item}\" Value=\"{value}\"/>\n")
    };
    let one_subject = visits.chunk_by(|one, next| one.0 == next.0);
    one_subject.map(|part| nest(part[0].0, word, &part.iter().map(item).collect::<String>())).collect()
}

/// 500 makes and 1,300 writes.
pub fn large() -> Vec<u8> {
    framed(1, &clinical(&nests(&visits(ALL_ITEMS + 1_300), "Upsert").concat()))
}

/// The same entities and as many changes by typed items of all types, one body in ten a CDATA section. Few values are long, so that the store has room for them. Those of a subject stand together,
/// so that the file is about as long as the other though its items are longer.
pub fn large_typed() -> Vec<u8> {
    let item = |place: usize, item: usize| {
        let (element, value) = match item {
            0 | 5 | 7 => ("String", format!("&lt; {place}")),
            1 | 6 => ("Integer", place.to_string()),
            2 | 4 | 8 => ("Float", format!("{place}.5")),
            3 => ("Date", "2014-03-01".into()),
            _ => ("Datetime", "2014-03-01T09:00:00".into()),
        };
        let body = if item == 7 { format!("<![CDATA[{value}]]>") } else { value };
        format!("<ItemData{element} ItemOID=\"IT{item}\">{body}</ItemData{element}>\n")
    };
    let mut all: Vec<(usize, Visit)> = visits(ALL_ITEMS + 1_300).into_iter().enumerate().collect();
    all.sort_by_key(|(_, (subject, _))| *subject);
    let one_subject = all.chunk_by(|one, next| one.1 .0 == next.1 .0);
    let nests = one_subject.map(|part| nest(part[0].1 .0, "Upsert", &part.iter().map(|&(place, visit)| item(place, visit.1)).collect::<String>()));
    framed(1, &clinical(&nests.collect::<String>()))
}

pub fn empty_store() -> Image {
    let mut image = (vec![0; NUMBERS_LEN], vec![0; BYTES_LEN]);
    assert_eq!(store::open(&mut image.0, &mut image.1, b"ST", b"V1").refusal, 0);
    image
}

fn full_store(visits: &[Visit]) -> Image {
    let mut image = empty_store();
    // More nests than these would not fit into one file where each holds one item.
    for (place, part) in visits.chunks(400).enumerate() {
        let file = framed(place + 1, &clinical(&nests(part, "Upsert").concat()));
        assert_eq!(store::import(&mut image.0, &mut image.1, &file).refusal, 0);
    }
    assert_eq!((image.0[1], live(&image)), (2_000, 500));
    image
}

/// 500 makes and 1,500 writes, subject by subject.
pub fn full_in_order() -> Image {
    full_store(&visits(ALL_ITEMS + 1_500))
}

/// The same changes, each item by itself and in disorder.
pub fn full_scrambled() -> Image {
    full_store(&scrambled(visits(ALL_ITEMS + 1_500)))
}

/// Entities that a snapshot shows: its opening tags but the frame's.
fn live(image: &Image) -> usize {
    let mut output = vec![0; store::SNAPSHOT_LEN];
    let written = store::snapshot(&image.0, &image.1, b"S1", DATE, &mut output).count as usize;
    let opening = |pair: &&[u8]| pair[0] == b'<' && pair[1].is_ascii_alphabetic();
    output[..written].windows(2).filter(opening).count() - 2
}

fn next_number(image: &Image) -> usize {
    image.0[0] as usize + 1
}

/// The name of the file that would follow.
pub fn next_oid(image: &Image) -> Vec<u8> {
    format!("F{}", next_number(image)).into_bytes()
}

/// Adds one item where others stand.
pub fn one_item(image: &Image) -> Vec<u8> {
    let item = "<ItemData ItemOID=\"NEW\" Value=\"120\" TransactionType=\"Insert\"/>\n";
    framed(next_number(image), &clinical(&nest(17, "Context", item)))
}

pub fn no_data(image: &Image) -> Vec<u8> {
    framed(next_number(image), "")
}

/// As long as a file may be: 1,800 changes, then what is there already, then white space for the last few bytes.
pub fn ordinary() -> Vec<u8> {
    let mut body = nests(&visits(ALL_ITEMS + 1_300), "Upsert").concat();
    let room = FILE_LEN - framed(1, &clinical("")).len();
    for nest in nests(&visits(ALL_ITEMS), "Context").iter().cycle() {
        if body.len() + nest.len() > room {
            break;
        }
        body += nest;
    }
    body.extend(std::iter::repeat_n(' ', room - body.len()));
    framed(1, &clinical(&body))
}

/// As long as a file may be: the start, the filling as often as it fits, the end, and white space for what is left.
fn stuffed(start: &str, fillings: impl Iterator<Item = String>, end: &str) -> Vec<u8> {
    let mut text = start.to_string();
    for filling in fillings {
        if text.len() + filling.len() + end.len() > FILE_LEN {
            break;
        }
        text += &filling;
    }
    text += end;
    text.extend(std::iter::repeat_n(' ', FILE_LEN - text.len()));
    text.into_bytes()
}

fn always(filling: &str) -> impl Iterator<Item = String> + '_ {
    std::iter::repeat_with(move || filling.to_string())
}

/// The shortest names there are, all different, the quick-changing letter first.
fn short_name(mut number: usize) -> String {
    let mut text = String::new();
    loop {
        text.push((b'a' + (number % 26) as u8) as char);
        number /= 26;
        if number == 0 {
            return text;
        }
    }
}

/// What each is, and the file; all of one length.
pub fn hostile() -> Vec<(&'static str, Vec<u8>)> {
    let short = (0..).map(|number| format!(" {}=''", short_name(number)));
    let long = (0..).map(|number| format!(" {}{number}=''", "a".repeat(500)));
    let whole = |item: &str| String::from_utf8(framed(1, &clinical(&nest(1, "Insert", item)))).unwrap_or_default();
    let (untyped, typed) = (
        whole("<ItemData ItemOID=\"IT1\" Value=\"|\"/>\n"),
        whole("<ItemDataString ItemOID=\"IT1\">|</ItemDataString>\n"),
    );
    let (before, behind) = untyped.split_once('|').unwrap_or_default();
    let (open, close) = typed.split_once('|').unwrap_or_default();
    let section = format!("{open}<![CDATA[");
    vec![
        ("one tag, short strange attributes", stuffed("<ODM", short, "/>")),
        ("one tag, long strange attributes", stuffed("<ODM", long, "/>")),
        ("an open quote", stuffed("<ODM xmlns=\"", always("a"), "")),
        ("entities in one value", stuffed(before, always("&amp;"), behind)),
        ("white space", stuffed("", always(" "), "")),
        ("a name without end", stuffed("<", always("a"), "")),
        ("a typed body of plain bytes", stuffed(open, always("a"), close)),
        ("a typed body of entities", stuffed(open, always("&amp;"), close)),
        ("a typed body of ]]", stuffed(open, always("]]"), close)),
        ("a typed body of >", stuffed(open, always(">"), close)),
        ("a CDATA section of ]]", stuffed(&section, always("]]"), &format!("]]>{close}"))),
        ("a CDATA section of >", stuffed(&section, always(">"), &format!("]]>{close}"))),
        ("a CDATA section without an end", stuffed(&section, always("a"), "")),
    ]
}
