//! Order 1, typed items: each of its sentences, each point decided about them, and random bodies against a slow reading.

mod slow;

use slow::TYPES;
use store::{import, open, run_program, snapshot, withdraw, Answer, BYTES_LEN, FILE_LEN, NUMBERS_LEN, SNAPSHOT_LEN};

const HEAD: &str = "<ODM xmlns=\"http://www.cdisc.org/ns/odm/v1.3\" FileType=\"Transactional\" FileOID=\"F1\" \
                    CreationDateTime=\"2014-03-01T09:00:00\" ODMVersion=\"1.3.2\"><ClinicalData StudyOID=\"ST\" MetaDataVersionOID=\"V1\">";
const TAIL: &str = "</ClinicalData></ODM>";
const GROUP_END: &str = "</ItemGroupData></FormData></StudyEventData></SubjectData>";

#[derive(Clone, PartialEq)]
struct Store {
    numbers: Vec<u32>,
    bytes: Vec<u8>,
}

impl Store {
    fn new() -> Store {
        let mut store = Store { numbers: vec![0; NUMBERS_LEN], bytes: vec![0; BYTES_LEN] };
        assert_eq!(open(&mut store.numbers, &mut store.bytes, b"ST", b"V1"), accepted(0));
        store
    }

    /// The group 7/SCR/VS/BP with a live item LIVE, untyped and 120.
    fn with_item() -> Store {
        let mut store = Store::new();
        assert_eq!(store.import(group("Insert", "<ItemData ItemOID=\"LIVE\" Value=\"120\"/>")), accepted(5));
        store
    }

    /// Imports the next file of a series F1, F2, and so on. A refusal has to leave both buffers as they were.
    fn import(&mut self, body: impl AsRef<[u8]>) -> Answer {
        let file = [self.head().as_bytes(), body.as_ref(), TAIL.as_bytes()].concat();
        self.import_file(&file)
    }

    fn head(&self) -> String {
        let files = self.numbers[0];
        let prior = if files > 0 { format!(" PriorFileOID=\"F{files}\"") } else { String::new() };
        HEAD.replace("FileOID=\"F1\"", &format!("FileOID=\"F{}\"{prior}", files + 1))
    }

    fn import_file(&mut self, file: &[u8]) -> Answer {
        let before = self.clone();
        let answer = import(&mut self.numbers, &mut self.bytes, file);
        assert!(answer.refusal == 0 || *self == before, "refusal changed the store");
        answer
    }

    fn snapshot(&self) -> String {
        let mut output = vec![0; SNAPSHOT_LEN];
        let answer = snapshot(&self.numbers, &self.bytes, b"S1", b"2014-03-02T09:00:00", &mut output);
        assert_eq!(answer.refusal, 0);
        String::from_utf8(output[..answer.count as usize].to_vec()).unwrap()
    }

    /// The lines of the items.
    fn items(&self) -> Vec<String> {
        self.snapshot().lines().filter(|line| line.starts_with("<ItemData ")).map(str::to_string).collect()
    }

    /// Kind, depth and value of the last change; the keys are those of the group here.
    fn last_change(&self) -> (u32, u32, Vec<u8>) {
        let row = 197 + 3 * (self.numbers[1] as usize - 1);
        let [kind, depth, end] = self.numbers[row..row + 3] else { unreachable!() };
        let part = &self.bytes[5_440 + self.numbers[row - 1] as usize..5_440 + end as usize];
        let mut names = part;
        (0..[0, 1, 3, 5, 7, 8][depth as usize]).for_each(|_| names = &names[1 + names[0] as usize..]);
        (kind, depth, names.to_vec())
    }
}

fn accepted(count: u32) -> Answer {
    Answer { refusal: 0, count }
}

fn refused(refusal: u32) -> Answer {
    Answer { refusal, count: 0 }
}

fn group(word: &str, items: &str) -> String {
    format!(
        "<SubjectData SubjectKey=\"7\" TransactionType=\"{word}\"><StudyEventData StudyEventOID=\"SCR\"><FormData FormOID=\"VS\">\
         <ItemGroupData ItemGroupOID=\"BP\">{items}{GROUP_END}"
    )
}

fn item(element: &str, word: &str, oid: &str, body: &str) -> String {
    format!("<{element} ItemOID=\"{oid}\" TransactionType=\"{word}\">{body}</{element}>")
}

/// What an item with this body is answered, inserted into an empty store; the value if it is taken.
fn insert(element: &str, body: impl AsRef<[u8]>) -> Result<Vec<u8>, u32> {
    let mut store = Store::new();
    let text = group("Insert", &format!("<{element} ItemOID=\"I\">|</{element}>"));
    let (before, behind) = text.split_once('|').unwrap();
    match store.import([before.as_bytes(), body.as_ref(), behind.as_bytes()].concat()) {
        Answer { refusal: 0, count } => {
            let (kind, depth, value) = store.last_change();
            assert_eq!((count, kind, depth), (5, 1, 5));
            Ok(value)
        }
        Answer { refusal, .. } => Err(refusal),
    }
}

fn assert_taken(element: &str, body: &str, value: &str) {
    assert_eq!(insert(element, body), Ok(value.as_bytes().to_vec()), "{element} {body:?}");
}

fn assert_refused(element: &str, body: &str, number: u32) {
    assert_eq!(insert(element, body), Err(number), "{element} {body:?}");
}

#[test]
fn five_elements_under_item_group_data() {
    for element in TYPES {
        let tag = format!("<{element} ItemOID=\"I\" TransactionType=\"Insert\"/>");
        let open = format!("<{element} ItemOID=\"I\" TransactionType=\"Insert\"></{element} >");
        for tag in [&tag, &open] {
            assert_eq!(Store::new().import(group("Insert", tag)), accepted(5));
            // Under any other parent: the study's data, a subject, a study event, a form, an untyped and a typed item.
            assert_eq!(Store::new().import(tag), refused(5));
            assert_eq!(Store::new().import(format!("<SubjectData SubjectKey=\"7\" TransactionType=\"Insert\">{tag}</SubjectData>")), refused(5));
            let in_form = group("Insert", "").replace("<ItemGroupData ItemGroupOID", &format!("{tag}<ItemGroupData ItemGroupOID"));
            assert_eq!(Store::new().import(in_form), refused(5));
            assert_eq!(Store::new().import(group("Insert", &format!("<ItemData ItemOID=\"A\">{tag}</ItemData>"))), refused(5));
            assert_eq!(Store::new().import(group("Insert", &format!("<ItemDataDate ItemOID=\"A\">{tag}</ItemDataDate>"))), refused(5));
            assert_eq!(Store::new().import_file(tag.as_bytes()), refused(5));
        }
    }
    for strange in ["ItemDataBoolean", "ItemDataAny", "ItemDataTime", "ItemDataDateTime", "ItemDataDouble", "itemDataString", "ItemDataStrings"] {
        assert_refused(strange, "1", 5);
    }
}

#[test]
fn the_value_is_the_body_decoded_or_a_single_section() {
    assert_taken("ItemDataString", "abc", "abc");
    assert_taken("ItemDataString", "&lt;a&gt; &amp; &quot;b&apos;", "<a> & \"b'");
    assert_taken("ItemDataString", "&amp;lt;", "&lt;");
    assert_taken("ItemDataString", "<![CDATA[abc]]>", "abc");
    // In a section nothing is decoded.
    assert_taken("ItemDataString", "<![CDATA[<a> & &amp; \"b']]>", "<a> & &amp; \"b'");
    assert_taken("ItemDataString", "<![CDATA[</ItemDataString>]]>", "</ItemDataString>");
    assert_taken("ItemDataString", "<![CDATA[<![CDATA[]]>", "<![CDATA[");
    for (element, value) in TYPES.into_iter().zip(["x", "-5", "1.5", "2012-02-29", "2012-02-29T09:00:00"]) {
        assert_taken(element, value, value);
        assert_taken(element, &format!("<![CDATA[{value}]]>"), value);
    }
}

#[test]
fn a_section_ends_at_the_first_end() {
    assert_taken("ItemDataString", "<![CDATA[]]]>", "]");
    assert_taken("ItemDataString", "<![CDATA[]]]]>", "]]");
    assert_taken("ItemDataString", "<![CDATA[>]]>", ">");
    assert_taken("ItemDataString", "<![CDATA[]>]]>", "]>");
    assert_taken("ItemDataString", "<![CDATA[]] >]]>", "]] >");
    assert_refused("ItemDataString", "<![CDATA[a]]>b]]>", 4);
    assert_refused("ItemDataString", "<![CDATA[a]]]]>>", 4);
    for open in ["<![CDATA[", "<![CDATA[a", "<![CDATA[a]", "<![CDATA[a]]", "<![CDATA[a]]&gt;", "<![CDATA[a]>", "<![CDATA[]>"] {
        assert_refused("ItemDataString", open, 4);
    }
    for other in ["<![cdata[a]]>", "<![CDATA [a]]>", "<! [CDATA[a]]>", "<![CDATA", "<![IGNORE[a]]>", "<!", "<!-- a -->", "<?a?>", "< ![CDATA[a]]>"] {
        assert_refused("ItemDataString", other, 4);
    }
}

#[test]
fn integers() {
    for good in ["0", "5", "-5", "-0", "007", "-000", &"9".repeat(40), &("-".to_string() + &"9".repeat(39))] {
        assert_taken("ItemDataInteger", good, good);
    }
    for bad in ["+5", "-", "--5", "5-", "1.0", "1.", ".5", "1e5", "0x1", "1 ", " 1", " ", "1 000", "&lt;", "five", "\u{2212}5"] {
        let number = if bad.is_ascii() { 7 } else { 4 };
        assert_refused("ItemDataInteger", bad, number);
    }
}

#[test]
fn floats() {
    for good in ["0", "-5", "007", "1.5", "-1.5", "-0.0", "00.50", "0.0000", &("1.".to_string() + &"9".repeat(38))] {
        assert_taken("ItemDataFloat", good, good);
    }
    for bad in ["1.", ".5", "-.5", "-", ".", "-.", "+1.5", "1.5.5", "1..5", "1.-5", "1,5", "1.5e5", "NaN", "INF", " ", "1.5 ", " 1.5", "1. 5"] {
        assert_refused("ItemDataFloat", bad, 7);
    }
}

#[test]
fn dates_and_datetimes() {
    for good in ["2012-02-29", "0001-01-01", "9999-12-31", "2000-02-29"] {
        assert_taken("ItemDataDate", good, good);
        assert_taken("ItemDataDatetime", &format!("{good}T23:59:59"), &format!("{good}T23:59:59"));
    }
    for bad in ["2014-02-29", "1900-02-29", "0000-01-01", "2014-13-01", "2014-04-31", "2014-4-01", "2014/04/01", "20140401", "-2014-04-01"] {
        assert_refused("ItemDataDate", bad, 7);
        assert_refused("ItemDataDatetime", &format!("{bad}T23:59:59"), 7);
    }
    for bad in ["2012-02-29Z", "2012-02-29+01:00", "2012-02-29T09:00:00", "2012-02-29T", "2012-02-29 ", " 2012-02-29", "2012-02", "2012", " "] {
        assert_refused("ItemDataDate", bad, 7);
    }
    for bad in [
        "2012-02-29", "2012-02-29T", "2012-02-29 09:00:00", "2012-02-29T24:00:00", "2012-02-29T09:60:00", "2012-02-29T09:00:60", "2012-02-29T09:00",
        "2012-02-29T09:00:00Z", "2012-02-29T09:00:00.5", "2012-02-29T09:00:00+01:00", "2012-02-29T09:00:00 ", " ",
    ] {
        assert_refused("ItemDataDatetime", bad, 7);
    }
}

#[test]
fn attributes_are_item_oid_and_transaction_type() {
    for element in TYPES {
        for (attributes, number) in [
            ("", 6),
            ("TransactionType=\"Insert\"", 6),
            ("ItemOID=\"I\" Value=\"1\"", 6),
            ("ItemOID=\"I\" IsNull=\"Yes\"", 6),
            ("ItemOID=\"I\" Value=\"1\" IsNull=\"No\"", 6),
            ("ItemOID=\"I\" Sex=\"F\"", 6),
            ("ItemOID=\"I\" ItemGroupOID=\"BP\"", 6),
            ("ItemOID=\"I\" ItemOID=\"I\"", 4),
            ("ItemOID=\"I\" a=\"\" a=\"\"", 4),
            ("ItemOID=\"\"", 7),
            ("ItemOID=\"12345678901234567\"", 7),
            ("ItemOID=\"I I\"", 7),
            ("ItemOID=\"I\" TransactionType=\"insert\"", 7),
            ("ItemOID=\"I\" TransactionType=\"\"", 7),
            ("ItemOID=\"1234567890123456\"", 0),
            ("TransactionType='Upsert' ItemOID = 'I' ", 0),
        ] {
            let tags = [format!("<{element} {attributes}/>"), format!("<{element} {attributes}></{element}>")];
            for tag in tags {
                assert_eq!(Store::new().import(group("Insert", &tag)).refusal, number, "{tag}");
            }
        }
    }
}

#[test]
fn nothing_is_null_of_every_type_so_update_always_writes() {
    for element in TYPES {
        for body in ["", "<![CDATA[]]>"] {
            assert_taken(element, body, "");
        }
        for word in ["Update", "Upsert"] {
            let open = format!("<{element} ItemOID=\"LIVE\" TransactionType=\"{word}\"");
            for rest in [format!("></{element}>"), "/>".into(), format!("><![CDATA[]]></{element}>")] {
                let mut store = Store::with_item();
                assert_eq!(store.import(group("Context", &format!("{open}{rest}"))), accepted(1));
                assert_eq!(store.last_change(), (2, 5, Vec::new()));
                assert_eq!(store.items(), ["<ItemData ItemOID=\"LIVE\" IsNull=\"Yes\"/>"]);
                // The same again is a write again.
                assert_eq!(store.import(group("Context", &format!("{open}{rest}"))), accepted(1));
            }
        }
        let mut store = Store::new();
        assert_eq!(store.import(group("Insert", &format!("<{element} ItemOID=\"I\"/>"))), accepted(5));
        assert_eq!(store.last_change(), (1, 5, Vec::new()));
    }
    // An untyped Update with neither Value nor IsNull still changes nothing.
    assert_eq!(Store::with_item().import(group("Update", "<ItemData ItemOID=\"LIVE\"></ItemData>")), accepted(0));
}

#[test]
fn each_word() {
    let mut store = Store::with_item();
    let integer = |word: &str, oid: &str, body: &str| group("Context", &item("ItemDataInteger", word, oid, body));
    assert_eq!(store.import(integer("Update", "LIVE", "1")), accepted(1));
    assert_eq!(store.last_change(), (2, 5, b"1".to_vec()));
    assert_eq!(store.import(integer("Update", "NEW", "1")), refused(12));
    assert_eq!(store.import(integer("Context", "NEW", "1")), refused(12));
    assert_eq!(store.import(integer("Remove", "NEW", "1")), refused(12));
    assert_eq!(store.import(integer("Insert", "LIVE", "1")), refused(11));
    assert_eq!(store.import(integer("Upsert", "LIVE", "2")), accepted(1));
    assert_eq!(store.last_change(), (2, 5, b"2".to_vec()));
    assert_eq!(store.import(integer("Upsert", "NEW", "3")), accepted(1));
    assert_eq!(store.last_change(), (1, 5, b"3".to_vec()));
    assert_eq!(store.import(integer("Context", "NEW", "4")), accepted(0));
    assert_eq!(store.items(), ["<ItemData ItemOID=\"LIVE\" Value=\"2\"/>", "<ItemData ItemOID=\"NEW\" Value=\"3\"/>"]);
    assert_eq!(store.import(integer("Remove", "NEW", "4")), accepted(1));
    assert_eq!(store.last_change(), (3, 5, Vec::new()));
    assert_eq!(store.items(), ["<ItemData ItemOID=\"LIVE\" Value=\"2\"/>"]);
    assert_eq!(store.import(integer("Insert", "NEW", "5")), accepted(1));
    assert_eq!(store.last_change(), (1, 5, b"5".to_vec()));
    // The word of the parent, where there is none.
    assert_eq!(store.import(group("Update", "<ItemDataFloat ItemOID=\"NEW\">6.5</ItemDataFloat>")), accepted(1));
    assert_eq!(store.last_change(), (2, 5, b"6.5".to_vec()));
}

#[test]
fn a_remove_ends_its_typed_children_first() {
    let mut store = Store::with_item();
    assert_eq!(store.import(group("Remove", "<ItemDataString ItemOID=\"LIVE\">x</ItemDataString>")), accepted(5));
    let rows: Vec<(u32, u32)> = store.numbers[197 + 15..197 + 30].chunks(3).map(|row| (row[0], row[1])).collect();
    assert_eq!(rows, [(3, 5), (3, 4), (3, 3), (3, 2), (3, 1)]);
    let twice = "<ItemDataString ItemOID=\"LIVE\"/><ItemDataString ItemOID=\"LIVE\"></ItemDataString>";
    assert_eq!(Store::with_item().import(group("Remove", twice)), refused(12));
    for word in ["Insert", "Update", "Upsert", "Context"] {
        assert_eq!(Store::with_item().import(group("Remove", &item("ItemDataString", word, "LIVE", "x"))), refused(10));
    }
}

#[test]
fn under_context_and_remove_a_body_is_judged_for_form() {
    let long = "1".repeat(41);
    for word in ["Context", "Remove", "Insert", "Update", "Upsert"] {
        for oid in ["LIVE", "NEW"] {
            for (element, body, number) in [
                ("ItemDataInteger", "x", 7),
                ("ItemDataDate", "2014-02-29", 7),
                ("ItemDataString", &long, 7),
                ("ItemDataString", "a&b", 4),
                ("ItemDataString", "<![CDATA[a]]>b", 4),
                ("ItemDataString", "<Foo/>", 5),
            ] {
                assert_eq!(Store::with_item().import(group("Context", &item(element, word, oid, body))), refused(number), "{word} {oid} {body}");
            }
        }
    }
    let mut store = Store::with_item();
    assert_eq!(store.import(group("Context", &item("ItemDataInteger", "Context", "LIVE", "5"))), accepted(0));
    assert_eq!(store.items(), ["<ItemData ItemOID=\"LIVE\" Value=\"120\"/>"]);
}

#[test]
fn body_and_store_are_judged_at_the_closing_tag() {
    // Each item meets 11, 12 or 13 at its closing tag; what stands before it comes first.
    for (word, oid) in [("Insert", "LIVE"), ("Update", "NEW"), ("Remove", "NEW"), ("Context", "NEW")] {
        let number = if word == "Insert" { 11 } else { 12 };
        let open = format!("<ItemDataInteger ItemOID=\"{oid}\" TransactionType=\"{word}\">");
        for (rest, number) in [
            ("5</ItemDataInteger>", number),
            ("</ItemDataInteger>", number),
            ("x</ItemDataInteger>", 7),
            ("5</ItemDataFloat>", 4),
            ("5</ItemData>", 4),
            ("5</ItemGroupData>", 4),
            ("5</ItemDataInteger a=''>", 4),
            ("5</ItemDataInteger", 4),
            ("5", 4),
            ("5<Foo/></ItemDataInteger>", 5),
            ("x<Foo/></ItemDataInteger>", 5),
            ("x<Foo", 4),
            ("x&<Foo/>", 4),
            ("5</ItemDataInteger><Foo/>", number),
            ("5</ItemDataInteger> x", number),
        ] {
            assert_eq!(Store::with_item().import(group("Context", &format!("{open}{rest}"))), refused(number), "{word} {rest}");
        }
    }
    // The tag before, with its own faults, comes before the body.
    assert_eq!(Store::new().import(group("Insert", "<ItemDataInteger ItemOID=\"\">&</ItemDataInteger>")), refused(7));
    assert_eq!(Store::new().import(group("Insert", "<ItemDataInteger ItemOID=\"I\" Value=\"\">\n</ItemDataInteger>")), refused(6));
    assert_eq!(Store::with_item().import(group("Remove", &item("ItemDataInteger", "Update", "LIVE", "&"))), refused(10));
}

#[test]
fn self_closing_is_all_at_one_tag() {
    let tag = |rest: &str| group("Context", &format!("<ItemDataDate {rest}/>"));
    assert_eq!(Store::with_item().import(tag("ItemOID=\"LIVE\" TransactionType=\"Insert\"")), refused(11));
    assert_eq!(Store::with_item().import(tag("ItemOID=\"NEW\" TransactionType=\"Update\"")), refused(12));
    assert_eq!(Store::with_item().import(tag("ItemOID=\"NEW\" TransactionType=\"Remove\"")), refused(12));
    assert_eq!(Store::with_item().import(tag("ItemOID=\"NEW\" TransactionType=\"Insert\"")), accepted(1));
    assert_eq!(Store::with_item().import(tag("ItemOID=\"LIVE\" TransactionType=\"Remove\"")), accepted(1));
    assert_eq!(Store::with_item().import(tag("ItemOID=\"LIVE\" Value=\"1\" TransactionType=\"Insert\"")), refused(6));
    assert_eq!(Store::with_item().import(tag("ItemOID=\"LIVE\" ItemOID=\"\"")), refused(4));
}

#[test]
fn snapshots_stay_untyped_and_a_chain_restores() {
    let mut store = Store::with_item();
    let mut states = vec![store.clone()];
    let typed = ["a&lt;b", "-5", "1.50", "2012-02-29", "2012-02-29T09:00:00"];
    for (element, body) in TYPES.into_iter().zip(typed) {
        assert_eq!(store.import(group("Context", &item(element, "Insert", element, body))), accepted(1));
        states.push(store.clone());
        // The next file may be of the other sort.
        assert_eq!(store.import(group("Update", &format!("<ItemData ItemOID=\"LIVE\" Value=\"{}\"/>", states.len()))), accepted(1));
        states.push(store.clone());
    }
    let text = store.snapshot();
    assert_eq!(
        store.items(),
        [
            "<ItemData ItemOID=\"ItemDataDate\" Value=\"2012-02-29\"/>",
            "<ItemData ItemOID=\"ItemDataDatetime\" Value=\"2012-02-29T09:00:00\"/>",
            "<ItemData ItemOID=\"ItemDataFloat\" Value=\"1.50\"/>",
            "<ItemData ItemOID=\"ItemDataInteger\" Value=\"-5\"/>",
            "<ItemData ItemOID=\"ItemDataString\" Value=\"a&lt;b\"/>",
            "<ItemData ItemOID=\"LIVE\" Value=\"10\"/>",
        ]
    );
    let mut again = Store::new();
    assert_eq!(again.import_file(text.as_bytes()), accepted(10));
    assert_eq!(again.snapshot(), text);
    for n in (1..states.len()).rev() {
        assert!(store == states[n]);
        let oid = format!("F{}", n + 1);
        assert_eq!(withdraw(&mut store.numbers, &mut store.bytes, oid.as_bytes()), accepted(1));
    }
    assert!(store == states[0]);
}

#[test]
fn a_body_holds_bytes_from_32_to_126() {
    for byte in 0..=255u8 {
        let text = insert("ItemDataString", [byte]);
        let section = insert("ItemDataString", [&b"<![CDATA["[..], &[byte], b"]]>"].concat());
        let value = Ok(vec![byte]);
        let printable = (32..=126).contains(&byte);
        assert_eq!(text, if printable && !b"<&".contains(&byte) { value.clone() } else { Err(4) }, "{byte}");
        assert_eq!(section, if printable { value } else { Err(4) }, "{byte}");
        // Behind a run that is skipped in blocks.
        let mut long = vec![b'1'; 100];
        long[77] = byte;
        assert_eq!(insert("ItemDataString", &long).err(), Some(if printable && !b"<&".contains(&byte) { 7 } else { 4 }), "{byte}");
        let long = [b"<![CDATA[", &long[..], b"]]>"].concat();
        assert_eq!(insert("ItemDataString", &long).err(), Some(if printable { 7 } else { 4 }), "{byte}");
    }
}

#[test]
fn a_body_is_not_trimmed() {
    for value in [" ", "  ", " a", "a ", " a b "] {
        assert_taken("ItemDataString", value, value);
        assert_taken("ItemDataString", &format!("<![CDATA[{value}]]>"), value);
    }
    for element in &TYPES[1..] {
        assert_refused(element, " ", 7);
        assert_refused(element, "<![CDATA[ ]]>", 7);
    }
    for element in TYPES {
        for space in ["\t", "\n", "\r", "\r\n", "1\n", "\n1", "\n<![CDATA[1]]>\n", "<![CDATA[\n]]>", "<![CDATA[1\t]]>"] {
            assert_refused(element, space, 4);
        }
    }
}

#[test]
fn the_end_of_a_section_stands_in_no_text() {
    for raw in ["]]>", "a]]>", "]]>a", "]]]>", "]]]]>", "&lt;]]>", "1]]>2]]>", "]]>&gt;"] {
        assert_refused("ItemDataString", raw, 4);
    }
    assert_refused("ItemDataString", &format!("{}]]>", "]".repeat(200)), 4);
    for (body, value) in
        [("]]&gt;", "]]>"), ("]] >", "]] >"), ("]>", "]>"), ("]]", "]]"), (">", ">"), (">]]", ">]]"), ("]&gt;]&gt;", "]>]>"), ("&gt;]]", ">]]")]
    {
        assert_taken("ItemDataString", body, value);
    }
    // Brackets of the tag before do not count.
    assert_taken("ItemDataString", ">>", ">>");
}

#[test]
fn no_ampersand_but_the_five() {
    for bad in ["&", "a&b", "&;", "&lt", "&LT;", "&bad;", "&#65;", "&#x41;", "&amp", "&nbsp;", "& lt;", "&lt ;", "&l<Foo/>"] {
        assert_refused("ItemDataString", bad, 4);
    }
}

#[test]
fn a_section_stands_alone() {
    for beside in ["a", " ", "\n", "\t", "&amp;", "]]>", "<![CDATA[]]>", "<![CDATA[a]]>", "<!-- -->"] {
        for section in ["<![CDATA[]]>", "<![CDATA[a]]>"] {
            assert_refused("ItemDataString", &format!("{section}{beside}"), 4);
            assert_refused("ItemDataString", &format!("{beside}{section}"), 4);
        }
    }
}

#[test]
fn a_child_is_5_and_text_before_it_is_judged_with_it() {
    let long = "1".repeat(41);
    let items = ["<ItemDataString ItemOID=\"A\"/>", "<ItemData ItemOID=\"A\"/>"];
    for child in ["<Foo/>", "<Foo>", "<AuditRecord/>", "<AuditRecord>", "<ODM/>", "<Foo a=''/>"].into_iter().chain(items) {
        for before in ["", " ", "a", "]]&gt;", "<![CDATA[a]]>", "<![CDATA[]]>", &long] {
            for element in TYPES {
                assert_refused(element, &format!("{before}{child}"), 5);
            }
        }
        for before in ["a&b", "\n", "\t", "]]>", "\u{e9}", "<![CDATA[a]]> ", "<![CDATA[\n]]>", "a<![CDATA[]]>"] {
            assert_refused("ItemDataString", &format!("{before}{child}"), 4);
        }
    }
    for broken in ["<Foo a='' a=''/>", "<Foo a/>", "< Foo/>", "<1/>", "<Foo", "</Foo>", "</ItemData>"] {
        assert_refused("ItemDataString", broken, 4);
    }
}

#[test]
fn lengths_are_of_decoded_bytes() {
    let taken = |text: String| insert("ItemDataString", text).map(|value| value.len());
    assert_eq!(taken("1".repeat(40)), Ok(40));
    assert_eq!(taken("1".repeat(41)), Err(7));
    assert_eq!(taken("&quot;".repeat(40)), Ok(40));
    assert_eq!(taken("&quot;".repeat(41)), Err(7));
    assert_eq!(taken("1".repeat(39) + "&lt;"), Ok(40));
    assert_eq!(taken("1".repeat(40) + "&lt;"), Err(7));
    assert_eq!(taken(format!("<![CDATA[{}]]>", "1".repeat(40))), Ok(40));
    assert_eq!(taken(format!("<![CDATA[{}]]>", "1".repeat(41))), Err(7));
    assert_eq!(taken(format!("<![CDATA[{}]]>", "&lt;".repeat(10))), Ok(40));
    assert_eq!(taken(format!("<![CDATA[{}]]>", "&lt;".repeat(11))), Err(7));
    for element in ["ItemDataInteger", "ItemDataFloat"] {
        assert_eq!(insert(element, "1".repeat(40)).map(|value| value.len()), Ok(40));
        assert_eq!(insert(element, "1".repeat(41)), Err(7));
    }
}

#[test]
fn sorts_do_not_mix_in_a_file() {
    let untyped = |word: &str| format!("<ItemData ItemOID=\"LIVE\" TransactionType=\"{word}\"/>");
    for element in TYPES {
        let typed = |word: &str| format!("<{element} ItemOID=\"LIVE\" TransactionType=\"{word}\"/>");
        for first in ["Context", "Update", "Upsert", "Remove"] {
            for second in ["Insert", "Update", "Upsert", "Remove", "Context"] {
                assert_eq!(Store::with_item().import(group("Context", &(untyped(first) + &typed(second)))), refused(16));
                assert_eq!(Store::with_item().import(group("Context", &(typed(first) + &untyped(second)))), refused(16));
            }
        }
        // In another group, and in another ClinicalData.
        let far = group("Context", &untyped("Context")) + "</ClinicalData><ClinicalData StudyOID=\"ST\" MetaDataVersionOID=\"V1\">";
        assert_eq!(Store::with_item().import(far.clone() + &group("Upsert", &typed("Update"))), refused(16));
        assert_eq!(Store::with_item().import(far + &group("Upsert", &untyped("Update").replace("/>", " Value=\"1\"/>"))), accepted(1));
        // At the opening tag, whatever the body is.
        let open = format!("{}<{element} ItemOID=\"LIVE\">", untyped("Context"));
        for rest in ["", "\n", "&", "<Foo/>", "</Foo>"] {
            assert_eq!(Store::with_item().import(group("Context", &(open.clone() + rest))), refused(16));
        }
    }
    // Types are no mixture, and each file has its own sort.
    let all: String = TYPES.iter().map(|element| format!("<{element} ItemOID=\"{element}\"/>")).collect();
    let mut store = Store::with_item();
    assert_eq!(store.import(group("Upsert", &all)), accepted(5));
    assert_eq!(store.import(group("Context", &untyped("Update").replace("/>", " IsNull=\"Yes\"/>"))), accepted(1));
    assert_eq!(store.import(group("Update", &all)), accepted(5));
}

#[test]
fn sixteen_stands_between_6_and_7() {
    let cases = [
        // Untyped first, then a typed item with another fault.
        ("<ItemDataDate ItemOID=\"LIVE\" ItemOID=\"LIVE\"/>", 4),
        ("x<ItemDataDate ItemOID=\"LIVE\"/>", 4),
        ("<ItemDataDay ItemOID=\"LIVE\"/>", 5),
        ("<ItemDataDate ItemOID=\"LIVE\" Value=\"\"/>", 6),
        ("<ItemDataDate/>", 6),
        ("<ItemDataDate ItemOID=\"\"/>", 16),
        ("<ItemDataDate ItemOID=\"LIVE\" TransactionType=\"No\"/>", 16),
        ("<ItemDataDate ItemOID=\"LIVE\" TransactionType=\"Insert\"/>", 16),
        ("<ItemDataDate ItemOID=\"NEW\" TransactionType=\"Update\"/>", 16),
        ("<ItemDataDate ItemOID=\"LIVE\">x</ItemDataDate>", 16),
    ];
    for (second, number) in cases {
        assert_eq!(Store::with_item().import(group("Context", &format!("<ItemData ItemOID=\"LIVE\"/>{second}"))), refused(number), "{second}");
    }
    let cases = [
        ("<ItemData ItemOID=\"LIVE\" a=\"&\"/>", 4),
        ("<ItemData ItemOID=\"LIVE\" Sex=\"F\"/>", 6),
        ("<ItemData ItemOID=\"LIVE\" Value=\"1\" IsNull=\"Yes\"/>", 16),
        ("<ItemData ItemOID=\"LIVE\" IsNull=\"No\"/>", 16),
        ("<ItemData ItemOID=\"LIVE\" TransactionType=\"Insert\"/>", 16),
    ];
    for (second, number) in cases {
        assert_eq!(Store::with_item().import(group("Context", &format!("<ItemDataDate ItemOID=\"LIVE\"/>{second}"))), refused(number), "{second}");
    }
    // 16 before 10, under Remove and in a Snapshot.
    let under = "<ItemData ItemOID=\"LIVE\"/><ItemDataDate ItemOID=\"LIVE\" TransactionType=\"Update\"/>";
    assert_eq!(Store::with_item().import(group("Remove", under)), refused(16));
}

#[test]
fn typed_items_in_a_snapshot_file() {
    let file = |items: &str| {
        let body = group("Insert", items).replace(" TransactionType=\"Insert\"", "");
        format!("{HEAD}{body}{TAIL}").replace("Transactional", "Snapshot").into_bytes()
    };
    let items = "<ItemDataString ItemOID=\"A\">a</ItemDataString><ItemDataFloat ItemOID=\"B\"/>";
    let mut store = Store::new();
    assert_eq!(store.import_file(&file(items)), accepted(6));
    assert_eq!(store.items(), ["<ItemData ItemOID=\"A\" Value=\"a\"/>", "<ItemData ItemOID=\"B\" IsNull=\"Yes\"/>"]);
    for word in ["Update", "Upsert", "Remove", "Context"] {
        for rest in ["/>", ">a</ItemDataString>"] {
            assert_eq!(Store::new().import_file(&file(&format!("<ItemDataString ItemOID=\"A\" TransactionType=\"{word}\"{rest}"))), refused(10));
        }
    }
    assert_eq!(Store::new().import_file(&file(&items.replace("\"B\"", "\"A\""))), refused(11));
    assert_eq!(Store::new().import_file(&file(&items.replace("ItemDataFloat", "ItemData"))), refused(16));
    assert_eq!(Store::new().import_file(&file(&items.replace(">a<", ">\n<"))), refused(4));
}

#[test]
fn an_audit_record_is_a_child() {
    assert_refused("ItemDataString", "<AuditRecord></AuditRecord>", 5);
    assert_refused("ItemDataString", "x<AuditRecord/>", 5);
    assert_refused("ItemDataString", " <AuditRecord/>", 5);
    assert_refused("ItemDataString", "\n<AuditRecord/>", 4);
}

#[test]
fn a_file_that_ends_in_a_body() {
    let text = Store::new().head() + &group("Insert", "<ItemDataString ItemOID=\"I\">|</ItemDataString>");
    let (before, _) = text.split_once('|').unwrap();
    for rest in ["", "a", "&lt", "&lt;", "<", "a</", "a</ItemDataString", "<![CDATA[", "<![CDATA[a", "<![CDATA[a]]", "<![CDATA[a]]>", "\n"] {
        assert_eq!(Store::new().import_file(format!("{before}{rest}").as_bytes()), refused(4), "{rest}");
    }
}

#[test]
fn limits_at_the_closing_tag() {
    // 512 live: the four around the items and 508 of them.
    let items: String = (0..508).map(|n| format!("<ItemDataInteger ItemOID=\"{n}\">{n}</ItemDataInteger>")).collect();
    let one = |word: &str, body: &str| item("ItemDataInteger", word, "new", body);
    let mut store = Store::new();
    assert_eq!(store.import(group("Insert", &(items.clone() + &one("Insert", "1")))), refused(13));
    assert_eq!(store.import(group("Insert", &items)), accepted(512));
    assert_eq!(store.import(group("Context", &one("Insert", "1"))), refused(13));
    assert_eq!(store.import(group("Context", &one("Insert", "x"))), refused(7));
    assert_eq!(store.import(group("Context", &one("Insert", "<Foo/>"))), refused(5));
    assert_eq!(store.import(group("Context", "<ItemDataInteger ItemOID=\"new\" TransactionType=\"Insert\"/>")), refused(13));
    let swap = item("ItemDataInteger", "Remove", "0", "") + &one("Insert", "1");
    assert_eq!(store.import(group("Context", &swap)), accepted(2));
    // 2,048 changes.
    let writes = |count: usize| item("ItemDataInteger", "Update", "1", "5").repeat(count);
    assert_eq!(store.import(group("Context", &writes(2_048 - 514 + 1))), refused(13));
    assert_eq!(store.import(group("Context", &writes(2_048 - 514))), accepted(2_048 - 514));
    for (word, body, number) in [
        ("Update", "5", 13), ("Update", "", 13), ("Update", "x", 7), ("Upsert", "5", 13), ("Remove", "5", 13), ("Remove", "x", 7),
        ("Insert", "5", 11), ("Context", "5", 0),
    ] {
        assert_eq!(store.import(group("Context", &item("ItemDataInteger", word, "1", body))).refusal, number, "{word} {body}");
    }
}

#[test]
fn change_bytes_count_the_decoded_value() {
    let mut store = Store::new();
    assert_eq!(store.import(group("Insert", "<ItemDataString ItemOID=\"I\"/>")), accepted(5));
    let used = store.numbers[2] as usize;
    let key = {
        let row = 197 + 3 * 4;
        (store.numbers[row + 2] - store.numbers[row - 1]) as usize
    };
    let write = |len: usize| item("ItemDataString", "Update", "I", &"&lt;".repeat(len));
    let count = (49_152 - used) / (key + 40);
    let left = 49_152 - used - count * (key + 40);
    // The bytes that are left and those of one more change make two, both shorter.
    let last = left + (key + 40);
    let (one, two) = (last / 2 - key, last - last / 2 - key);
    assert!(one < 40 && two < 40);
    let file = |more: usize| group("Context", &(write(40).repeat(count - 1) + &write(one) + &write(two + more)));
    assert_eq!(store.import(file(1)), refused(13));
    assert_eq!(store.import(file(0)).refusal, 0);
    assert_eq!(store.numbers[2], 49_152);
    assert_eq!(store.import(group("Context", &item("ItemDataString", "Update", "I", ""))), refused(13));
}

/// As long as a file may be: one item with the filling as often as it fits.
fn stuffed(start: &str, filling: &str, end: &str) -> Vec<u8> {
    let text = Store::new().head() + &group("Insert", &format!("<ItemDataString ItemOID=\"I\">{start}|{end}</ItemDataString>")) + TAIL;
    let (before, behind) = text.split_once('|').unwrap();
    let times = (FILE_LEN - before.len() - behind.len()) / filling.len();
    let mut file = format!("{before}{}{behind}", filling.repeat(times)).into_bytes();
    file.resize(FILE_LEN, b' ');
    file
}

#[test]
fn longest_files_with_one_body() {
    let cases = [
        ("", "a", "", 7), ("", "&amp;", "", 7), ("", "]]", "", 7), ("", ">", "", 7), ("", "]>", "", 7),
        ("", "]]", ">", 4), ("", "a", "&", 4), ("", "a", "<Foo/>", 5), ("", "<![CDATA[", "", 4), ("", "<![CDATA[]]>", "", 4),
        ("<![CDATA[", "a", "]]>", 7), ("<![CDATA[", "]]", "]]>", 7), ("<![CDATA[", "]>", "]]>", 7), ("<![CDATA[", ">", "]]>", 7),
        ("<![CDATA[", "]]&gt;", "]]>", 7), ("<![CDATA[", "]]", "", 4), ("<![CDATA[", "a", "", 4),
    ];
    for (start, filling, end, number) in cases {
        let mut file = stuffed(start, filling, end);
        assert_eq!(Store::new().import_file(&file), refused(number), "{start} {filling} {end}");
        file.push(b' ');
        assert_eq!(Store::new().import_file(&file), refused(3));
    }
    let mut good = (Store::new().head() + &group("Insert", "<ItemDataString ItemOID=\"I\">a</ItemDataString>") + TAIL).into_bytes();
    good.resize(FILE_LEN, b'\n');
    assert_eq!(Store::new().import_file(&good), accepted(5));
}

#[test]
fn the_program_takes_typed_items() {
    let file = HEAD.to_string() + &group("Insert", "<ItemDataDate ItemOID=\"D\">2012-02-29</ItemDataDate>") + TAIL;
    let printed = String::from_utf8(run_program(file.as_bytes())).unwrap();
    assert!(printed.starts_with("accepted 5\n") && printed.contains("\n<ItemData ItemOID=\"D\" Value=\"2012-02-29\"/>\n"), "{printed}");
    let mixed = file.replace("</ItemDataDate>", "</ItemDataDate><ItemData ItemOID=\"E\"/>");
    assert_eq!(run_program(mixed.as_bytes()), b"refused 16\n");
}

/// Always the same numbers.
struct Random(u64);

impl Random {
    fn below(&mut self, most: usize) -> usize {
        self.0 = self.0.wrapping_mul(6_364_136_223_846_793_005).wrapping_add(1_442_695_040_888_963_407);
        (self.0 >> 33) as usize % most
    }
}

const PIECES: [&str; 45] = [
    "a", "1", "5", "-", ".", " ", "]", "]]", "]]>", ">", "&lt;", "&gt;", "&amp;", "&quot;", "&apos;", "&", ";", "&#65;", "\n", "\t", "\u{7f}", "\u{80}",
    "<![CDATA[", "<![CDATA[]]>", "<![CDATA[1]]>", "2012-02-29", "2014-02-29", "T09:00:00", "T24:00:00", "0", "00", "12", "\"", "'", "<Foo/>", "<Foo>",
    "<Foo a='1' b=\"]]>\"/>", "</ItemDataString>", "</ItemDataFloat>", "</Foo>", "<", "[", "!", "/",
    "2012-02-29T09:00:00",
];

/// A few pieces, mostly few; now and then a run that is read in blocks.
fn random_body(random: &mut Random) -> Vec<u8> {
    let mut body = String::new();
    for _ in 0..random.below(5) {
        let piece = match random.below(3) {
            // Those that a number or a date may have come more often.
            0 => PIECES[[1, 2, 3, 4, 25, 44, 29, 31][random.below(8)]],
            _ => PIECES[random.below(PIECES.len())],
        };
        let times = if random.below(12) == 0 { 1 + random.below(70) } else { 1 };
        body += &piece.repeat(times);
    }
    if random.below(4) == 0 {
        body = format!("<![CDATA[{body}]]>");
    }
    body.chars().map(|sign| sign as u8).collect()
}

/// The tag behind a body: whether it opens, and its name. The pieces hold no broken ones but those that begin with no letter.
fn tag_behind(text: &[u8]) -> Option<(bool, String)> {
    let inside = text.strip_prefix(b"<")?;
    let (opens, inside) = inside.strip_prefix(b"/").map_or((true, inside), |inside| (false, inside));
    let len = inside.iter().take_while(|byte| byte.is_ascii_alphanumeric()).count();
    let starts = inside.first().is_some_and(u8::is_ascii_alphabetic);
    let rest = &inside[len..];
    let whole = rest.starts_with(b">") || opens && (rest.starts_with(b"/>") || rest.starts_with(b" a='1' b=\"]]>\"/>"));
    (starts && whole).then(|| (opens, String::from_utf8(inside[..len].to_vec()).unwrap()))
}

/// What a body and the tags behind it are answered by the slow reading: the value, if the item's own closing tag follows the body and
/// the group's follows that.
fn slow_answer(element: &str, body: &[u8]) -> Result<Vec<u8>, u32> {
    let text = [body, format!("</{element}>{GROUP_END}").as_bytes()].concat();
    let (value, rest) = slow::body(&text).ok_or(4u32)?;
    let (opens, name) = tag_behind(rest).ok_or(4u32)?;
    if opens {
        return Err(5);
    }
    if name != element {
        return Err(4);
    }
    if !slow::fits(element, &value) {
        return Err(7);
    }
    // A body of pieces may close the item itself; then its second closing tag, or what stands before it, is one too many.
    let behind = &rest[name.len() + 3..];
    match behind == GROUP_END.as_bytes() {
        true => Ok(value),
        false => match tag_behind(&behind[behind.iter().take_while(|byte| b" \n\t".contains(byte)).count()..]) {
            Some((true, _)) => Err(5),
            _ => Err(4),
        },
    }
}

#[test]
fn random_bodies_agree_with_a_slow_reading() {
    let mut random = Random(7);
    let mut seen = std::collections::BTreeMap::new();
    for _ in 0..40_000 {
        let element = TYPES[random.below(5)];
        let body = random_body(&mut random);
        let answer = insert(element, &body);
        assert_eq!(answer, slow_answer(element, &body), "{element} {}", String::from_utf8_lossy(&body));
        let number = answer.map_or_else(|number| number, |value| u32::from(value.is_empty()));
        *seen.entry((element, number)).or_insert(0) += 1;
    }
    // Each type has values (0), nulls (1), and each number that a body can be answered.
    let all: Vec<(&str, u32)> = TYPES.iter().flat_map(|element| [0, 1, 4, 5, 7].map(|number| (*element, number))).collect();
    assert!(all.iter().all(|pair| seen.get(pair).is_some_and(|&times| times > 20)) && seen.len() == all.len(), "{seen:?}");
}
