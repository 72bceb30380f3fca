//! Document 01's own examples, each refusal, each limit.

use store::{import, open, run_program, snapshot, withdraw, Answer, BYTES_LEN, FILE_LEN, NUMBERS_LEN, SNAPSHOT_LEN};

const HEAD: &str = "<ODM xmlns=\"http://www.cdisc.org/ns/odm/v1.3\" FileType=\"Transactional\" FileOID=\"F1\" \
                    CreationDateTime=\"2014-03-01T09:00:00\" ODMVersion=\"1.3.2\">";
const CLINICAL: &str = "<ClinicalData StudyOID=\"ST\" MetaDataVersionOID=\"V1\">";
const TAIL: &str = "</ClinicalData></ODM>";
const DATE: &[u8] = b"2014-03-02T09:00:00";

#[derive(Clone, PartialEq)]
struct Store {
    numbers: Vec<u32>,
    bytes: Vec<u8>,
}

impl Store {
    fn new() -> Store {
        let mut store = Store { numbers: vec![7; NUMBERS_LEN], bytes: vec![7; BYTES_LEN] };
        assert_eq!(open(&mut store.numbers, &mut store.bytes, b"ST", b"V1"), accepted(0));
        store
    }

    /// Imports; a refusal has to leave both buffers as they were.
    fn import(&mut self, file: impl AsRef<[u8]>) -> Answer {
        let before = self.clone();
        let answer = import(&mut self.numbers, &mut self.bytes, file.as_ref());
        assert!(answer.refusal == 0 || *self == before, "refusal changed the store");
        answer
    }

    fn withdraw(&mut self, oid: &str) -> Answer {
        let before = self.clone();
        let answer = withdraw(&mut self.numbers, &mut self.bytes, oid.as_bytes());
        assert!(answer.refusal == 0 || *self == before, "refusal changed the store");
        answer
    }

    fn snapshot(&self) -> String {
        let mut output = vec![0xAA; SNAPSHOT_LEN];
        let answer = snapshot(&self.numbers, &self.bytes, b"S1", DATE, &mut output);
        assert_eq!(answer.refusal, 0);
        let (text, rest) = output.split_at(answer.count as usize);
        assert!(rest.iter().all(|&byte| byte == 0xAA));
        String::from_utf8(text.to_vec()).unwrap()
    }

    /// The element lines of the snapshot between the ClinicalData tags.
    fn lines(&self) -> Vec<String> {
        let text = self.snapshot();
        let lines: Vec<String> = text.lines().map(str::to_string).collect();
        lines[3..lines.len() - 2].to_vec()
    }
}

fn accepted(count: u32) -> Answer {
    Answer { refusal: 0, count }
}

fn refused(refusal: u32) -> Answer {
    Answer { refusal, count: 0 }
}

/// The first file of a store.
fn first(body: &str) -> String {
    format!("{HEAD}{CLINICAL}{body}{TAIL}")
}

/// File number `n` (from 1) of a series F1, F2, and so on.
fn file(n: usize, body: &str) -> String {
    let prior = if n > 1 { format!(" PriorFileOID=\"F{}\"", n - 1) } else { String::new() };
    first(body).replace("FileOID=\"F1\"", &format!("FileOID=\"F{n}\"{prior}"))
}

fn item(word: &str, rest: &str) -> String {
    nest(word, &format!("<ItemData ItemOID=\"SYS\" {rest}/>"))
}

fn nest(word: &str, items: &str) -> String {
    format!(
        "<SubjectData SubjectKey=\"7\" TransactionType=\"{word}\"><StudyEventData StudyEventOID=\"SCR\">\
         <FormData FormOID=\"VS\"><ItemGroupData ItemGroupOID=\"BP\">{items}</ItemGroupData></FormData>\
         </StudyEventData></SubjectData>"
    )
}

/// A store with item 7/SCR/VS/BP/SYS = 120.
fn with_item() -> Store {
    let mut store = Store::new();
    assert_eq!(store.import(file(1, &item("Insert", "Value=\"120\""))), accepted(5));
    store
}

fn subject(key: &str, word: &str) -> String {
    format!("<SubjectData SubjectKey=\"{key}\" TransactionType=\"{word}\"/>")
}

#[test]
fn example_a_takes_22_bytes() {
    let store = with_item();
    let ends: Vec<u32> = (0..5).map(|change| store.numbers[197 + 3 * change + 2]).collect();
    assert_eq!(ends[4] - ends[3], 22);
    assert_eq!(&store.bytes[5440 + ends[3] as usize..][..22], b"\x017\x03SCR\0\x02VS\0\x02BP\0\x03SYS120");
    assert_eq!(&store.numbers[..5], [1, 5, ends[4], 2, 2]);
    assert_eq!(&store.numbers[5..9], [2, 5, ends[4], 0]);
    assert_eq!(&store.bytes[128..130], b"F1");
    assert_eq!(&store.bytes[192..211], b"2014-03-01T09:00:00");
}

#[test]
fn example_b_insert_twice() {
    let mut store = Store::new();
    assert_eq!(store.import(first(&(subject("7", "Insert") + &subject("7", "Insert")))), refused(11));
    assert_eq!(with_item().import(file(2, &subject("7", "Insert"))), refused(11));
}

#[test]
fn example_c_remove_then_insert() {
    let mut store = with_item();
    let body = subject("7", "Remove") + &subject("7", "Insert");
    assert_eq!(store.import(file(2, &body)), accepted(2));
    assert_eq!(store.lines(), ["<SubjectData SubjectKey=\"7\">", "</SubjectData>"]);
}

#[test]
fn example_d_update_below_a_removed_form() {
    let mut store = with_item();
    let remove = "<SubjectData SubjectKey=\"7\" TransactionType=\"Context\"><StudyEventData StudyEventOID=\"SCR\">\
                  <FormData FormOID=\"VS\" TransactionType=\"Remove\"/></StudyEventData></SubjectData>";
    assert_eq!(store.import(file(2, remove)), accepted(1));
    assert_eq!(store.import(file(3, &item("Update", "Value=\"1\""))), refused(12));
    let again = "<SubjectData SubjectKey=\"7\" TransactionType=\"Context\"><StudyEventData StudyEventOID=\"SCR\">\
                 <FormData FormOID=\"VS\" TransactionType=\"Insert\"/></StudyEventData></SubjectData>";
    assert_eq!(store.import(file(3, again)), accepted(1));
    assert!(!store.snapshot().contains("SYS"), "a form made again shows its old items");
}

#[test]
fn examples_e_f_g_values() {
    let mut store = with_item();
    assert_eq!(store.import(file(2, &item("Upsert", "Value=\"130\""))), accepted(1));
    assert!(store.snapshot().contains("<ItemData ItemOID=\"SYS\" Value=\"130\"/>\n"));
    assert_eq!(store.import(file(3, &item("Update", ""))), accepted(0));
    assert!(store.snapshot().contains("Value=\"130\""));
    assert_eq!(store.import(file(4, &item("Update", "Value=\"\""))), accepted(1));
    assert!(store.snapshot().contains("<ItemData ItemOID=\"SYS\" IsNull=\"Yes\"/>\n"));
    assert_eq!(store.import(file(5, &item("Upsert", ""))), accepted(0));
    assert_eq!(store.import(file(6, &item("Update", "IsNull=\"Yes\""))), accepted(1));
    assert_eq!(store.import(file(7, &item("Context", "Value=\"9\""))), accepted(0));
    assert!(store.snapshot().contains("IsNull=\"Yes\""));
}

#[test]
fn example_h_context_of_an_absent_subject() {
    assert_eq!(Store::new().import(first(&subject("7", "Context"))), refused(12));
}

#[test]
fn example_i_names_of_sixteen() {
    assert_eq!(Store::new().import(first(&subject(&"a".repeat(16), "Insert"))), accepted(1));
    assert_eq!(Store::new().import(first(&subject(&"a".repeat(17), "Insert"))), refused(7));
}

#[test]
fn example_j_leap_days() {
    let dated = |date: &str| first("").replace("2014-03-01T09:00:00", date);
    assert_eq!(Store::new().import(dated("2012-02-29T09:00:00")), accepted(0));
    assert_eq!(Store::new().import(dated("2014-02-29T09:00:00")), refused(7));
}

#[test]
fn example_k_absent_repeat_key_first() {
    let mut store = Store::new();
    let event = |rest: &str| format!("<StudyEventData StudyEventOID=\"E\"{rest}/>");
    let key = |key: &str| event(&format!(" StudyEventRepeatKey=\"{key}\""));
    let events = [key("9"), key("10"), event(""), key("1")].concat();
    let body = format!("<SubjectData SubjectKey=\"7\" TransactionType=\"Insert\">{events}</SubjectData>");
    assert_eq!(store.import(first(&body)), accepted(5));
    let keys: Vec<String> = store.lines().into_iter().filter(|line| line.starts_with("<StudyEventData")).collect();
    let wanted = [event(""), key("1"), key("10"), key("9")].map(|line| line.replace("/>", ">"));
    assert_eq!(keys, wanted);
}

#[test]
fn worked_program() {
    let input = first(&subject("7", "Insert"));
    let output = "accepted 1\n\
        <?xml version=\"1.0\" encoding=\"UTF-8\"?>\n\
        <ODM xmlns=\"http://www.cdisc.org/ns/odm/v1.3\" FileType=\"Snapshot\" FileOID=\"S1\" CreationDateTime=\"2014-03-02T09:00:00\" ODMVersion=\"1.3.2\">\n\
        <ClinicalData StudyOID=\"ST\" MetaDataVersionOID=\"V1\">\n\
        <SubjectData SubjectKey=\"7\">\n</SubjectData>\n</ClinicalData>\n</ODM>\n";
    assert_eq!(String::from_utf8(run_program(input.as_bytes())).unwrap(), output);
    assert_eq!(run_program(b""), b"refused 4\n");
    assert_eq!(run_program(&[b' '; 65_537]), b"refused 3\n");
    assert_eq!(run_program(&[b' '; 65_536]), b"refused 4\n");
}

#[test]
fn program_with_a_long_snapshot() {
    // 40 quotes are 40 bytes in single quotes of the file, and 240 in the snapshot.
    let items: String = (0..300).map(|n| format!("<ItemData ItemOID=\"I{n}\" Value='{}'/>", "\"".repeat(40))).collect();
    let printed = run_program(first(&nest("Insert", &items)).as_bytes());
    assert_eq!(String::from_utf8(printed).unwrap(), "accepted 304\nrefused 14\n");
}

#[test]
fn refusals_1_and_2() {
    let mut store = with_item();
    for (numbers, bytes) in [(6_340, BYTES_LEN), (6_342, BYTES_LEN), (NUMBERS_LEN, 54_591), (0, 0)] {
        let (mut numbers, mut bytes) = (vec![0; numbers], vec![0; bytes]);
        assert_eq!(open(&mut numbers, &mut bytes, b"", b"V1"), refused(1));
        assert_eq!(import(&mut numbers, &mut bytes, b""), refused(1));
        assert_eq!(withdraw(&mut numbers, &mut bytes, b""), refused(1));
        assert_eq!(snapshot(&numbers, &bytes, b"", b"", &mut []), refused(1));
    }
    let good = store.clone();
    let damages: [(usize, u32); 14] = [
        (0, 65), (0, 0), (0, 2), (1, 4), (1, 2_049), (2, 0), (3, 0), (3, 65), (4, 1), (5, 3), (6, 4), (7, 1), (8, 1), (6_340, 1),
    ];
    for (at, value) in damages {
        store.numbers[at] = value;
        assert_eq!(store.import(""), refused(2), "number {at}");
        store = good.clone();
    }
    for row in [[4, 1], [1, 2], [2, 1], [3, 1], [0, 1]] {
        store.numbers[197..199].copy_from_slice(&row);
        assert_eq!(store.withdraw("F1"), refused(2));
        store = good.clone();
    }
    let damages: [(usize, u8); 9] =
        [(2, b'A'), (0, b'<'), (64, 0), (128, 0), (130, 1), (192, b'x'), (54_591, 1), (5_440, 17), (5_441, b' ')];
    for (at, value) in damages {
        store.bytes[at] = value;
        assert_eq!(store.import(""), refused(2), "byte {at}");
        store = good.clone();
    }
    let mut zero = Store { numbers: vec![0; NUMBERS_LEN], bytes: vec![0; BYTES_LEN] };
    assert_eq!(zero.import(""), refused(2));
}

#[test]
fn padding_does_not_pass_for_a_name() {
    // The second subject's name is "A" and a zero byte where the first is "A".
    let mut store = Store::new();
    let body = subject("A", "Insert") + "<SubjectData SubjectKey=\"A\" TransactionType=\"Context\">\
        <StudyEventData StudyEventOID=\"EE\" TransactionType=\"Insert\"/></SubjectData>";
    assert_eq!(store.import(first(&body)), accepted(2));
    let good = store.clone();
    assert_eq!(&store.bytes[5440..5448], b"\x01A\x01A\x02EE\0");
    store.bytes[5442..5448].copy_from_slice(b"\x02A\0\x01E\0");
    assert_eq!(store.withdraw("F1"), refused(2));
    store = good;
    assert_eq!(store.withdraw("F1"), accepted(2));
}

#[test]
fn refusal_3_and_the_longest_file() {
    let mut text = first(&subject("7", "Insert")).into_bytes();
    text.resize(FILE_LEN, b'\n');
    assert_eq!(Store::new().import(&text), accepted(1));
    text.push(b'\n');
    assert_eq!(Store::new().import(&text), refused(3));
}

#[test]
fn refusal_4_written_form() {
    let good = first(&subject("7", "Insert"));
    let declared = |text: &str| format!("<?xml version=\"1.0\" encoding=\"UTF-8\"?>{text}");
    for taken in [
        declared(&good),
        declared(&format!("\r\n\t {good}\n")),
        good.replace("<ODM ", "<ODM\n\t"),
        good.replace("xmlns=", "xmlns \n = "),
        good.replace("</ODM>", "</ODM \n>"),
        good.replace("\"/>", "\" />"),
        good.replace("\"7\"", "'7'"),
        good.replace("/></ClinicalData>", "> </SubjectData></ClinicalData>"),
    ] {
        assert_eq!(Store::new().import(&taken), accepted(1), "{taken}");
    }
    let mut faults = vec![
        String::new(),
        " \n".into(),
        declared(""),
        format!(" {}", declared(&good)),
        format!("{good}x"),
        format!("{good}{good}"),
        format!("{good}<!-- -->"),
        format!("x{good}"),
        format!("<?xml version='1.0' encoding=\"UTF-8\"?>{good}"),
        "</ODM>".into(),
        "<".into(),
        "<ODM".into(),
        "<1ODM>".into(),
        "< ODM>".into(),
        HEAD.into(),
        format!("{HEAD}{CLINICAL}</ODM>"),
        format!("{HEAD}</odm></ODM>"),
    ];
    for (old, new) in [
        ("<ODM ", "<ODM xmlns=\"\" "),
        ("<ODM ", "<ODM a=\"1\" b='2' a=\"3\" "),
        ("<ODM ", "<!DOCTYPE ODM><ODM "),
        ("<SubjectData", "<![CDATA[ ]]><SubjectData"),
        ("<SubjectData", "a<SubjectData"),
        ("<SubjectData", "<Strange a='' a=''/><SubjectData"),
        ("<SubjectData", "<Strange a='&bad;'/><SubjectData"),
        ("<SubjectData", "<?pi ?><SubjectData"),
        ("<SubjectData ", "<SubjectData"),
        ("\"7\"", "7"),
        ("\"7\"", "\"7'"),
        ("\"7\"", "\"7<\""),
        ("\"7\"", "\"&\""),
        ("\"7\"", "\"&#55;\""),
        ("\"7\"", "\"&lt\""),
        ("\"7\"", "\"7\n\""),
        ("\"7\"", "\"7\u{7f}\""),
        ("\"7\" ", "\"7\""),
        ("Insert\"/>", "Insert\"/ >"),
        ("</ODM>", "</ ODM>"),
        ("</ODM>", "</ODM a=''>"),
        ("</ODM>", ""),
        ("SubjectKey=", "Subject-Key="),
    ] {
        assert!(good.contains(old), "{old}");
        faults.push(good.replacen(old, new, 1));
    }
    for fault in faults {
        assert_eq!(Store::new().import(&fault), refused(4), "{fault}");
    }
    let mut high = good.clone().into_bytes();
    high[300 - 60] = 0x80;
    assert_eq!(Store::new().import(&high), refused(4));
}

#[test]
fn refusals_5_to_8_of_single_tags() {
    let good = first(&nest("Insert", "<ItemData ItemOID=\"SYS\" Value=\"120\"/>"));
    assert_eq!(Store::new().import(&good), accepted(5));
    let cases = [
        ("<SubjectData", "<AdminData/><SubjectData", 5),
        ("<SubjectData", "<SubjectData SubjectKey='1' TransactionType='Insert'/><FormData/><SubjectData", 5),
        ("<SubjectData", "<ODM/><SubjectData", 5),
        ("<SubjectData", "<subjectData/><SubjectData", 5),
        ("<ODM ", "<Odm ", 5),
        ("SubjectKey=", "Sex='F' SubjectKey=", 6),
        ("SubjectKey=\"7\"", "Sex='F'", 6),
        ("FormOID=\"VS\"", "", 6),
        ("ItemOID=\"SYS\"", "ItemOID=\"SYS\" FormOID=\"VS\"", 6),
        ("Value=\"120\"", "Value=\"120\" IsNull=\"Yes\"", 7),
        ("Value=\"120\"", "IsNull=\"No\"", 7),
        ("Value=\"120\"", "IsNull=\"\"", 7),
        ("Value=\"120\"", "Value=\"12345678901234567890123456789012345678901\"", 7),
        ("\"SCR\"", "\"\"", 7),
        ("\"SCR\"", "\"SCR\" StudyEventRepeatKey=\"\"", 7),
        ("\"SCR\"", "\"S&amp;R\"", 7),
        ("\"Insert\"", "\"insert\"", 7),
        ("\"Insert\"", "\"\"", 7),
        ("\"1.3.2\"", "\"1.3.1\"", 7),
        ("v1.3\"", "v1.2\"", 7),
        ("\"Transactional\"", "\"Both\"", 7),
        ("FileOID=\"F1\"", "FileOID=\"F 1\"", 7),
        ("FileOID=\"F1\"", "FileOID=\"F1\" PriorFileOID=\"\"", 7),
        ("StudyOID=\"ST\"", "StudyOID=\"\"", 7),
        ("StudyOID=\"ST\"", "StudyOID=\"SU\"", 8),
        ("\"V1\"", "\"V2\"", 8),
        ("FileOID=\"F1\"", "FileOID=\"F1\" PriorFileOID=\"F0\"", 9),
        ("ODMVersion", "AsOfDateTime=\"2014-03-01T09:00:01\" ODMVersion", 9),
        (" TransactionType=\"Insert\"", "", 10),
    ];
    for (old, new, number) in cases {
        assert!(good.contains(old), "{old}");
        assert_eq!(Store::new().import(good.replacen(old, new, 1)), refused(number), "{new}");
    }
    let described = |len: usize| good.replacen("ODMVersion", &format!("Description=\"{}\" ODMVersion", "&lt;".repeat(len)), 1);
    assert_eq!(Store::new().import(described(64)), accepted(5));
    assert_eq!(Store::new().import(described(65)), refused(7));
}

#[test]
fn the_lowest_number_in_a_tag_and_the_first_tag() {
    let cases = [
        // 6 before 7, 7 before 10, 10 before 12
        ("<SubjectData SubjectKey='' Sex='F'/>", 6),
        ("<SubjectData SubjectKey=''/>", 7),
        ("<SubjectData SubjectKey='8'/>", 10),
        // an earlier tag before a later one, whatever the numbers
        ("<SubjectData SubjectKey='8' TransactionType='Update'/><", 12),
        ("<SubjectData SubjectKey='8' TransactionType='Update'/> x", 12),
        (" x <SubjectData SubjectKey='8' TransactionType='Update'/>", 4),
        ("<Unknown a='' a=''/>", 4),
        ("<Unknown a=''/>", 5),
    ];
    for (body, number) in cases {
        assert_eq!(Store::new().import(first(body)), refused(number), "{body}");
    }
    assert_eq!(Store::new().import(format!("{HEAD}{CLINICAL}{}", subject("8", "Update"))), refused(12));
    assert_eq!(Store::new().import(format!("{HEAD}{CLINICAL}{}", subject("8", "Insert"))), refused(4));
}

#[test]
fn refusal_9_series() {
    let mut store = with_item();
    assert_eq!(store.import(first("")), refused(9));
    assert_eq!(store.import(file(2, "").replace("\"F2\"", "\"F1\"")), refused(9));
    assert_eq!(store.import(file(2, "").replace("PriorFileOID=\"F1\"", "")), refused(9));
    assert_eq!(store.import(file(2, "").replace("\"F1\"", "\"F9\"")), refused(9));
    assert_eq!(store.import(file(2, "").replace("2014-03-01", "2014-02-28")), refused(9));
    assert_eq!(store.import(file(2, "").replace("Transactional", "Snapshot")), refused(9));
    let earlier = "AsOfDateTime=\"2014-03-01T08:59:59\" ODMVersion";
    assert_eq!(store.import(file(2, "").replace("ODMVersion", earlier)), refused(9));
    assert_eq!(store.import(file(2, "").replace("2014-03-01", "2014-03-02")), accepted(0));
    assert_eq!(store.import(file(3, "")), refused(9));
}

#[test]
fn refusal_10_under_remove_and_in_a_snapshot() {
    let mut store = with_item();
    let under = |word: &str| {
        format!(
            "<SubjectData SubjectKey=\"7\" TransactionType=\"Remove\">\
             <StudyEventData StudyEventOID=\"SCR\" TransactionType=\"{word}\"/></SubjectData>"
        )
    };
    for word in ["Insert", "Update", "Upsert", "Context"] {
        assert_eq!(store.import(file(2, &under(word))), refused(10));
    }
    let whole = |body: &str| first(body).replace("Transactional", "Snapshot");
    for word in ["Remove", "Update", "Upsert", "Context"] {
        assert_eq!(Store::new().import(whole(&subject("7", word))), refused(10));
    }
    assert_eq!(Store::new().import(whole("<SubjectData SubjectKey=\"7\"/>")), accepted(1));
    assert_eq!(Store::new().import(whole(&subject("7", "Insert"))), accepted(1));
    assert_eq!(store.import(file(2, &under("Remove"))), accepted(2));
}

#[test]
fn remove_ends_its_listed_children_first() {
    let mut store = with_item();
    assert_eq!(store.import(file(2, &nest("Remove", "<ItemData ItemOID=\"SYS\"/>"))), accepted(5));
    let rows: Vec<&[u32]> = store.numbers[197 + 15..197 + 30].chunks(3).collect();
    let kinds: Vec<(u32, u32)> = rows.iter().map(|row| (row[0], row[1])).collect();
    assert_eq!(kinds, [(3, 5), (3, 4), (3, 3), (3, 2), (3, 1)]);
    assert!(store.lines().is_empty());
    // A second listing of the same child meets it ended.
    let mut store = with_item();
    let twice = "<ItemData ItemOID=\"SYS\"/><ItemData ItemOID=\"SYS\"/>";
    assert_eq!(store.import(file(2, &nest("Remove", twice))), refused(12));
}

#[test]
fn inherited_upsert_makes_and_writes() {
    let mut store = with_item();
    let items = "<ItemData ItemOID=\"SYS\" Value=\"1\"/><ItemData ItemOID=\"DIA\" Value=\"2\"/>";
    assert_eq!(store.import(file(2, &nest("Upsert", items))), accepted(2));
    assert_eq!(store.lines()[4..6], ["<ItemData ItemOID=\"DIA\" Value=\"2\"/>", "<ItemData ItemOID=\"SYS\" Value=\"1\"/>"]);
}

#[test]
fn limit_of_64_files_and_withdrawal_of_all() {
    let mut store = Store::new();
    let mut states = vec![store.clone()];
    for n in 1..=64 {
        let body = if n % 3 == 0 { String::new() } else { subject(&format!("{n}"), "Insert") };
        assert_eq!(store.import(file(n, &body)).refusal, 0);
        states.push(store.clone());
    }
    assert_eq!(store.import(file(65, "") + "x"), refused(13));
    assert_eq!(store.import(file(65, "").replace("\"F64\"", "\"F1\"")), refused(9));
    assert_eq!(store.withdraw("F63"), refused(15));
    assert_eq!(store.withdraw(""), refused(15));
    for n in (1..=64).rev() {
        assert!(store == states[n]);
        assert_eq!(store.withdraw(&format!("F{n}")), accepted(u32::from(n % 3 != 0)));
    }
    assert!(store == states[0]);
    assert_eq!(store.withdraw("F1"), refused(15));
}

#[test]
fn limit_of_512_live() {
    let subjects: String = (0..512).map(|n| subject(&format!("{n}"), "Insert")).collect();
    let mut store = Store::new();
    assert_eq!(store.import(first(&(subjects.clone() + &subject("x", "Insert")))), refused(13));
    assert_eq!(store.import(file(1, &subjects)), accepted(512));
    assert_eq!(store.import(file(2, &subject("x", "Insert"))), refused(13));
    let swap = subject("0", "Remove") + &subject("x", "Insert");
    assert_eq!(store.import(file(2, &swap)), accepted(2));
}

#[test]
fn limit_of_2048_changes() {
    let mut store = Store::new();
    let pairs: String = (0..1_024).map(|_| subject("7", "Insert") + &subject("7", "Remove")).collect();
    assert_eq!(store.import(file(1, &(pairs.clone() + &subject("7", "Insert")))), refused(13));
    assert_eq!(store.import(file(1, &pairs)), accepted(2_048));
    assert_eq!(store.import(file(2, &subject("7", "Insert"))), refused(13));
    assert_eq!(store.import(file(2, &subject("7", "Remove"))), refused(12));
    assert_eq!(store.import(file(2, "")), accepted(0));
    // A Remove's limit is judged at its closing tag: an earlier fault inside comes first.
    let mut store = Store::new();
    let pairs: String = (0..1_023).map(|_| subject("7", "Insert") + &subject("7", "Remove")).collect();
    let full = pairs + &subject("7", "Insert") + &subject("8", "Insert");
    assert_eq!(store.import(file(1, &full)), accepted(2_048));
    assert_eq!(store.import(file(2, &subject("7", "Remove"))), refused(13));
    assert_eq!(store.import(file(2, "<SubjectData SubjectKey='7' TransactionType='Remove'><FormData/></SubjectData>")), refused(5));
    assert_eq!(store.import(file(2, "<SubjectData SubjectKey='7' TransactionType='Remove'></SubjectData>")), refused(13));
}

#[test]
fn limit_of_49152_change_bytes() {
    let mut store = Store::new();
    let long = |n: usize| format!("{n:0>16}");
    let make_and_end = |n: usize| subject(&long(n), "Insert") + &subject(&long(n), "Remove");
    let deep = |value: &str| {
        format!(
            "<StudyEventData StudyEventOID='{0}' StudyEventRepeatKey='{0}'><FormData FormOID='{0}' FormRepeatKey='{0}'>\
             <ItemGroupData ItemGroupOID='{0}' ItemGroupRepeatKey='{0}'>{value}</ItemGroupData></FormData></StudyEventData>",
            long(1)
        )
    };
    let items = |count: usize| -> String {
        (0..count).map(|n| format!("<ItemData ItemOID='{}' Value='{}'/>", long(n), "v".repeat(40))).collect()
    };
    let body = |count: usize, last: &str| {
        let inside = deep(&(items(count) + last));
        format!("<SubjectData SubjectKey='{}' TransactionType='Insert'>{inside}</SubjectData>", long(1))
    };
    // 17 + 51 + 85 + 119 = 272 for the four above, 176 for each item.
    let count = (49_152 - 272) / 176;
    let left = 49_152 - 272 - count * 176;
    assert_eq!((count, left), (277, 128));
    let last = |len: usize| format!("<ItemData ItemOID='{}'/>", "z".repeat(len));
    assert_eq!(store.import(file(1, &body(count, &last(9)))), refused(13));
    assert_eq!(store.import(file(1, &body(count, &last(8)))), accepted(4 + 277 + 1));
    assert_eq!(store.numbers[2], 49_152);
    assert_eq!(store.import(file(2, &make_and_end(9))), refused(13));
    assert_eq!(store.withdraw("F1"), accepted(282));
    assert!(store == Store::new());
}

#[test]
fn snapshot_form_escapes_and_output_limit() {
    let mut store = Store::new();
    let items = "<ItemData ItemOID='B' Value='&lt;a&gt; &amp; \"&apos;&quot;'/><ItemData ItemOID='A'/>";
    let body = nest("Insert", items).replace("FormOID=\"VS\"", "FormOID='VS' FormRepeatKey='2'");
    assert_eq!(store.import(first(&body)), accepted(6));
    let wanted = [
        "<SubjectData SubjectKey=\"7\">",
        "<StudyEventData StudyEventOID=\"SCR\">",
        "<FormData FormOID=\"VS\" FormRepeatKey=\"2\">",
        "<ItemGroupData ItemGroupOID=\"BP\">",
        "<ItemData ItemOID=\"A\" IsNull=\"Yes\"/>",
        "<ItemData ItemOID=\"B\" Value=\"&lt;a&gt; &amp; &quot;'&quot;\"/>",
        "</ItemGroupData>",
        "</FormData>",
        "</StudyEventData>",
        "</SubjectData>",
    ];
    assert_eq!(store.lines(), wanted);
    let text = store.snapshot();
    let mut output = vec![0xAA; text.len() - 1];
    assert_eq!(snapshot(&store.numbers, &store.bytes, b"S1", DATE, &mut output), refused(14));
    assert!(output.iter().all(|&byte| byte == 0xAA));
    assert_eq!(snapshot(&store.numbers, &store.bytes, b"S1", b"2014-02-29T00:00:00", &mut []), refused(7));
    assert_eq!(snapshot(&store.numbers, &store.bytes, b"", DATE, &mut []), refused(7));
    assert_eq!(snapshot(&store.numbers, &store.bytes, &[b'S'; 65], DATE, &mut []), refused(7));
    let mut output = vec![0xAA; text.len()];
    assert_eq!(snapshot(&store.numbers, &store.bytes, b"S1", DATE, &mut output), accepted(text.len() as u32));
    assert_eq!(output, text.as_bytes());
}

#[test]
fn a_snapshot_read_into_an_empty_store_gives_itself() {
    let mut store = with_item();
    let body = subject("10", "Insert") + &subject("9", "Insert") + &item("Upsert", "Value=\"&amp;\"");
    assert_eq!(store.import(file(2, &body)), accepted(3));
    let text = store.snapshot();
    let mut again = Store::new();
    assert_eq!(again.import(&text), accepted(7));
    assert_eq!(again.snapshot(), text);
}

#[test]
fn refusals_of_open() {
    let mut store = with_item();
    let before = store.clone();
    for (study, version) in [(&b""[..], &b"V1"[..]), (b"S T", b"V1"), (b"ST", &[b'v'; 65]), (b"ST", b"\x80")] {
        assert_eq!(open(&mut store.numbers, &mut store.bytes, study, version), refused(7));
        assert!(store == before);
    }
    assert_eq!(open(&mut store.numbers, &mut store.bytes, &[b's'; 64], &[b'v'; 64]), accepted(0));
    assert_eq!(store.numbers[..5], [0, 0, 0, 64, 64]);
}

#[test]
fn hostile_files_are_refused() {
    let attributes: String = (0..24_000).map(|n| format!(" a{n:x}=''")).collect();
    assert_eq!(Store::new().import(format!("<ODM{attributes}/>")), refused(6));
    assert_eq!(Store::new().import(format!("<ODM{attributes} a0=''/>")), refused(4));
    let mut quote = b"<ODM xmlns=\"".to_vec();
    quote.resize(FILE_LEN, b'a');
    assert_eq!(Store::new().import(&quote), refused(4));
    let entities = format!("<ODM Description='{}'/>", "&lt;".repeat(60_000));
    assert_eq!(Store::new().import(&entities), refused(6));
    assert_eq!(Store::new().import(vec![b' '; FILE_LEN]), refused(4));
}
