//! Document 01's examples, document 02's named bits, distinguished names and long member names, and the numbers
//! of the C header.

use tezqulom::{
    ask, check_table, check_value, list_into, listing, part, room_for, Answer, Component, Refusal, Truth,
    MOST_TESTS,
};

const TABLE: &[u8] = include_bytes!("../../../crates/askvalue/data/table");
const VALUE: &[u8] = include_bytes!("../../../crates/askvalue/data/value");
const FILTER: &[u8] = include_bytes!("../../../crates/askvalue/data/filter");
const SENTENCES: &str = include_str!("../../c/text.c");
const HEADER: &str = include_str!("../../../include/tezqulom.h");
const COPIES: Option<&[u8]> = Some(b"parts.*.copies");
const UNWRITTEN: u64 = 9999;

#[test]
fn licence() {
    assert_eq!((TABLE.len(), VALUE.len()), (206, 23));
    assert_eq!(check_table(TABLE), Ok(12));
    assert_eq!(check_value(TABLE, VALUE), Ok(()));
}

#[test]
fn p1_to_p10() {
    let item = |rest: &str| format!("item:{{component \"{rest}}}");
    let p5 = item(r#"event",rule integerMatch,value 3"#);
    for (filter, truth, tests) in [
        (item(r#"parts.*.copies",rule integerMatch,value 3"#), Truth::True, 2),
        (item(r#"parts.*.copies",rule integerMatch,value 7"#), Truth::False, 2),
        (item(r#"parts.*.copies",useDefaultValues FALSE,rule integerMatch,value 1"#), Truth::False, 1),
        (item(r#"parts.*.copies",rule integerOrderingMatch,value 2"#), Truth::True, 1),
        (p5.clone(), Truth::Undefined, 0),
        (format!("not:{p5}"), Truth::Undefined, 0),
        ("and:{ }".to_string(), Truth::True, 0),
        ("or:{ }".to_string(), Truth::False, 0),
        (item(r#"seats",rule integerMatch,value 9223372036854775808"#), Truth::False, 1),
        (item(r#"parts.3",rule presentMatch,value NULL"#), Truth::False, 0),
    ] {
        let answer = ask(TABLE, VALUE, filter.as_bytes(), MOST_TESTS);
        assert_eq!(answer, Ok(Answer { truth, tests }), "{filter}");
    }
}

#[test]
fn p11_and_p12() {
    let copies = [Component::Default { place: 8, row: 9 }, Component::Stored { place: 20, length: 3 }];
    assert_eq!(listing(TABLE, VALUE, COPIES, true), Ok(copies.to_vec()));
    assert_eq!(part(VALUE, 20, 3), Ok(&[0x80, 0x01, 0x03][..]));
    assert_eq!(
        listing(TABLE, VALUE, Some(b"parts.0"), true),
        Ok(vec![Component::Count { place: 6, elements: 2 }])
    );
}

#[test]
fn run_only() {
    assert_eq!(ask(TABLE, VALUE, FILTER, MOST_TESTS), Ok(Answer { truth: Truth::True, tests: 2 }));
    assert_eq!(ask(TABLE, VALUE, FILTER, 1), Err(Refusal::Tests));

    let mut room = [UNWRITTEN; 7];
    assert_eq!(list_into(TABLE, VALUE, COPIES, true, &mut room[..5]).err(), Some(Refusal::Room));
    assert_eq!(room, [UNWRITTEN; 7]);
    assert_eq!(list_into(TABLE, VALUE, COPIES, true, &mut room[..6]).map(|named| named.len()), Ok(2));
    assert_eq!(room, [1, 8, 9, 0, 20, 3, UNWRITTEN]);

    let with_seats = |seats| [&[0x30, 0x18], &VALUE[2..6], &[0x02, 0x01, seats], &VALUE[6..]].concat();
    assert_eq!(check_value(TABLE, &with_seats(1)), Err(Refusal::Value));
    assert_eq!(check_value(TABLE, &with_seats(2)), Ok(()));
}

/// The table of a BIT STRING whose bits have names: print, perform and record.
fn rights() -> Vec<u8> {
    let mut table = vec![0x11, 3];
    for (number, name) in ["print", "perform", "record"].into_iter().enumerate() {
        table.push(0x12);
        table.extend(name.bytes().chain(std::iter::repeat(0)).take(24));
        table.push(number as u8);
    }
    table
}

#[test]
fn named_bits() {
    let table = rights();
    assert_eq!(check_table(&table), Ok(4));
    assert_eq!(check_table(&table[..54]), Err(Refusal::Table));
    let both = [0x03, 0x02, 0x06, 0xC0];
    assert_eq!(check_value(&table, &[0x03, 0x01, 0x00]), Ok(()));
    assert_eq!(check_value(&table, &[0x03, 0x02, 0x05, 0xC0]), Err(Refusal::Value));
    for (asserted, truth) in [
        ("{print,perform}", Truth::True),
        ("{ perform, print, print }", Truth::True),
        ("'110'B", Truth::True),
        ("'C'H", Truth::True),
        ("{print}", Truth::False),
        ("{}", Truth::False),
        ("{print,play}", Truth::Undefined),
        ("{print ,perform}", Truth::Undefined),
    ] {
        let filter = format!("item:{{rule bitStringMatch,value {asserted}}}");
        let answer = ask(&table, &both, filter.as_bytes(), MOST_TESTS);
        assert_eq!(answer, Ok(Answer { truth, tests: u64::from(truth != Truth::Undefined) }), "{asserted}");
    }
    let unclosed = b"item:{rule bitStringMatch,value {print}";
    assert_eq!(ask(&table, &both, unclosed, MOST_TESTS), Err(Refusal::Form));
}

/// The DER of an RDN: pairs of an attribute's last arc below 2.5.4 and a UTF8String.
fn rdn(pairs: &[(u8, &str)]) -> Vec<u8> {
    let mut contents = vec![];
    for (arc, value) in pairs {
        let size = value.len() as u8;
        contents.extend([0x30, size + 7, 0x06, 0x03, 0x55, 0x04, *arc, 0x0C, size]);
        contents.extend(value.as_bytes());
    }
    [&[0x31, contents.len() as u8], &contents[..]].concat()
}

#[test]
fn distinguished_names() {
    const TABLE: &[u8] = &[0x13];
    assert_eq!(check_table(TABLE), Ok(1));
    let rdns = [rdn(&[(6, "AU")]), rdn(&[(10, "Adacel")]), rdn(&[(5, "7"), (3, "Steven Legg")])].concat();
    let stored = [&[0x30, rdns.len() as u8], &rdns[..]].concat();
    assert_eq!(check_value(TABLE, &stored), Ok(()));
    assert_eq!(check_value(TABLE, &[0x30, 0x00]), Ok(()));
    assert_eq!(check_value(TABLE, &[0x30, 0x02, 0x31, 0x00]), Err(Refusal::Value));
    for (asserted, truth) in [
        ("2.5.4.3=Steven Legg+2.5.4.5=7,2.5.4.10=Adacel,2.5.4.6=AU", Truth::True),
        ("2.5.4.5=7+2.5.4.3=steven  LEGG,2.5.4.10=\\41dacel,2.5.4.6=au", Truth::True),
        ("2.5.4.6=AU,2.5.4.10=Adacel,2.5.4.3=Steven Legg+2.5.4.5=7", Truth::False),
        ("2.5.4.3=Steven Legg,2.5.4.10=Adacel,2.5.4.6=AU", Truth::False),
        ("", Truth::False),
        ("cn=Steven Legg,2.5.4.10=Adacel,2.5.4.6=AU", Truth::Undefined),
        ("2.5.4.10=Adacel, 2.5.4.6=AU", Truth::Undefined),
        ("2.5.4.10=Adacel,", Truth::Undefined),
        ("2.5.4.10=#0C0161", Truth::Undefined),
    ] {
        let filter = format!("item:{{rule distinguishedNameMatch,value \"{asserted}\"}}");
        let answer = ask(TABLE, &stored, filter.as_bytes(), MOST_TESTS);
        assert_eq!(answer, Ok(Answer { truth, tests: u64::from(truth != Truth::Undefined) }), "{asserted}");
    }
    for (asserted, truth) in
        [("2.5.4.5=B+2.5.4.3=A", Truth::True), ("2.5.4.3=a", Truth::False), ("", Truth::Undefined)]
    {
        let filter = format!("item:{{rule rdnMatch,value \"{asserted}\"}}");
        let answer = ask(&[0x14], &rdn(&[(3, "a"), (5, "b")]), filter.as_bytes(), MOST_TESTS);
        assert_eq!(answer.map(|answer| answer.truth), Ok(truth), "{asserted}");
    }
    let falling = rdn(&[(5, "b"), (3, "a")]); // not in the order of a SET OF
    assert_eq!(check_value(&[0x14], &falling), Err(Refusal::Value));
}

/// The row of a mandatory member without a tag of its own, of this kind.
fn member(kind: u8, name: &str, to: u8) -> Vec<u8> {
    let field = if kind == 0x15 { 48 } else { 24 };
    let mut row = vec![kind];
    row.extend(name.bytes().chain(std::iter::repeat(0)).take(field));
    row.extend([0, to]);
    row.extend([0; 12]);
    row
}

/// The table of a SEQUENCE of one INTEGER, whose name is in a row of this kind.
fn with_name(kind: u8, name: &str) -> Vec<u8> {
    [&[0x0C, 1], &member(kind, name, 2)[..], &[0x02]].concat()
}

#[test]
fn long_names() {
    let name = "educationalConcessionCategory";
    let (table, value) = (with_name(0x15, name), [0x30, 0x03, 0x02, 0x01, 0x05]);
    assert_eq!((table.len(), check_table(&table)), (66, Ok(3)));
    assert_eq!(check_value(&table, &value), Ok(()));
    let stored = Component::Stored { place: 2, length: 3 };
    assert_eq!(listing(&table, &value, Some(name.as_bytes()), true), Ok(vec![stored]));
    let cut = &name[..24];
    assert_eq!(listing(&table, &value, Some(cut.as_bytes()), true), Err(Refusal::Form));
    for (component, truth) in [(name, Truth::True), (cut, Truth::Undefined), (&name[..28], Truth::Undefined)]
    {
        let filter = format!("item:{{component \"{component}\",rule integerMatch,value 5}}");
        let answer = ask(&table, &value, filter.as_bytes(), MOST_TESTS);
        assert_eq!(answer, Ok(Answer { truth, tests: u64::from(truth == Truth::True) }), "{component}");
    }
    for (kind, letters, rows) in [
        (0x10, 1, Ok(3)),
        (0x10, 24, Ok(3)),
        (0x15, 25, Ok(3)),
        (0x15, 48, Ok(3)),
        (0x15, 24, Err(Refusal::Table)),
        (0x15, 1, Err(Refusal::Table)),
        (0x15, 0, Err(Refusal::Table)),
    ] {
        assert_eq!(check_table(&with_name(kind, &"a".repeat(letters))), rows, "{kind} {letters}");
    }
}

/// Tables up to 8,064 octets are not refused by their size; the largest that is admitted has 7,515.
#[test]
fn table_sizes() {
    for octets in [4_992, 4_993, 8_064] {
        assert_eq!(check_table(&vec![0x02; octets]), Err(Refusal::Table), "{octets}");
    }
    assert_eq!(check_table(&[0x02; 8_065]), Err(Refusal::Size));
    let mut largest = vec![];
    for members in [16, 16, 16, 16, 16, 16, 16, 7] {
        largest.extend([0x0C, members]);
        for letter in (b'a'..).take(members.into()) {
            largest.extend(member(0x15, &char::from(letter).to_string().repeat(48), 127));
        }
    }
    largest.extend([0x0C, 0x00]);
    assert_eq!((largest.len(), check_table(&largest)), (7_515, Ok(128)));
}

#[test]
fn references() {
    assert_eq!(listing(TABLE, VALUE, None, true), Ok(vec![Component::Stored { place: 0, length: 23 }]));
    assert_eq!(listing(TABLE, VALUE, Some(b""), true), Err(Refusal::Form));
    assert_eq!(listing(TABLE, VALUE, Some(b"parts.3"), true), Ok(vec![]));
    assert_eq!(listing(TABLE, VALUE, Some(b"seats"), false), Ok(vec![]));
    let seats = listing(TABLE, VALUE, Some(b"seats"), true);
    assert_eq!(seats, Ok(vec![Component::Default { place: 0, row: 2 }]));
    let places = listing(TABLE, VALUE, Some(b"parts.*.name"), true)
        .map(|named| named.into_iter().map(Component::place).collect());
    assert_eq!(places, Ok(vec![10, 16]));
}

#[test]
fn empty_slices() {
    assert_eq!(check_table(&[]), Err(Refusal::Size));
    assert_eq!(check_value(&[], &[]), Err(Refusal::Size));
    assert_eq!(part(&[], 0, 0), Err(Refusal::Size));
    assert_eq!(list_into(TABLE, VALUE, Some(b"parts.3"), true, &mut []).map(|named| named.len()), Ok(0));
    assert_eq!(list_into(TABLE, VALUE, None, true, &mut []).err(), Some(Refusal::Room));
    assert_eq!(ask(TABLE, VALUE, &[], MOST_TESTS), Err(Refusal::Size));
}

/// No number is cut to fewer bits.
#[test]
fn large_numbers() {
    for bit in 12..64 {
        for large in [1 << bit, (1 << bit) + 2, usize::MAX - (1 << bit)] {
            assert_eq!(part(VALUE, large, 1), Err(Refusal::Value), "{large}");
            assert_eq!(part(VALUE, 1, large), Err(Refusal::Value), "{large}");
            assert_eq!(part(VALUE, large, usize::MAX - large + 1), Err(Refusal::Value), "{large}");
        }
    }
    for bit in 16..64 {
        assert_eq!(ask(TABLE, VALUE, FILTER, (1 << bit) + 2), Err(Refusal::Size), "{bit}");
    }
    assert_eq!(ask(TABLE, VALUE, FILTER, u64::MAX), Err(Refusal::Size));
}

/// The crate's version and the limits are the header's.
#[test]
fn version_and_limits() {
    let defined = |name: &str| {
        let define = format!("#define TEZQULOM_{name} ");
        let line = HEADER.lines().find_map(|line| line.strip_prefix(&define)).expect(name);
        line.split_whitespace().next().expect(name).to_string()
    };
    let version = ["MAJOR", "MINOR", "PATCH"].map(|part| defined(&format!("VERSION_{part}"))).join(".");
    assert_eq!(version, env!("CARGO_PKG_VERSION"));
    assert_eq!(defined("MAX_BUDGET"), MOST_TESTS.to_string());
    assert_eq!((defined("MAX_TABLE"), defined("MAX_VALUE")), ("8064".to_string(), "4096".to_string()));
    assert_eq!((defined("MAX_NAME"), defined("MAX_LONG_NAME")), ("24".to_string(), "48".to_string()));
    assert_eq!((room_for(4096), room_for(4097), room_for(9)), (6144, 6144, 12));
}

/// Refusals are errors of the standard library.
#[cfg(feature = "std")]
#[test]
fn errors() {
    let refused: Box<dyn std::error::Error> = check_table(&[]).unwrap_err().into();
    assert_eq!(refused.to_string(), "refused 1: a size or the budget is not within its limits");
}

/// Each refusal of the header is one here under its number, and there is no other; the sentence is the C interface's.
#[test]
fn header() {
    let refusals: Vec<&str> = HEADER.lines().filter(|line| line.contains("TEZQULOM_REFUSED_")).collect();
    assert_eq!(refusals.len(), Refusal::ALL.len());
    for (line, &refusal) in refusals.iter().zip(Refusal::ALL) {
        let named = format!("TEZQULOM_REFUSED_{refusal:?} = {},", refusal.number()).to_uppercase();
        assert!(line.contains(&named), "{named} in {line}");
        assert_eq!(Refusal::from_number(u64::from(refusal.number())), Some(refusal));
        let sentence =
            refusal.to_string().replacen(&format!("refused {}: ", refusal.number()), "return \"", 1);
        let case = format!("case TEZQULOM_REFUSED_{refusal:?}:").to_uppercase().replacen("CASE", "case", 1);
        assert!(SENTENCES.contains(&format!("{case}\n        {sentence}\";\n")), "{sentence}");
    }
    assert_eq!(Refusal::from_number(0), None);
    assert_eq!(Refusal::from_number(8), None);
}

/// Texts are quoted with each quote doubled, and with too little room nothing is written.
#[cfg(tezqulom_quote)]
#[test]
fn quotes() {
    use tezqulom::{quote_into, quoted, NotQuoted};
    for text in ["e1", "\"", "\"\"", "a\"}", "é\u{1F600}", "\0", " ", &"\"".repeat(300)] {
        let wanted = format!("\"{}\"", text.replace('"', "\"\""));
        assert_eq!(quoted(text.as_bytes()).as_deref(), Ok(&wanted[..]));
        let mut room = vec![7; wanted.len() + 3];
        assert_eq!(quote_into(text.as_bytes(), &mut room), Ok(&wanted[..]));
        assert_eq!(room[wanted.len()..], [7; 3]);
        let mut room = vec![7; wanted.len() - 1];
        assert_eq!(quote_into(text.as_bytes(), &mut room), Err(NotQuoted::Room));
        assert!(room.iter().all(|&octet| octet == 7));
    }
    for (text, why) in [(&b""[..], NotQuoted::Empty), (b"a\xFF", NotQuoted::Utf8), (b"\xC3", NotQuoted::Utf8)]
    {
        let mut room = [7; 10];
        assert_eq!(quote_into(text, &mut room), Err(why));
        assert_eq!(quote_into(text, &mut []), Err(why));
        assert_eq!(room, [7; 10]);
        let case = format!("case TEZQULOM_QUOTE_{why:?}:").to_uppercase().replacen("CASE", "case", 1);
        assert!(SENTENCES.contains(&format!("{case}\n        return \"{why}\";\n")), "{why}");
        let named = format!("TEZQULOM_QUOTE_{why:?} = {}", why.number()).to_uppercase();
        assert!(HEADER.contains(&named), "{named}");
    }
}

/// Values are escaped for names, and with too little room nothing is written.
#[cfg(tezqulom_escape)]
#[test]
fn escapes() {
    use tezqulom::{escape_into, escaped, NotQuoted};
    for (value, wanted) in [
        ("", ""),
        ("Adacel", "Adacel"),
        ("\"+,;<>\\", r#"\"\+\,\;\<\>\\"#),
        ("\0", r"\00"),
        (" ", r"\ "),
        ("  ", r"\ \ "),
        (" a b ", r"\ a b\ "),
        ("#", r"\#"),
        ("##", r"\##"),
        (" #", r"\ #"),
        ("a=b", "a=b"),
        ("é\u{1F600}\u{7F}\n", "é\u{1F600}\u{7F}\n"),
    ] {
        assert_eq!(escaped(value.as_bytes()).as_deref(), Ok(wanted));
        let mut room = vec![7; wanted.len() + 3];
        assert_eq!(escape_into(value.as_bytes(), &mut room), Ok(wanted));
        assert_eq!(room[wanted.len()..], [7; 3]);
        if !wanted.is_empty() {
            let mut room = vec![7; wanted.len() - 1];
            assert_eq!(escape_into(value.as_bytes(), &mut room), Err(NotQuoted::Room));
            assert!(room.iter().all(|&octet| octet == 7));
        }
    }
    for value in [&b"a\xFF"[..], b"\xC3", b"\xED\xA0\x80"] {
        let mut room = [7; 10];
        assert_eq!(escape_into(value, &mut room), Err(NotQuoted::Utf8));
        assert_eq!(escape_into(value, &mut []), Err(NotQuoted::Utf8));
        assert_eq!(room, [7; 10]);
    }
}
