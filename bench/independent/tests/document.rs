//! Document 01's P1..P12 and "Run only", and the guide's examples.

mod common;

use common::{licence_table, member, LICENCE};
use independent::{ask, check_table, check_value, list, part, Truth};

const BUDGET: u64 = 65_535;

fn answer(filter: &str) -> Result<(Truth, u64), u8> {
    ask(&licence_table(), &LICENCE, filter.as_bytes(), BUDGET)
}

/// The listing with room for every value, and only the numbers that it wrote.
fn listed(reference: Option<&str>, defaults: bool) -> Result<Vec<u64>, u8> {
    let mut room = [9999; 6144];
    let count = list(&licence_table(), &LICENCE, reference.map(str::as_bytes), defaults, &mut room)?;
    let (written, left) = room.split_at(3 * count);
    assert!(left.iter().all(|&n| n == 9999));
    Ok(written.to_vec())
}

#[test]
fn p1_to_p10() {
    let p1 = r#"item:{component "parts.*.copies",rule integerMatch,value 3}"#;
    let p2 = r#"item:{component "parts.*.copies",rule integerMatch,value 7}"#;
    let p3 = r#"item:{component "parts.*.copies",useDefaultValues FALSE,rule integerMatch,value 1}"#;
    let p4 = r#"item:{component "parts.*.copies",rule integerOrderingMatch,value 2}"#;
    let p5 = r#"item:{component "event",rule integerMatch,value 3}"#;
    let p6 = format!("not:{p5}");
    let p9 = r#"item:{component "seats",rule integerMatch,value 9223372036854775808}"#;
    let p10 = r#"item:{component "parts.3",rule presentMatch,value NULL}"#;
    for (filter, truth, tests) in [
        (p1, Truth::True, 2),
        (p2, Truth::False, 2),
        (p3, Truth::False, 1),
        (p4, Truth::True, 1),
        (p5, Truth::Undefined, 0),
        (p6.as_str(), Truth::Undefined, 0),
        ("and:{ }", Truth::True, 0),
        ("or:{ }", Truth::False, 0),
        (p9, Truth::False, 1),
        (p10, Truth::False, 0),
    ] {
        assert_eq!(answer(filter), Ok((truth, tests)), "{filter}");
    }
}

#[test]
fn p11_and_p12() {
    assert_eq!(listed(Some("parts.*.copies"), true), Ok(vec![1, 8, 9, 0, 20, 3]));
    assert_eq!(listed(Some("parts.0"), true), Ok(vec![2, 6, 2]));
}

#[test]
fn run_only() {
    let table = licence_table();
    let p1 = br#"item:{component "parts.*.copies",rule integerMatch,value 3}"#;
    assert_eq!(ask(&table, &LICENCE, p1, 1), Err(5));
    assert_eq!(ask(&table, &LICENCE, p1, 2), Ok((Truth::True, 2)));

    let mut room = [9999; 6];
    assert_eq!(list(&table, &LICENCE, Some(b"parts.*.copies"), true, &mut room[..5]), Err(6));
    assert_eq!(room, [9999; 6]);
    assert_eq!(list(&table, &LICENCE, Some(b"parts.*.copies"), true, &mut room), Ok(2));
    assert_eq!(room, [1, 8, 9, 0, 20, 3]);

    let with_seats = |seats: u8| {
        let mut value = vec![0x30, 0x18];
        value.extend(&LICENCE[2..6]);
        value.extend([2, 1, seats]);
        value.extend(&LICENCE[6..]);
        check_value(&table, &value)
    };
    assert_eq!(with_seats(1), Err(4));
    assert_eq!(with_seats(2), Ok(()));
}

#[test]
fn licence_table_is_admitted() {
    assert_eq!(licence_table().len(), 206);
    assert_eq!(check_table(&licence_table()), Ok(12));
    assert_eq!(check_value(&licence_table(), &LICENCE), Ok(()));
}

#[test]
fn tables() {
    let two = |first: Vec<u8>| [vec![12, 2], first, member("b", 3, 0, 0, 0, &[]), vec![2]].concat();
    let chain = |lists: u16| {
        let mut table: Vec<u8> = (1..=lists).flat_map(|next| [14, 0, next as u8]).collect();
        table.push(2);
        table
    };
    for (table, expected) in [
        (vec![], Err(1)),
        (vec![2], Ok(1)),
        (vec![2, 8], Ok(2)),
        (vec![12, 0], Ok(1)),
        (vec![13, 0], Err(2)),
        (vec![14, 0, 0], Err(2)),
        (vec![14, 0], Err(2)),
        (vec![17], Err(2)),
        (vec![2; 128], Ok(128)),
        (vec![2; 129], Err(2)),
        (vec![2; 8064], Err(2)),
        (vec![2; 8065], Err(1)),
        (two(member("a", 3, 0, 0, 0, &[])), Ok(4)),
        (two(member("a", 3, 0, 0, 1, &[])), Err(2)),
        (two(member("a", 3, 2, 0, 1, &[])), Ok(4)),
        (two(member("b", 3, 2, 0, 1, &[])), Err(2)),
        (two(member("a", 3, 0, 1, 0, &[])), Err(2)),
        (two(member("a", 3, 1, 31, 0, &[])), Err(2)),
        (two(member("a", 3, 1, 30, 2, &[])), Err(2)),
        (two(member("a", 3, 1, 30, 2, &[0, 1])), Err(2)),
        (two(member("a", 1, 0, 0, 0, &[])), Err(2)),
        (chain(15), Ok(16)),
        (chain(16), Err(2)),
    ] {
        assert_eq!(check_table(&table), expected, "{table:02X?}");
    }
}

#[test]
fn references() {
    for (reference, expected) in [
        ("event", vec![0, 2, 4]),
        ("seats", vec![1, 0, 2]),
        ("parts", vec![0, 6, 17]),
        ("parts.1", vec![0, 8, 6]),
        ("parts.-1", vec![0, 14, 9]),
        ("parts.-2", vec![0, 8, 6]),
        ("parts.*", vec![0, 8, 6, 0, 14, 9]),
        ("parts.*.name", vec![0, 10, 4, 0, 16, 4]),
        ("parts.3", vec![]),
        ("parts.-3", vec![]),
        ("parts.99999999999999999999999", vec![]),
        ("parts.-99999999999999999999999", vec![]),
    ] {
        assert_eq!(listed(Some(reference), true), Ok(expected), "{reference}");
    }
    for bad in [
        "",
        "parts.",
        "parts.01",
        "parts.-0",
        "(..)",
        "\"event\"",
        "seat",
        "Event",
        "content",
        "parts.name",
        "event.1",
        "parts.0.1",
        "parts.-",
        "parts.+1",
        ".",
        "parts.**",
    ] {
        assert_eq!(listed(Some(bad), true), Err(3), "{bad}");
    }
    assert_eq!(listed(None, true), Ok(vec![0, 0, 23]));
    assert_eq!(listed(Some("seats"), false), Ok(vec![]));
    assert_eq!(listed(Some("parts.*.copies"), false), Ok(vec![0, 20, 3]));
}

#[test]
fn lists_and_not() {
    let u = r#"item:{component "event",rule integerMatch,value 3}"#;
    let a = r#"item:{component "parts.*.copies",rule integerMatch,value 3}"#;
    let b = r#"item:{component "parts.*.copies",rule integerMatch,value 7}"#;
    let p = "item:{rule presentMatch,value NULL}";
    for (filter, truth, tests) in [
        (format!("and:{{{b},{p}}}"), Truth::False, 2),
        (format!("or:{{{a},{p}}}"), Truth::True, 2),
        (format!("and:{{{a},{p}}}"), Truth::True, 3),
        (format!("and:{{{u},{b}}}"), Truth::False, 2),
        (format!("or:{{{u},{a}}}"), Truth::True, 2),
        (format!("and:{{{u},{a}}}"), Truth::Undefined, 2),
        (format!("or:{{{u},{b}}}"), Truth::Undefined, 2),
        (format!("not:{b}"), Truth::True, 2),
    ] {
        assert_eq!(answer(&filter), Ok((truth, tests)), "{filter}");
    }
}

#[test]
fn order_of_refusals() {
    let table = licence_table();
    assert_eq!(ask(&[0], &[0x30, 0], b"x", 65_536), Err(1));
    assert_eq!(ask(&[0], &[0x30, 0], b"x", BUDGET), Err(2));
    assert_eq!(ask(&table, &[0x30, 0], b"x", BUDGET), Err(3));
    assert_eq!(ask(&table, &[0x30, 0], b"and:{}", BUDGET), Err(4));
    assert_eq!(list(&table, &LICENCE, Some(&[b'x'; 2049]), true, &mut []), Err(1));
    assert_eq!(list(&table, &[0x30, 0], Some(b"x"), true, &mut []), Err(3));
    assert_eq!(list(&table, &[0x30, 0], Some(b"parts"), true, &mut []), Err(4));
    assert_eq!(list(&table, &LICENCE, Some(b"parts.3"), true, &mut []), Ok(0));
}

#[test]
fn parts() {
    assert_eq!(part(&LICENCE, 10, 4), Ok(&[0x13, 0x02, 0x56, 0x6C][..]));
    assert_eq!(part(&LICENCE, 23, 0), Ok(&[][..]));
    assert_eq!(part(&LICENCE, 22, 2), Err(4));
    assert_eq!(part(&LICENCE, usize::MAX, 1), Err(4));
    assert_eq!(part(&LICENCE[..1], 0, 1), Err(1));
}

/// One row, one value, a rule and texts that are accepted, not accepted, and don't conform.
#[test]
fn rules() {
    let time = [&[0x18, 0x0F][..], b"20240229120000Z"].concat();
    let cases: [(u8, &[u8], &str, [&str; 3]); 11] = [
        (1, &[1, 1, 0xFF], "booleanMatch", ["TRUE", "FALSE", "true"]),
        (2, &[2, 1, 5], "integerMatch", ["5", "6", "+5"]),
        (2, &[2, 1, 5], "INTEGERorderingMATCH", ["6", "5", "-0"]),
        (5, &[6, 3, 0x2A, 3, 4], "objectIdentifierMatch", ["1.2.3.4", "1.2.3", "iso"]),
        (6, &[4, 2, 0x0A, 0xFF], "2.5.13.17", ["'0AFF'H", "'0A'H", "'0AF'H"]),
        (6, &[4, 2, 0x0A, 0xFF], "2.5.13.18", ["'0AFF00'H", "'0AFF'H", "'0aff'H"]),
        (7, &[3, 2, 4, 0xA0], "bitStringMatch", ["'1010'B", "'10100'B", "'2'B"]),
        (
            10,
            &[0x16, 6, 0x41, 0x20, 0x20, 0x42, 0x20, 0x20],
            "caseIgnoreMatch",
            ["\"a b\"", "\"ab\"", "\"\""],
        ),
        (10, &[0x16, 6, 0x41, 0x20, 0x20, 0x42, 0x20, 0x20], "caseExactMatch", ["\"A B\"", "\"a b\"", "a"]),
        (11, &time, "2.5.13.27", ["\"20240229120000Z\"", "\"20240229120001Z\"", "\"20230229120000Z\""]),
        (11, &time, "2.5.13.28", ["\"20240229120000.5Z\"", "\"20240229120000Z\"", "\"20240229120000.0Z\""]),
    ];
    for (kind, value, rule, texts) in cases {
        let answers = [(Truth::True, 1), (Truth::False, 1), (Truth::Undefined, 0)];
        for (text, expected) in texts.iter().zip(answers) {
            let filter = format!("item:{{rule {rule},value {text}}}");
            assert_eq!(ask(&[kind], value, filter.as_bytes(), BUDGET), Ok(expected), "{filter}");
        }
    }
}

/// Tags, wrappers and places in a CHOICE under explicit tags.
#[test]
fn explicit_tags() {
    let table = [
        vec![12, 2],
        member("pick", 3, 1, 3, 0, &[]),
        member("flag", 6, 1, 4, 2, &[0]),
        vec![13, 2],
        member("text", 7, 0, 0, 0, &[]),
        member("number", 8, 1, 0, 0, &[]),
        vec![1, 8, 2],
    ]
    .concat();
    // Row 6 is BOOLEAN, row 7 UTF8String, row 8 INTEGER.
    assert_eq!(check_table(&table), Ok(9));
    let good = [0x30, 0x0C, 0xA3, 5, 0xA0, 3, 2, 1, 9, 0xA4, 3, 1, 1, 0xFF];
    assert_eq!(check_value(&table, &good), Ok(()));
    let numbers = |reference: &[u8]| {
        let mut room = [0; 3];
        list(&table, &good, Some(reference), true, &mut room).map(|count| (count, room))
    };
    assert_eq!(numbers(b"pick"), Ok((1, [0, 4, 5])));
    assert_eq!(numbers(b"pick.number"), Ok((1, [0, 6, 3])));
    assert_eq!(numbers(b"pick.text"), Ok((0, [0, 0, 0])));
    assert_eq!(numbers(b"flag"), Ok((1, [0, 11, 3])));
    let stored_default = [0x30, 0x0C, 0xA3, 5, 0xA0, 3, 2, 1, 9, 0xA4, 3, 1, 1, 0];
    assert_eq!(check_value(&table, &stored_default), Err(4));
}
