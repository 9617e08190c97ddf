//! Requests of document 02, asked of the entries.

mod common;

use common::{licence_table, long_member, member, LICENCE};
use independent::draw::encoded;
use independent::{ask, check_table, check_value, list, Truth};

const BUDGET: u64 = 65_535;
const UTF8_STRING: (u8, u8) = (8, 0x0C);
const IA5_STRING: (u8, u8) = (10, 0x16);

/// The truth of a rule on one stored string.
fn truth((kind, tag): (u8, u8), stored: &str, rule: &str, asserted: &str) -> Truth {
    let filter = format!("item:{{rule {rule},value \"{}\"}}", asserted.replace('"', "\"\""));
    let (truth, tests) =
        ask(&[kind], &encoded(tag, stored.as_bytes()), filter.as_bytes(), BUDGET).expect("an answer");
    assert_eq!(tests, 1, "{filter}");
    truth
}

fn check(stored: &str, asserted: &str, ignoring: bool, exactly: bool) {
    for (rule, accepted) in [("caseIgnoreMatch", ignoring), ("caseExactMatch", exactly)] {
        let expected = if accepted { Truth::True } else { Truth::False };
        assert_eq!(truth(UTF8_STRING, stored, rule, asserted), expected, "{rule} {stored:?} {asserted:?}");
        if !stored.is_empty() {
            assert_eq!(
                truth(UTF8_STRING, asserted, rule, stored),
                expected,
                "{rule} {asserted:?} {stored:?}"
            );
        }
    }
}

/// stored and asserted, in both roles, whether equal ignoring case and whether equal exactly.
#[test]
fn accented_names() {
    for (one, other, ignoring, exactly) in [
        ("Élan", "élan", true, false),
        ("Élan", "ÉLAN", true, false),
        ("Élan", "Elan", false, false),
        ("straße", "STRASSE", true, false),
        ("straße", "strase", false, false),
        ("ŸŽĮ", "ÿžį", true, false),
        ("a \u{AD} b", "a b", true, true),
        ("a\u{AD}b", "a b", false, false),
        ("\u{132}", "IJ", true, true),
        ("\u{132}", "ij", true, false),
        (" \u{301}", "\u{301}", true, true),
        ("a \u{B4}", "a\u{B4}", false, false),
        (" \u{B4} ", "\u{B4}", true, true),
        ("\u{B4}", "\u{301}", false, false),
        ("\u{A8}", "\u{308}", false, false),
        ("\u{AF}", " \u{304}", false, false),
        ("\u{B8}", " ", false, false),
        ("a\u{B4}", "a  \u{301}", true, true),
        ("a\u{A0}b\u{AD}", "a b", true, true),
        ("\u{17F}\u{132}", "sIJ", true, true),
        ("\u{17F}", "S", true, false),
        ("ß\u{130}\u{149}", "SSi\u{307}\u{2BC}N", true, false),
        ("ß", "ss", true, false),
        ("\u{130}", "i\u{307}", true, false),
        ("\u{130}", "i", false, false),
        ("\u{149}", "\u{2BC}n", true, true),
        ("\u{BC}", "1\u{2044}4", true, true),
        ("\u{BC}", "1/4", false, false),
        ("\u{B5}", "\u{3BC}", true, true),
        ("\u{B5}", "\u{39C}", false, false),
        ("\u{131}", "I", false, false),
        ("\u{131}", "i", false, false),
        ("a\u{84}b", "ab", true, true),
        ("a\u{85}b", "a b", true, true),
        ("a\0b", "ab", true, true),
        ("a\tb", "a\r\nb", true, true),
        ("", "\u{AD}", true, true),
        ("\u{9F}", " \u{7F}", true, true),
        ("\u{FFFD}\u{E000}", "\u{FFFD}\u{E000}", true, true),
        ("a\u{2003}b", "a b", false, false),
        ("a\u{200B}b", "ab", false, false),
        ("a\u{3000}b", "a b", false, false),
        ("a\u{FEFF}b", "ab", false, false),
        ("\u{182}", "\u{183}", false, false),
        ("e\u{301}", "é", false, false),
        ("E\u{301}", "e\u{301}", true, false),
    ] {
        check(one, other, ignoring, exactly);
    }
    for (stored, asserted, expected) in
        [("a\0b\x7F", "ab", Truth::True), ("a\x0Bb", "a b", Truth::True), ("a\tb", "ab", Truth::False)]
    {
        assert_eq!(truth(IA5_STRING, stored, "caseExactMatch", asserted), expected);
    }
}

/// Only strings are prepared: not the value text, the name of a rule or a reference.
#[test]
fn accents_elsewhere() {
    let value = encoded(0x0C, b"a");
    for (filter, expected) in [
        ("item:{rule caseIgnoreMatch,value \"a\u{AD}\"}", Ok((Truth::True, 1))),
        ("item:{rule caseIgnoreMatch,value \u{A0}\"a\"}", Ok((Truth::Undefined, 0))),
        ("item:{rule caseIgnoreMatch,value \"a\"\u{A0}}", Ok((Truth::Undefined, 0))),
        ("item:{rule caseIgnoreMatch,value\u{A0}\"a\"}", Err(3)),
        ("item:{rule caseIgnoreMatc\u{125},value \"a\"}", Err(3)),
        ("item:{rule ca\u{17F}eIgnoreMatch,value \"a\"}", Err(3)),
        ("item:{component \"\u{AD}\",rule caseIgnoreMatch,value \"a\"}", Ok((Truth::Undefined, 0))),
    ] {
        assert_eq!(ask(&[8], &value, filter.as_bytes(), BUDGET), expected, "{filter}");
    }
}

/// The rows of a named BIT STRING: names with their numbers.
fn named_bits(names: &[(&str, u8)]) -> Vec<u8> {
    let mut rows = vec![17, names.len() as u8];
    for (name, bit) in names {
        let start = rows.len();
        rows.push(18);
        rows.extend(name.as_bytes());
        rows.resize(start + 25, 0);
        rows.push(*bit);
    }
    rows
}

fn rights() -> Vec<u8> {
    named_bits(&[("print", 0), ("perform", 1), ("record", 2)])
}

/// The answer of bitStringMatch on a whole value, from its contents and a value text.
fn bits(table: &[u8], stored: &[u8], text: &str) -> Result<(Truth, u64), u8> {
    let filter = format!("item:{{rule bitStringMatch,value {text}}}");
    ask(table, &encoded(3, stored), filter.as_bytes(), BUDGET)
}

const TRUE: Result<(Truth, u64), u8> = Ok((Truth::True, 1));
const FALSE: Result<(Truth, u64), u8> = Ok((Truth::False, 1));
const UNDEFINED: Result<(Truth, u64), u8> = Ok((Truth::Undefined, 0));

/// No bits, print, print and perform, all three.
const NONE: &[u8] = &[0];
const PRINT: &[u8] = &[7, 0x80];
const BOTH: &[u8] = &[6, 0xC0];
const THREE: &[u8] = &[5, 0xE0];

/// stored contents, asserted texts, the answer on named bits and on a BIT STRING without names.
#[test]
fn rights_as_named_bits() {
    for (stored, text, named, plain) in [
        // The empty list.
        (NONE, "{}", TRUE, UNDEFINED),
        (NONE, "{ }", TRUE, UNDEFINED),
        (NONE, "{   }", TRUE, UNDEFINED),
        (PRINT, "{ }", FALSE, UNDEFINED),
        (NONE, "{print}", FALSE, UNDEFINED),
        // Spaces stand after the brace, after a comma and before the last brace.
        (BOTH, "{print,perform}", TRUE, UNDEFINED),
        (BOTH, "{  print,   perform  }", TRUE, UNDEFINED),
        (BOTH, "   {print, perform}  ", TRUE, UNDEFINED),
        (BOTH, "{print ,perform}", UNDEFINED, UNDEFINED),
        (BOTH, "{print perform}", UNDEFINED, UNDEFINED),
        (BOTH, "{\tprint,perform}", UNDEFINED, UNDEFINED),
        (BOTH, "{\u{A0}print,perform}", UNDEFINED, UNDEFINED),
        (BOTH, "{print,perform,}", UNDEFINED, UNDEFINED),
        (BOTH, "{,print,perform}", UNDEFINED, UNDEFINED),
        (BOTH, "{print,,perform}", UNDEFINED, UNDEFINED),
        (NONE, "{,}", UNDEFINED, UNDEFINED),
        (NONE, "{{}}", UNDEFINED, UNDEFINED),
        (BOTH, "{\"print\",\"perform\"}", UNDEFINED, UNDEFINED),
        (BOTH, "print,perform", UNDEFINED, UNDEFINED),
        (BOTH, "{print},{perform}", UNDEFINED, UNDEFINED),
        (BOTH, "{0,1}", UNDEFINED, UNDEFINED),
        // Trailing zeros.
        (BOTH, "'110'B", TRUE, FALSE),
        (BOTH, "'11'B", TRUE, TRUE),
        (BOTH, "'C00'H", TRUE, FALSE),
        (BOTH, "'C'H", TRUE, FALSE),
        (BOTH, "'1100000000000000000000000000000000000000000000000000000000000000000'B", TRUE, FALSE),
        (BOTH, "'011'B", FALSE, FALSE),
        (BOTH, "'1'B", FALSE, FALSE),
        (BOTH, "'111'B", FALSE, FALSE),
        (BOTH, "'1101'B", FALSE, FALSE),
        (NONE, "'0'B", TRUE, FALSE),
        (NONE, "'000'H", TRUE, FALSE),
        (NONE, "''B", TRUE, TRUE),
        (NONE, "''H", TRUE, TRUE),
        (BOTH, "'c0'H", UNDEFINED, UNDEFINED),
        (BOTH, "'112'B", UNDEFINED, UNDEFINED),
        (BOTH, "'11", UNDEFINED, UNDEFINED),
        // Bits beyond the names.
        (&[0, 0xC0, 0x01], "'C001'H", TRUE, TRUE),
        (&[0, 0xC0, 0x01], "'C0010'H", TRUE, FALSE),
        (&[0, 0xC0, 0x01], "{print,perform}", FALSE, UNDEFINED),
        (BOTH, "'C001'H", FALSE, FALSE),
        // Names: case counts, each has to be known, a repeated one counts once.
        (BOTH, "{print,PERFORM}", UNDEFINED, UNDEFINED),
        (BOTH, "{Print,perform}", UNDEFINED, UNDEFINED),
        (BOTH, "{print,perform,stage}", UNDEFINED, UNDEFINED),
        (BOTH, "{stage}", UNDEFINED, UNDEFINED),
        (BOTH, "{prin,perform}", UNDEFINED, UNDEFINED),
        (BOTH, "{print1,perform}", UNDEFINED, UNDEFINED),
        (BOTH, "{ print, print, perform, print }", TRUE, UNDEFINED),
        (PRINT, "{print,print}", TRUE, UNDEFINED),
        (NONE, "{print,print}", FALSE, UNDEFINED),
        // The order of the names doesn't count.
        (BOTH, "{perform,print}", TRUE, UNDEFINED),
        (THREE, "{record,print,perform}", TRUE, UNDEFINED),
        (THREE, "{print,perform}", FALSE, UNDEFINED),
        (PRINT, "{perform}", FALSE, UNDEFINED),
        // A brace that isn't closed is bad form.
        (PRINT, "{print", Err(3), Err(3)),
        (PRINT, "print}", Err(3), Err(3)),
        (PRINT, "{print\"}", Err(3), Err(3)),
    ] {
        assert_eq!(bits(&rights(), stored, text), named, "named {stored:02X?} {text}");
        assert_eq!(bits(&[7], stored, text), plain, "plain {stored:02X?} {text}");
    }
    let unclosed = b"item:{rule bitStringMatch,value {print}";
    assert_eq!(ask(&rights(), &encoded(3, PRINT), unclosed, BUDGET), Err(3));
}

/// A name stands for the bit of its number, wherever it is in the list.
#[test]
fn numbers_of_named_bits() {
    let table = named_bits(&[("far", 63), ("five", 5), ("none", 0), ("a-name-of-24-characters1", 8)]);
    let far = [0, 0, 0, 0, 0, 0, 0, 0, 1];
    for (stored, text, expected) in [
        (&[2, 0x04][..], "{five}", TRUE),
        (&[2, 0x04], "{far}", FALSE),
        (&[7, 0x80], "{none}", TRUE),
        (&[7, 0x80], "{far}", FALSE),
        (&far, "{far}", TRUE),
        (&far, "'0000000000000001'H", TRUE),
        (&far, "'00000000000000010'H", TRUE),
        (&far, "'000000000000000100001'H", FALSE),
        (&[7, 0, 0x80], "{a-name-of-24-characters1}", TRUE),
        (&[7, 0x84, 0x80], "{a-name-of-24-characters1, none, five}", TRUE),
        (&[7, 0x84, 0x80], "{a-name-of-24-characters}", UNDEFINED),
        (&[7, 0x84, 0x80], "{a-name-of-24-characters1a}", UNDEFINED),
    ] {
        assert_eq!(bits(&table, stored, text), expected, "{stored:02X?} {text}");
    }
}

/// A stored value has no trailing zero bit, and as many bits as fit.
#[test]
fn stored_named_bits() {
    let good = |contents: &[u8]| check_value(&rights(), &encoded(3, contents));
    for contents in [NONE, PRINT, BOTH, THREE, &[0, 1], &[6, 0, 0x40], &[0, 0xC0, 0x01], &[0, 0, 0, 0xFF]] {
        assert_eq!(good(contents), Ok(()), "{contents:02X?}");
    }
    for contents in
        [&[][..], &[5, 0xC0], &[0, 0xFE], &[0, 0], &[7, 0], &[0, 0xC0, 0], &[1], &[7], &[8, 0], &[6, 0xE0]]
    {
        assert_eq!(good(contents), Err(4), "{contents:02X?}");
        let plain = check_value(&[7], &encoded(3, contents)).is_ok();
        assert_eq!(plain, matches!(contents, [5, 0xC0] | [0, 0xFE] | [0, 0] | [7, 0] | [0, 0xC0, 0]));
    }
    assert_eq!(check_value(&rights(), &[0x23, 1, 0]), Err(4));
    assert_eq!(check_value(&rights(), &[4, 1, 0]), Err(4));

    let mut long = vec![0; 4092];
    assert_eq!(good(&long), Err(4));
    long[4091] = 1;
    assert_eq!(good(&long), Ok(()));
    assert_eq!(bits(&rights(), &long, "{print}"), FALSE);
    let hundred = [&[0][..], &[0xAA; 100], &[1]].concat();
    let text = format!("'{}01{}'H", "AA".repeat(100), "0".repeat(77));
    assert_eq!(bits(&rights(), &hundred, &text), TRUE);
    assert_eq!(bits(&rights(), &hundred, &text.replace("01", "02")), FALSE);
}

/// What is admitted as a named bit string.
#[test]
fn tables_of_named_bits() {
    let many = |count: usize| (0..count).map(|i| (format!("n{i}"), i as u8)).collect::<Vec<_>>();
    let of = |count: usize| {
        let names = many(count);
        named_bits(&names.iter().map(|(name, bit)| (name.as_str(), *bit)).collect::<Vec<_>>())
    };
    let changed = |at: usize, octet: u8| {
        let mut table = rights();
        table[at] = octet;
        table
    };
    let name = |name: &str| named_bits(&[(name, 0)]);
    // Octets of the rows: 0 and 1 the head, from 2, 28 and 54 on a name each.
    for (table, expected) in [
        (rights(), Ok(4)),
        (of(1), Ok(2)),
        (of(16), Ok(17)),
        (of(17), Err(2)),
        (vec![17, 0], Err(2)),
        (vec![17], Err(2)),
        (changed(1, 2), Err(2)),
        (changed(1, 4), Err(2)),
        (changed(1, 255), Err(2)),
        (rights()[..79].to_vec(), Err(2)),
        (rights()[..54].to_vec(), Err(2)),
        (rights()[2..].to_vec(), Err(2)),
        ([vec![2], rights()].concat(), Ok(5)),
        ([rights(), rights()].concat(), Ok(8)),
        ([rights(), rights()[2..28].to_vec()].concat(), Err(2)),
        // Another kind among the names, names after another kind.
        ([vec![17, 2], rights()[2..28].to_vec(), vec![2]].concat(), Err(2)),
        ([vec![17, 1], member("a", 2, 0, 0, 0, &[]), vec![2]].concat(), Err(2)),
        ([vec![12, 1], rights()[2..28].to_vec()].concat(), Err(2)),
        ([vec![2], rights()[2..28].to_vec()].concat(), Err(2)),
        // Numbers and names differ.
        (changed(27, 63), Ok(4)),
        (changed(27, 64), Err(2)),
        (changed(27, 255), Err(2)),
        (changed(27, 1), Err(2)),
        (changed(27, 2), Err(2)),
        (named_bits(&[("a", 1), ("b", 0)]), Ok(3)),
        (named_bits(&[("a", 1), ("a", 0)]), Err(2)),
        (named_bits(&[("a", 1), ("A", 0)]), Err(2)),
        (named_bits(&[("aB", 1), ("ab", 0)]), Ok(3)),
        // The form of a name.
        (name("a-name-of-24-characters1"), Ok(2)),
        (name("a-1B"), Ok(2)),
        (name(""), Err(2)),
        (name("Print"), Err(2)),
        (name("1a"), Err(2)),
        (name("a-"), Err(2)),
        (name("a--b"), Err(2)),
        (name("a_b"), Err(2)),
        (name("a\0b"), Err(2)),
        (changed(26, 1), Err(2)),
        // A row of a name is no type.
        ([vec![14, 0, 1], rights()].concat(), Ok(5)),
        ([vec![14, 0, 2], rights()].concat(), Err(2)),
        ([vec![12, 1], member("a", 2, 0, 0, 0, &[]), rights()].concat(), Ok(6)),
        ([vec![12, 1], member("a", 3, 0, 0, 0, &[]), rights()].concat(), Err(2)),
        // No default, any tag mode.
        ([vec![12, 1], member("a", 2, 0, 0, 2, &[0]), rights()].concat(), Err(2)),
        ([vec![12, 1], member("a", 2, 2, 5, 1, &[]), rights()].concat(), Ok(6)),
        ([vec![12, 1], member("a", 2, 1, 5, 1, &[]), rights()].concat(), Ok(6)),
    ] {
        assert_eq!(check_table(&table), expected, "{table:02X?}");
    }
}

/// The tag is that of a BIT STRING.
#[test]
fn tags_of_named_bits() {
    let two = |group: u8, first: u8, presence: u8, rows: &[u8]| {
        let (one, other) = (member("a", 3, 0, 0, presence, &[]), member("b", 4, 0, 0, 0, &[]));
        check_table(&[vec![group, 2], one, other, vec![first], rows.to_vec()].concat())
    };
    assert_eq!(two(13, 7, 0, &rights()), Err(2));
    assert_eq!(two(13, 6, 0, &rights()), Ok(8));
    assert_eq!(two(12, 7, 1, &rights()), Err(2));
    assert_eq!(two(12, 7, 0, &rights()), Ok(8));
    assert_eq!(two(13, 2, 0, &[2]), Err(2));
}

/// A named bit string is one row of a chain; its names count only among all rows.
#[test]
fn chains_of_named_bits() {
    let lists = |count: u16| -> Vec<u8> {
        (1..=count).flat_map(|next| [14, 0, next as u8]).chain(rights()).collect()
    };
    assert_eq!(check_table(&lists(15)), Ok(19));
    assert_eq!(check_table(&lists(16)), Err(2));
    let before = |count: usize| check_table(&[vec![2; count], rights()].concat());
    assert_eq!(before(124), Ok(128));
    assert_eq!(before(125), Err(2));
}

/// Members with rights: wrappers, references, listings and other rules.
#[test]
fn members_of_named_bits() {
    let table = [
        vec![12, 3],
        member("event", 4, 0, 0, 0, &[]),
        member("rights", 6, 2, 0, 1, &[]),
        member("given", 5, 1, 1, 0, &[]),
        vec![8, 14, 0, 6],
        rights(),
    ]
    .concat();
    // Row 4 is UTF8String, row 5 a list of row 6, the named bits.
    assert_eq!(check_table(&table), Ok(10));
    let value = [0x30, 18, 12, 0, 0x80, 2, 6, 0xC0, 0xA1, 10, 0x30, 8, 3, 1, 0, 3, 3, 0, 0xC0, 1];
    assert_eq!(check_value(&table, &value), Ok(()));
    let mut zeros = value;
    zeros[6..8].copy_from_slice(&[5, 0xC0]);
    assert_eq!(check_value(&table, &zeros), Err(4));

    let listed = |reference: &str| {
        let mut room = [0; 6];
        list(&table, &value, Some(reference.as_bytes()), true, &mut room)
            .map(|count| room[..3 * count].to_vec())
    };
    assert_eq!(listed("rights"), Ok(vec![0, 4, 4]));
    assert_eq!(listed("given.*"), Ok(vec![0, 12, 3, 0, 15, 5]));
    for inside in ["rights.print", "rights.0", "rights.1", "rights.*", "rights.content", "given.1.print"] {
        assert_eq!(listed(inside), Err(3), "{inside}");
    }
    for (reference, rule, text, expected) in [
        ("rights", "bitStringMatch", "{perform,print}", Ok((Truth::True, 1))),
        ("rights", "2.5.13.16", "'110'B", Ok((Truth::True, 1))),
        ("rights", "BitStringMatch", "{record}", Ok((Truth::False, 1))),
        ("rights.print", "bitStringMatch", "{print}", UNDEFINED),
        ("rights.print", "presentMatch", "NULL", UNDEFINED),
        ("rights", "presentMatch", "NULL", Ok((Truth::True, 1))),
        ("rights", "octetStringMatch", "'C0'H", UNDEFINED),
        ("rights", "integerMatch", "3", UNDEFINED),
        ("rights", "booleanMatch", "TRUE", UNDEFINED),
        ("given", "bitStringMatch", "{}", UNDEFINED),
        ("given.*", "bitStringMatch", "{}", Ok((Truth::True, 1))),
        ("given.*", "bitStringMatch", "'C001'H", Ok((Truth::True, 2))),
        ("given.*", "bitStringMatch", "{print}", Ok((Truth::False, 2))),
        ("given.3", "bitStringMatch", "{print}", Ok((Truth::False, 0))),
        ("given.3", "bitStringMatch", "{stage}", UNDEFINED),
    ] {
        let filter = format!("item:{{component \"{reference}\",rule {rule},value {text}}}");
        assert_eq!(ask(&table, &value, filter.as_bytes(), BUDGET), expected, "{filter}");
    }
    let every = b"item:{component \"given.*\",rule bitStringMatch,value {print}}";
    assert_eq!(ask(&table, &value, every, 1), Err(5));
}

// distinguished names.

const RDN_SEQUENCE: u8 = 19;
const RDN: u8 = 20;
const CN: &[u8] = &[0x55, 4, 3];
const O: &[u8] = &[0x55, 4, 10];
const C: &[u8] = &[0x55, 4, 6];

/// A pair of a type and a value that is a UTF8String.
fn pair(ty: &[u8], value: &str) -> Vec<u8> {
    pair_of(ty, 0x0C, value.as_bytes())
}

fn pair_of(ty: &[u8], tag: u8, value: &[u8]) -> Vec<u8> {
    encoded(0x30, &[encoded(6, ty), encoded(tag, value)].concat())
}

/// The contents of a stored RDN from a text like `cn=a+o=b`, the pairs in their order.
fn rdn(text: &str) -> Vec<u8> {
    let mut pairs: Vec<Vec<u8>> = text
        .split('+')
        .map(|text| match text.split_once('=') {
            Some(("cn", value)) => pair(CN, value),
            Some(("o", value)) => pair(O, value),
            Some(("c", value)) => pair(C, value),
            _ => panic!("{text}"),
        })
        .collect();
    pairs.sort();
    pairs.concat()
}

/// The contents of a stored name from a text like `c=AU/o=Adacel`, in the order of the text.
fn name(text: &str) -> Vec<u8> {
    text.split('/').filter(|rdn| !rdn.is_empty()).flat_map(|text| encoded(0x31, &rdn(text))).collect()
}

/// The answer of distinguishedNameMatch for contents and what stands between the quotes of the value text.
fn name_match(contents: &[u8], asserted: &str) -> Result<(Truth, u64), u8> {
    let filter = format!("item:{{rule distinguishedNameMatch,value \"{asserted}\"}}");
    ask(&[RDN_SEQUENCE], &encoded(0x30, contents), filter.as_bytes(), BUDGET)
}

/// The same of rdnMatch.
fn rdn_match(contents: &[u8], asserted: &str) -> Result<(Truth, u64), u8> {
    let filter = format!("item:{{rule rdnMatch,value \"{asserted}\"}}");
    ask(&[RDN], &encoded(0x31, contents), filter.as_bytes(), BUDGET)
}

/// The answer of rdnMatch for one RDN, which that of distinguishedNameMatch for a name of this RDN has to be too.
fn both_match(contents: &[u8], asserted: &str) -> Result<(Truth, u64), u8> {
    let answer = rdn_match(contents, asserted);
    assert_eq!(name_match(&encoded(0x31, contents), asserted), answer, "{asserted}");
    answer
}

const LEGG: &str = "c=AU/o=Adacel/cn=Steven Legg";

/// The text has the RDN first that is stored last.
#[test]
fn names_by_position() {
    for (stored, asserted, expected) in [
        (LEGG, "2.5.4.3=Steven Legg,2.5.4.10=Adacel,2.5.4.6=AU", TRUE),
        (LEGG, "2.5.4.3=STEVEN  legg,2.5.4.10=aDACEL,2.5.4.6=au", TRUE),
        (LEGG, "2.5.4.6=AU,2.5.4.10=Adacel,2.5.4.3=Steven Legg", FALSE),
        (LEGG, "2.5.4.10=Adacel,2.5.4.3=Steven Legg,2.5.4.6=AU", FALSE),
        (LEGG, "2.5.4.10=Adacel,2.5.4.6=AU", FALSE),
        (LEGG, "2.5.4.3=Steven Legg,2.5.4.10=Adacel", FALSE),
        (LEGG, "2.5.4.3=Steven Legg,2.5.4.10=Adacel,2.5.4.6=AU,2.5.4.6=AU", FALSE),
        (LEGG, "2.5.4.3=Steven Legg,2.5.4.10=Adacel,2.5.4.6=AT", FALSE),
        (LEGG, "2.5.4.3=Steven Leg,2.5.4.10=Adacel,2.5.4.6=AU", FALSE),
        (LEGG, "2.5.4.3=Steven Leggs,2.5.4.10=Adacel,2.5.4.6=AU", FALSE),
        (LEGG, "2.5.4.10=Steven Legg,2.5.4.3=Adacel,2.5.4.6=AU", FALSE),
        (LEGG, "2.5.4.3=Steven Legg+2.5.4.10=Adacel+2.5.4.6=AU", FALSE),
        ("cn=a/cn=b", "2.5.4.3=b,2.5.4.3=a", TRUE),
        ("cn=a/cn=b", "2.5.4.3=a,2.5.4.3=b", FALSE),
        ("cn=a/cn=b", "2.5.4.3=b,2.5.4.3=b", FALSE),
        ("cn=a+o=b/cn=c", "2.5.4.3=c,2.5.4.10=b+2.5.4.3=a", TRUE),
        ("cn=a+o=b/cn=c", "2.5.4.10=b+2.5.4.3=c,2.5.4.3=a", FALSE),
    ] {
        assert_eq!(name_match(&name(stored), asserted), expected, "{stored} {asserted}");
    }
}

/// The pairs of a stored RDN are in the order of a SET OF, by their whole encodings; asserted ones in any.
#[test]
fn order_of_pairs() {
    let (one, other) = (pair(O, "b"), pair(CN, "aa"));
    assert!(one < other, "the shorter one comes first, though its type does not");
    for (pairs, good) in [
        ([one.clone(), other.clone()], true),
        ([other, one], false),
        ([pair(CN, "a"), pair(CN, "a")], true),
        ([pair(CN, "a"), pair(CN, "b")], true),
        ([pair(CN, "b"), pair(CN, "a")], false),
        ([pair(CN, "A"), pair(CN, "a")], true),
        ([pair(CN, "a"), pair(CN, "A")], false),
        ([pair_of(CN, 0x0C, b"b"), pair_of(CN, 0x13, b"a")], true),
        ([pair_of(CN, 0x13, b"a"), pair_of(CN, 0x0C, b"b")], false),
    ] {
        let contents = pairs.concat();
        let expected = if good { Ok(()) } else { Err(4) };
        assert_eq!(check_value(&[RDN], &encoded(0x31, &contents)), expected, "{contents:02X?}");
        let sequence = encoded(0x30, &encoded(0x31, &contents));
        assert_eq!(check_value(&[RDN_SEQUENCE], &sequence), expected, "{contents:02X?}");
    }
    assert_eq!(both_match(&rdn("o=b+cn=aa"), "2.5.4.3=aa+2.5.4.10=b"), TRUE);
    assert_eq!(both_match(&rdn("o=b+cn=aa"), "2.5.4.10=b+2.5.4.3=aa"), TRUE);
}

/// Pairs match one to one; a type may stand more than once, and so may a pair.
#[test]
fn pairs_one_to_one() {
    for (stored, asserted, expected) in [
        ("cn=a+cn=b", "2.5.4.3=b+2.5.4.3=a", TRUE),
        ("cn=a+cn=b", "2.5.4.3=a+2.5.4.3=b", TRUE),
        ("cn=a+cn=b", "2.5.4.3=a+2.5.4.3=a", FALSE),
        ("cn=a+cn=b", "2.5.4.3=b+2.5.4.3=B", FALSE),
        ("cn=a+cn=b", "2.5.4.3=a", FALSE),
        ("cn=a+cn=b", "2.5.4.3=b", FALSE),
        ("cn=a", "2.5.4.3=a+2.5.4.3=b", FALSE),
        ("cn=a", "2.5.4.3=b+2.5.4.3=a", FALSE),
        ("cn=a", "2.5.4.3=a+2.5.4.3=a", FALSE),
        ("cn=a+cn=a", "2.5.4.3=a+2.5.4.3=A", TRUE),
        ("cn=A+cn=a", "2.5.4.3=a+2.5.4.3=a", TRUE),
        ("cn=a+cn=a", "2.5.4.3=a", FALSE),
        ("cn=a+cn=a", "2.5.4.3=a+2.5.4.3=b", FALSE),
        ("cn=a+cn=a", "2.5.4.3=b+2.5.4.3=a", FALSE),
        ("cn=a+cn=a+cn=b", "2.5.4.3=b+2.5.4.3=a+2.5.4.3=b", FALSE),
        ("cn=a+cn=a+cn=b", "2.5.4.3=a+2.5.4.3=b+2.5.4.3=a", TRUE),
        ("cn=a+o=b", "2.5.4.3=b+2.5.4.10=a", FALSE),
        ("cn=a+o=a", "2.5.4.10=a+2.5.4.3=a", TRUE),
        ("cn=a+cn=b+cn=c+cn=d", "2.5.4.3=d+2.5.4.3=c+2.5.4.3=b+2.5.4.3=a", TRUE),
        ("cn=a+cn=b+cn=c+cn=d", "2.5.4.3=c+2.5.4.3=a+2.5.4.3=d+2.5.4.3=b", TRUE),
        ("cn=a+cn=b+cn=c+cn=d", "2.5.4.3=d+2.5.4.3=c+2.5.4.3=b+2.5.4.3=b", FALSE),
        ("cn=a+cn=b+cn=c+cn=d", "2.5.4.3=d+2.5.4.3=c+2.5.4.3=b", FALSE),
        ("cn=a+cn=b+cn=c", "2.5.4.3=d+2.5.4.3=c+2.5.4.3=b+2.5.4.3=a", FALSE),
    ] {
        assert_eq!(both_match(&rdn(stored), asserted), expected, "{stored} {asserted}");
    }
    // One to four out of three, in all orders: they match if they are the same in some order.
    let mut all = vec![String::new()];
    for at in 0.. {
        if all[at].len() == 4 {
            break;
        }
        all.extend(["a", "b", "c"].map(|value| all[at].clone() + value));
    }
    let sorted = |values: &str| {
        let mut values: Vec<char> = values.chars().collect();
        values.sort();
        values
    };
    let text = |ty: &str, values: &str| {
        values.chars().map(|value| format!("{ty}={value}")).collect::<Vec<_>>().join("+")
    };
    for stored in &all[1..] {
        let contents = rdn(&text("cn", stored));
        for asserted in &all[1..] {
            let expected = if sorted(stored) == sorted(asserted) { TRUE } else { FALSE };
            assert_eq!(rdn_match(&contents, &text("2.5.4.3", asserted)), expected, "{stored} {asserted}");
        }
    }
}

/// Values, by what stands between the GSER quotes after `2.5.4.3=`. The last of each line is the prepared
/// value, `None` where the text doesn't conform.
#[test]
fn asserted_values() {
    let all = "`~!@$%^&*()-_[]{}|:'/?.=#";
    for (text, expected) in [
        // Empty values, spaces at the ends.
        ("", Some("")),
        ("\\ ", Some("")),
        ("\\20", Some("")),
        ("\\20\\ ", Some("")),
        ("a", Some("a")),
        (" ", None),
        ("  ", None),
        (" a", None),
        ("a ", None),
        ("a\\  ", None),
        (" \\ a", None),
        ("\\20a\\ ", Some("a")),
        ("\\  a  \\ ", Some("a")),
        ("a b", Some("a b")),
        ("A \u{A0}\\20  B", Some("a b")),
        ("\u{A0}a\u{A0}", Some("a")),
        ("\\C2\\A0a\\AD", None),
        ("\\C2\\A0a\\C2\\AD", Some("a")),
        // Hexadecimal pairs are octets, and all octets together have to be UTF-8.
        ("\\c3\\A9", Some("é")),
        ("\\C3\\a9", Some("é")),
        ("É", Some("é")),
        ("\\C3a", None),
        ("\\C3", None),
        ("\\A9", None),
        ("\\C3é", None),
        ("\\C3\\C3\\A9", None),
        ("\\Adacel", None),
        ("\\C2\\Adacel", Some("acel")),
        ("\\41\\62", Some("ab")),
        ("\\411", Some("a1")),
        ("\\E6\\BC\\A2", Some("漢")),
        ("\\E6\\BC", None),
        ("\\ED\\A0\\80", None),
        ("\\C0\\80", None),
        ("\\F4\\8F\\BF\\BF", Some("\u{10FFFF}")),
        ("\\F4\\90\\80\\80", None),
        ("\\FF", None),
        // Two layers of quoting.
        ("x\\\"\"", Some("x\"")),
        ("x\"\"", None),
        ("\"\"x\"\"", None),
        ("x\\22", Some("x\"")),
        ("\\\"\"\\\"\"", Some("\"\"")),
        // What may follow a backslash, and what may stand without one.
        ("\\\\\\+\\,\\;\\<\\>\\ \\#\\=", Some("\\+,;<> #=")),
        ("=", Some("=")),
        ("==a=", Some("==a=")),
        ("\\=", Some("=")),
        ("\\-", None),
        ("\\n", None),
        ("\\/", None),
        ("\\'", None),
        ("\\*", None),
        ("\\é", None),
        ("\\\u{1}", None),
        ("\\", None),
        ("a\\", None),
        ("\\4", None),
        ("\\4g", None),
        ("\\g4", None),
        ("\\4 ", None),
        ("\\x41", None),
        ("a\\\\", Some("a\\")),
        ("a\\\\\\", None),
        (";", None),
        ("a;b", None),
        ("<", None),
        ("a>", None),
        (all, Some(all)),
        // A number sign.
        ("#", None),
        ("#a", None),
        ("#0C0161", None),
        ("\\#a", Some("#a")),
        ("\\23", Some("#")),
        ("a#", Some("a#")),
        ("a#b", Some("a#b")),
        ("\\ #", Some("#")),
        // Controls.
        ("a\u{1}b", Some("ab")),
        ("\t", Some("")),
        ("\u{7F}a", Some("a")),
        ("a\tb", Some("a b")),
        ("a\0b", None),
        ("\0", None),
        ("a\\00b", Some("ab")),
        ("\\0", None),
    ] {
        let asserted = format!("2.5.4.3={text}");
        let Some(prepared) = expected else {
            assert_eq!(both_match(&pair(CN, "a"), &asserted), UNDEFINED, "{text:?}");
            continue;
        };
        assert_eq!(both_match(&pair(CN, prepared), &asserted), TRUE, "{text:?}");
        assert_eq!(both_match(&pair(CN, &format!("  {prepared} \u{AD}")), &asserted), TRUE, "{text:?}");
        assert_eq!(both_match(&pair(CN, &format!("{prepared}x")), &asserted), FALSE, "{text:?}");
        assert_eq!(both_match(&pair(O, prepared), &asserted), FALSE, "{text:?}");
    }
    assert_eq!(both_match(&pair(CN, "straße"), "2.5.4.3=STRASSE"), TRUE);
    assert_eq!(both_match(&pair(CN, "\u{B4}"), "2.5.4.3=\\20\\20\u{B4}"), TRUE);
    assert_eq!(both_match(&pair(CN, "\u{B4}"), "2.5.4.3=\u{301}"), FALSE);
}

/// Nothing stands around a comma, a plus or an equals sign.
#[test]
fn separators() {
    let stored = name("cn=b/cn=a");
    assert_eq!(name_match(&stored, "2.5.4.3=a,2.5.4.3=b"), TRUE);
    for text in [
        "2.5.4.3=a, 2.5.4.3=b",
        "2.5.4.3=a ,2.5.4.3=b",
        "2.5.4.3=a;2.5.4.3=b",
        "2.5.4.3=a,,2.5.4.3=b",
        "2.5.4.3=a,2.5.4.3=b,",
        ",2.5.4.3=a,2.5.4.3=b",
        "2.5.4.3 =a,2.5.4.3=b",
        "2.5.4.3=a,2.5.4.3",
        "2.5.4.3=a,2.5.4.3=b+",
        "2.5.4.3=a+,2.5.4.3=b",
        "2.5.4.3=a,+2.5.4.3=b",
        "2.5.4.3=a+ 2.5.4.3=b",
        "2.5.4.3=a +2.5.4.3=b",
        "2.5.4.3= a,2.5.4.3=b",
        " 2.5.4.3=a,2.5.4.3=b",
        "2.5.4.3=a,2.5.4.3=b ",
        "2.5.4.3=a,b",
        "2.5.4.3=a+b",
        "2.5.4.3:a",
        "a",
        ",",
        "+",
        "=",
        "=a",
        " ",
    ] {
        assert_eq!(name_match(&stored, text), UNDEFINED, "{text:?}");
    }
    assert_eq!(name_match(&name("cn=,2.5.4.3:b"), "2.5.4.3=\\,2.5.4.3:b"), TRUE);
    assert_eq!(name_match(&name("cn=/cn="), "2.5.4.3=,2.5.4.3="), TRUE);
    assert_eq!(both_match(&rdn("cn=+cn="), "2.5.4.3=+2.5.4.3="), TRUE);
}

/// Types are dotted and of any size; those beyond the stored limits equal nothing.
#[test]
fn attribute_types() {
    let (ones, threes) = ([&[0x2A][..], &[1; 31]].concat(), ".1".repeat(31));
    for (ty, dotted) in [
        (CN, "2.5.4.3".to_string()),
        (&[0], "0.0".to_string()),
        (&[39], "0.39".to_string()),
        (&[40], "1.0".to_string()),
        (&[79], "1.39".to_string()),
        (&[80], "2.0".to_string()),
        (&[0x7F], "2.47".to_string()),
        (&[0x81, 0], "2.48".to_string()),
        (&[0x88, 0x37], "2.999".to_string()),
        (&[0x8F, 0xFF, 0xFF, 0xFF, 0x7F], "2.4294967215".to_string()),
        (&[0x2A, 0x8F, 0xFF, 0xFF, 0xFF, 0x7F], "1.2.4294967295".to_string()),
        (&[0x2A, 0x81, 0x80, 0x00], "1.2.16384".to_string()),
        (&[9, 0x92, 0x26, 0x89, 0x93, 0xF2, 0x2C, 100, 1, 25], "0.9.2342.19200300.100.1.25".to_string()),
        (&ones, format!("1.2{threes}")),
    ] {
        assert_eq!(both_match(&pair(ty, "a"), &format!("{dotted}=a")), TRUE, "{dotted}");
        assert_eq!(both_match(&pair(ty, "a"), &format!("{dotted}.1=a")), FALSE, "{dotted}");
        assert_eq!(both_match(&pair(ty, "a"), &format!("{dotted}.0=a")), FALSE, "{dotted}");
        let other = format!("{dotted}.1");
        assert_eq!(both_match(&pair(CN, "a"), &format!("{other}=a")), FALSE, "{other}");
    }
    for (dotted, expected) in [
        ("2.5.4.4294967299".to_string(), FALSE),
        ("2.5.4.18446744073709551619".to_string(), FALSE),
        ("2.5.4.340282366920938463463374607431768211459".to_string(), FALSE),
        ("2.4294967216".to_string(), FALSE),
        ("2.4294967301.4.3".to_string(), FALSE),
        ("2.18446744073709551621.4.3".to_string(), FALSE),
        (format!("2.5.4.{}", "3".repeat(1900)), FALSE),
        (format!("2.5.4.3{}", ".1".repeat(900)), FALSE),
        (format!("2.5.4{}", ".3".repeat(38)), FALSE),
        (format!("1.2{threes}.1"), FALSE),
        ("2.5.4".to_string(), FALSE),
        ("2.5.4.3.0".to_string(), FALSE),
        ("1.40".to_string(), UNDEFINED),
        ("0.40.1".to_string(), UNDEFINED),
        ("3.1".to_string(), UNDEFINED),
        ("2".to_string(), UNDEFINED),
        ("".to_string(), UNDEFINED),
        ("2.5.4.03".to_string(), UNDEFINED),
        ("02.5.4.3".to_string(), UNDEFINED),
        ("2.5.4.".to_string(), UNDEFINED),
        (".2.5.4.3".to_string(), UNDEFINED),
        ("2.5..4.3".to_string(), UNDEFINED),
        ("2.5.4.-3".to_string(), UNDEFINED),
        ("2.5.4.3 ".to_string(), UNDEFINED),
        (" 2.5.4.3".to_string(), UNDEFINED),
        ("OID.2.5.4.3".to_string(), UNDEFINED),
        ("oid.2.5.4.3".to_string(), UNDEFINED),
        ("cn".to_string(), UNDEFINED),
        ("CN".to_string(), UNDEFINED),
        ("2.5.4.3;lang-en".to_string(), UNDEFINED),
        ("\\32.5.4.3".to_string(), UNDEFINED),
        (format!("{}.1", "9".repeat(100)), UNDEFINED),
        (format!("2.5.4.3{}.01", ".1".repeat(40)), UNDEFINED),
    ] {
        assert_eq!(both_match(&pair(CN, "a"), &format!("{dotted}=a")), expected, "{dotted}");
    }
    // Each pair is read, also behind one that equals nothing.
    assert_eq!(both_match(&rdn("cn=a"), "2.5.4.4294967299=a+2.5.4.3=#"), UNDEFINED);
    assert_eq!(both_match(&rdn("cn=a+o=b"), "2.5.4.3=a+2.5.4.4294967306=b"), FALSE);
    assert_eq!(name_match(&name("cn=a/cn=b"), "2.5.4.3=b,2.5.4.4294967299=a"), FALSE);
}

/// No RDN, and as many as there may be; the same of pairs.
#[test]
fn limits_of_names() {
    assert_eq!(name_match(&[], ""), TRUE);
    assert_eq!(name_match(&name("cn="), ""), FALSE);
    assert_eq!(name_match(&[], "2.5.4.3="), FALSE);
    assert_eq!(name_match(&[], " "), UNDEFINED);
    assert_eq!(rdn_match(&rdn("cn="), ""), UNDEFINED);
    assert_eq!(rdn_match(&rdn("cn=a"), "2.5.4.3=a,2.5.4.3=a"), UNDEFINED);
    assert_eq!(rdn_match(&rdn("cn=a"), "2.5.4.3=a,"), UNDEFINED);
    assert_eq!(rdn_match(&rdn("cn=a"), ",2.5.4.3=a"), UNDEFINED);

    let rdns = |count: usize| name(&vec!["cn=a"; count].join("/"));
    let pairs = |count: usize| rdn(&vec!["cn=a"; count].join("+"));
    let text = |count: usize, between: &str| vec!["2.5.4.3=a"; count].join(between);
    assert_eq!(name_match(&rdns(16), &text(16, ",")), TRUE);
    assert_eq!(name_match(&rdns(15), &text(16, ",")), FALSE);
    assert_eq!(name_match(&rdns(16), &text(15, ",")), FALSE);
    assert_eq!(name_match(&rdns(16), &text(17, ",")), UNDEFINED);
    assert_eq!(name_match(&rdns(17), &text(16, ",")), Err(4));
    assert_eq!(check_value(&[RDN_SEQUENCE], &encoded(0x30, &rdns(16))), Ok(()));
    assert_eq!(check_value(&[RDN_SEQUENCE], &encoded(0x30, &rdns(17))), Err(4));
    assert_eq!(both_match(&pairs(4), &text(4, "+")), TRUE);
    assert_eq!(both_match(&pairs(3), &text(4, "+")), FALSE);
    assert_eq!(both_match(&pairs(4), &text(3, "+")), FALSE);
    assert_eq!(both_match(&pairs(4), &text(5, "+")), UNDEFINED);
    assert_eq!(both_match(&pairs(5), &text(4, "+")), Err(4));
    assert_eq!(both_match(&[], "2.5.4.3=a"), Err(4));
    assert_eq!(check_value(&[RDN], &[0x31, 0]), Err(4));
    assert_eq!(check_value(&[RDN_SEQUENCE], &[0x30, 0]), Ok(()));
    // 16 RDNs of four pairs each.
    let full = encoded(0x31, &pairs(4)).repeat(16);
    let whole = vec![text(4, "+"); 16].join(",");
    assert_eq!(name_match(&full, &whole), TRUE);
    assert_eq!(name_match(&full, &whole.replacen('a', "b", 1)), FALSE);
    assert_eq!(name_match(&full, &format!("{whole}+2.5.4.3=a")), UNDEFINED);
    assert_eq!(name_match(&full, &format!("{whole},2.5.4.3=a")), UNDEFINED);
    // A value has no limit but the sizes of the whole value and of the filter.
    let long = "a".repeat(1900);
    assert_eq!(both_match(&rdn(&format!("cn={long}")), &format!("2.5.4.3={long}")), TRUE);
    assert_eq!(both_match(&rdn(&format!("cn={long}b")), &format!("2.5.4.3={long}c")), FALSE);
}

/// Each rule is for one kind, and its value is a quoted string.
#[test]
fn rules_of_names() {
    let (whole, one) = (encoded(0x30, &name("cn=a")), encoded(0x31, &rdn("cn=a")));
    let list = [14, 0, 1, RDN];
    for (table, value, rule, text, expected) in [
        (&[RDN_SEQUENCE][..], &whole, "distinguishedNameMatch", "\"2.5.4.3=A\"", TRUE),
        (&[RDN_SEQUENCE], &whole, "DISTINGUISHEDnamematch", "\"2.5.4.3=A\"", TRUE),
        (&[RDN_SEQUENCE], &whole, "2.5.13.1", "\"2.5.4.3=A\"", TRUE),
        (&[RDN_SEQUENCE], &whole, "1.2.36.79672281.1.13.3", "\"2.5.4.3=A\"", UNDEFINED),
        (&[RDN_SEQUENCE], &whole, "rdnMatch", "\"2.5.4.3=A\"", UNDEFINED),
        (&[RDN_SEQUENCE], &whole, "presentMatch", "NULL", TRUE),
        (&[RDN_SEQUENCE], &whole, "caseIgnoreMatch", "\"a\"", UNDEFINED),
        (&[RDN_SEQUENCE], &whole, "objectIdentifierMatch", "2.5.4.3", UNDEFINED),
        (&[RDN], &one, "rdnMatch", "\"2.5.4.3=A\"", TRUE),
        (&[RDN], &one, "RDNMATCH", "\"2.5.4.3=A\"", TRUE),
        (&[RDN], &one, "1.2.36.79672281.1.13.3", "\"2.5.4.3=A\"", TRUE),
        (&[RDN], &one, "distinguishedNameMatch", "\"2.5.4.3=A\"", UNDEFINED),
        (&[RDN], &one, "presentMatch", "NULL", TRUE),
        (&[RDN], &one, "caseExactMatch", "\"a\"", UNDEFINED),
        (&list, &whole, "distinguishedNameMatch", "\"2.5.4.3=A\"", UNDEFINED),
        (&list, &whole, "rdnMatch", "\"2.5.4.3=A\"", UNDEFINED),
        (&[15, 0, 1, 2], &encoded(0x31, &[2, 1, 5]), "rdnMatch", "\"2.5.4.3=A\"", UNDEFINED),
        (&[8], &encoded(0x0C, b"a"), "distinguishedNameMatch", "\"2.5.4.3=A\"", UNDEFINED),
        (&[RDN_SEQUENCE], &whole, "distinguishedNameMatch", "  \"2.5.4.3=A\"  ", TRUE),
        (&[RDN_SEQUENCE], &whole, "distinguishedNameMatch", "rdnSequence:\"2.5.4.3=A\"", UNDEFINED),
        (&[RDN_SEQUENCE], &whole, "distinguishedNameMatch", "2.5.4.3=A", UNDEFINED),
        (&[RDN_SEQUENCE], &whole, "distinguishedNameMatch", "{\"2.5.4.3=A\"}", UNDEFINED),
        (&[RDN_SEQUENCE], &whole, "distinguishedNameMatch", "\"2.5.4.3=A\" \"\"", UNDEFINED),
        (&[RDN_SEQUENCE], &whole, "distinguishedNameMatch", "'2.5.4.3=A'", UNDEFINED),
        (&[RDN_SEQUENCE], &whole, "distinguishedNameMatch", "NULL", UNDEFINED),
        (&[RDN_SEQUENCE], &whole, "distinguishedNameMatch", "\"2.5.4.3=A\"\"", Err(3)),
        (&[RDN_SEQUENCE], &whole, "distinguishedNameMatch", "\"2.5.4.3=A", Err(3)),
        (&[RDN_SEQUENCE], &whole, "distinguishedNameMatch", "\"2.5.4.3=}\"", FALSE),
        (&[RDN_SEQUENCE], &whole, "distinguishedNameMatch", "\"\"", FALSE),
        (&[RDN_SEQUENCE], &whole, "distinguishedNameMatch", "\"\"\"\"", UNDEFINED),
    ] {
        let filter = format!("item:{{rule {rule},value {text}}}");
        assert_eq!(ask(table, value, filter.as_bytes(), BUDGET), expected, "{filter}");
    }
}

/// No reference goes inside. The list of RDNs is another type, into which references go.
#[test]
fn references_to_names() {
    let table = [
        vec![12, 4],
        member("event", 5, 0, 0, 0, &[]),
        member("holder", 7, 0, 0, 1, &[]),
        member("place", 8, 2, 1, 1, &[]),
        member("holders", 6, 1, 0, 0, &[]),
        vec![8, 14, 0, 7, RDN_SEQUENCE, RDN],
    ]
    .concat();
    assert_eq!(check_table(&table), Ok(9));
    let names: Vec<u8> = ["", LEGG, "cn=a"].iter().flat_map(|text| encoded(0x30, &name(text))).collect();
    let holders = encoded(0xA0, &encoded(0x30, &names));
    let parts =
        [encoded(0x0C, b"e"), encoded(0x30, &name("cn=a")), encoded(0xA1, &rdn("cn=a+cn=b")), holders];
    let value = encoded(0x30, &parts.concat());
    assert_eq!(check_value(&table, &value), Ok(()));
    let listed = |reference: &str| {
        let mut room = [0; 9];
        list(&table, &value, Some(reference.as_bytes()), true, &mut room)
            .map(|count| room[..3 * count].to_vec())
    };
    assert_eq!(listed("holder"), Ok(vec![0, 5, 14]));
    assert_eq!(listed("place"), Ok(vec![0, 19, 22]));
    assert_eq!(listed("holders.*"), Ok(vec![0, 45, 2, 0, 47, 54, 0, 101, 14]));
    assert_eq!(listed("holders.0"), Ok(vec![2, 43, 3]));
    for inside in
        ["1", "-1", "0", "*", "2", "content", "rdnSequence", "1.1", "1.1.type", "*.*.value", "(1.2)", ""]
    {
        for reference in ["holder", "place", "holders.1", "holders.*"] {
            assert_eq!(listed(&format!("{reference}.{inside}")), Err(3), "{reference} {inside}");
        }
    }
    for (reference, rule, text, expected) in [
        ("holder", "distinguishedNameMatch", "\"2.5.4.3=a\"", Ok((Truth::True, 1))),
        ("holder.-1", "rdnMatch", "\"2.5.4.3=a\"", UNDEFINED),
        ("holder.1", "rdnMatch", "\"2.5.4.3=a\"", UNDEFINED),
        ("holder.*", "presentMatch", "NULL", UNDEFINED),
        ("holder.0", "integerMatch", "1", UNDEFINED),
        ("place", "rdnMatch", "\"2.5.4.3=b+2.5.4.3=a\"", Ok((Truth::True, 1))),
        ("place", "rdnMatch", "\"2.5.4.3=b\"", Ok((Truth::False, 1))),
        ("place", "distinguishedNameMatch", "\"2.5.4.3=b\"", UNDEFINED),
        ("holders", "distinguishedNameMatch", "\"\"", UNDEFINED),
        ("holders.*", "distinguishedNameMatch", "\"\"", Ok((Truth::True, 1))),
        ("holders.*", "distinguishedNameMatch", "\"2.5.4.3=A\"", Ok((Truth::True, 3))),
        ("holders.*", "distinguishedNameMatch", "\"2.5.4.3=b\"", Ok((Truth::False, 3))),
        ("holders.4", "distinguishedNameMatch", "\"2.5.4.3=b\"", Ok((Truth::False, 0))),
        ("holders.4", "distinguishedNameMatch", "\"cn=b\"", UNDEFINED),
        ("holders.0", "distinguishedNameMatch", "\"\"", UNDEFINED),
        ("holders.-1", "presentMatch", "NULL", Ok((Truth::True, 1))),
    ] {
        let filter = format!("item:{{component \"{reference}\",rule {rule},value {text}}}");
        assert_eq!(ask(&table, &value, filter.as_bytes(), BUDGET), expected, "{filter}");
    }
    let every = b"item:{component \"holders.*\",rule distinguishedNameMatch,value \"2.5.4.3=A\"}";
    assert_eq!(ask(&table, &value, every, 2), Err(5));
    // Without the optional members nothing is named.
    let short = encoded(0x30, &[&parts[0][..], &parts[3]].concat());
    let absent = b"item:{component \"place\",rule rdnMatch,value \"2.5.4.3=a\"}";
    assert_eq!(ask(&table, &short, absent, BUDGET), Ok((Truth::False, 0)));
    // In a list of RDNs each is matched by rdnMatch.
    let rdns = [14, 0, 1, RDN];
    let three = encoded(0x30, &name("cn=a/cn=b/cn=c"));
    let last = b"item:{component \"-1\",rule rdnMatch,value \"2.5.4.3=C\"}";
    assert_eq!(ask(&rdns, &three, last, BUDGET), TRUE);
    let any = b"item:{component \"*\",rule rdnMatch,value \"2.5.4.3=b\"}";
    assert_eq!(ask(&rdns, &three, any, BUDGET), Ok((Truth::True, 2)));
    assert_eq!(check_value(&rdns, &encoded(0x30, &name(&["cn=a"; 20].join("/")))), Ok(()));
}

/// The kinds of stored values.
#[test]
fn stored_values_of_names() {
    for (tag, value, good) in [
        (0x0C, &b"a"[..], true),
        (0x13, b"a", true),
        (0x16, b"a", true),
        (0x0C, b"", true),
        (0x13, b"", true),
        (0x16, b"", true),
        (0x0C, "\u{E9}\u{10FFFF}\0".as_bytes(), true),
        (0x0C, b"\xC3", false),
        (0x0C, b"\xED\xA0\x80", false),
        (0x13, b"Az 09'()+,-./:=?", true),
        (0x13, b"a*", false),
        (0x13, b"a@b", false),
        (0x13, b"_", false),
        (0x13, b"&", false),
        (0x13, b"\xC3\xA9", false),
        (0x16, b"\0\x7F*@_", true),
        (0x16, b"\x80", false),
        (0x16, b"\xC3\xA9", false),
        // TeletexString, BMPString, UniversalString, NumericString, VisibleString, OCTET STRING, constructed and others.
        (0x14, b"a", false),
        (0x1E, b"\0a", false),
        (0x1C, b"\0\0\0a", false),
        (0x12, b"1", false),
        (0x1A, b"a", false),
        (0x04, b"a", false),
        (0x2C, b"\x0C\x01a", false),
        (0x33, b"\x13\x01a", false),
        (0x36, b"\x16\x01a", false),
        (0x8C, b"a", false),
        (0x80, b"a", false),
        (0xA0, b"\x0C\x01a", false),
        (0x4C, b"a", false),
        (0xCC, b"a", false),
        (0x06, b"\x2A", false),
        (0x05, b"", false),
        (0x02, b"\x01", false),
        (0x30, b"", false),
        (0x31, b"", false),
    ] {
        let contents = pair_of(CN, tag, value);
        let expected = if good { Ok(()) } else { Err(4) };
        assert_eq!(check_value(&[RDN], &encoded(0x31, &contents)), expected, "{tag:02X} {value:02X?}");
        if good && value == b"a" {
            assert_eq!(both_match(&contents, "2.5.4.3=\\41"), TRUE);
            assert_eq!(both_match(&contents, "2.5.4.3=b"), FALSE);
        }
    }
    assert_eq!(both_match(&pair_of(CN, 0x16, b" A\0\x09B\x7F"), "2.5.4.3=a b"), TRUE);

    let long = [&[0x2A][..], &[1; 32]].concat();
    for (oid, good) in [
        (&[0x55][..], true),
        (&[0], true),
        (&long[..32], true),
        (&long, false),
        (&[], false),
        (&[0x81], false),
        (&[0x80, 1], false),
        (&[0x2A, 0x80, 1], false),
        (&[0x2A, 0x8F, 0xFF, 0xFF, 0xFF, 0x7F], true),
        (&[0x2A, 0x90, 0x80, 0x80, 0x80, 0], false),
    ] {
        let expected = if good { Ok(()) } else { Err(4) };
        assert_eq!(check_value(&[RDN], &encoded(0x31, &pair(oid, "a"))), expected, "{oid:02X?}");
    }

    let (ty, value) = (encoded(6, CN), encoded(0x0C, b"a"));
    let good = encoded(0x30, &[&ty[..], &value].concat());
    assert_eq!(check_value(&[RDN], &encoded(0x31, &good)), Ok(()));
    let with_length = |at: usize, length: &[u8]| {
        // The header of the pair (0), of the type (2) or of the value (7) with another length, the pair's as it has to be.
        let mut octets = good.clone();
        octets.splice(at + 1..at + 2, length.iter().copied());
        if at > 0 {
            octets[1] = octets.len() as u8 - 2;
        }
        octets
    };
    for wrong in [
        encoded(0x30, &ty),
        encoded(0x30, &value),
        encoded(0x30, &[]),
        encoded(0x30, &[&value[..], &ty].concat()),
        encoded(0x30, &[&ty[..], &ty].concat()),
        encoded(0x30, &[&ty[..], &value, &value].concat()),
        encoded(0x30, &[&ty[..], &value, &[5, 0]].concat()),
        encoded(0x30, &[&ty[..], &value, &[0]].concat()),
        encoded(0x30, &[&[0x0D][..], &ty[1..], &value].concat()),
        encoded(0x30, &[&[0x26][..], &ty[1..], &value].concat()),
        encoded(0x30, &[&[0x86][..], &ty[1..], &value].concat()),
        encoded(0x31, &[&ty[..], &value].concat()),
        encoded(0x10, &[&ty[..], &value].concat()),
        encoded(0xB0, &[&ty[..], &value].concat()),
        [&ty[..], &value].concat(),
        with_length(0, &[0x81, 8]),
        with_length(0, &[7]),
        with_length(0, &[9]),
        with_length(2, &[0x81, 3]),
        with_length(2, &[0x82, 0, 3]),
        with_length(2, &[0x80]),
        with_length(7, &[0x81, 1]),
        with_length(7, &[2]),
        with_length(7, &[0]),
        with_length(7, &[0x83, 0, 0, 1]),
    ] {
        assert_eq!(check_value(&[RDN], &encoded(0x31, &wrong)), Err(4), "{wrong:02X?}");
        assert_eq!(
            check_value(&[RDN_SEQUENCE], &encoded(0x30, &encoded(0x31, &wrong))),
            Err(4),
            "{wrong:02X?}"
        );
    }
    let one = encoded(0x31, &good);
    for (table, value, expected) in [
        (RDN_SEQUENCE, encoded(0x30, &one), Ok(())),
        (RDN_SEQUENCE, encoded(0x31, &one), Err(4)),
        (RDN_SEQUENCE, encoded(0x10, &one), Err(4)),
        (RDN_SEQUENCE, encoded(0xA0, &one), Err(4)),
        (RDN_SEQUENCE, encoded(0x30, &good), Err(4)),
        (RDN_SEQUENCE, encoded(0x30, &encoded(0x30, &good)), Err(4)),
        (RDN_SEQUENCE, encoded(0x30, &encoded(0x11, &good)), Err(4)),
        (RDN_SEQUENCE, encoded(0x30, &encoded(0xB1, &good)), Err(4)),
        (RDN_SEQUENCE, encoded(0x30, &[0x31, 0]), Err(4)),
        (RDN_SEQUENCE, encoded(0x30, &[&one[..], &[0x31, 0]].concat()), Err(4)),
        (RDN_SEQUENCE, encoded(0x30, &[&one[..], &[5, 0]].concat()), Err(4)),
        (RDN_SEQUENCE, encoded(0x30, &[&one[..], &[0x31]].concat()), Err(4)),
        (RDN_SEQUENCE, [encoded(0x30, &one), vec![0]].concat(), Err(4)),
        (RDN, one.clone(), Ok(())),
        (RDN, encoded(0x30, &good), Err(4)),
        (RDN, encoded(0x11, &good), Err(4)),
        (RDN, encoded(0x30, &one), Err(4)),
        (RDN, encoded(0x31, &one), Err(4)),
    ] {
        assert_eq!(check_value(&[table], &value), expected, "{value:02X?}");
    }
    // RDNs stand in any order, also if one is above the next.
    assert_eq!(check_value(&[RDN_SEQUENCE], &encoded(0x30, &name("cn=b/cn=a"))), Ok(()));
    // Lengths of two and three octets, up to the whole value.
    for letters in [118, 127, 128, 200, 255, 256, 4060] {
        let text = "a".repeat(letters);
        assert_eq!(check_value(&[RDN_SEQUENCE], &encoded(0x30, &name(&format!("cn={text}")))), Ok(()));
    }
}

/// Tags, defaults, chains.
#[test]
fn tables_of_names() {
    let chain = |count: u8, last: u8| -> Vec<u8> {
        (1..=count).flat_map(|next| [14, 0, next]).chain([last]).collect()
    };
    let one = |mode: u8, number: u8, presence: u8, default: &[u8], last: u8| {
        check_table(&[vec![12, 1], member("a", 2, mode, number, presence, default), vec![last]].concat())
    };
    for kind in [RDN_SEQUENCE, RDN] {
        assert_eq!(check_table(&[kind]), Ok(1));
        assert_eq!(check_table(&[kind, 0]), Err(2));
        assert_eq!(check_table(&[kind; 128]), Ok(128));
        assert_eq!(check_table(&[kind; 129]), Err(2));
        assert_eq!(check_table(&[2, kind, 2]), Ok(3));
        assert_eq!(check_table(&[14, 0, 1, kind]), Ok(2));
        assert_eq!(check_table(&[15, 0, 1, kind]), Ok(2));
        assert_eq!(check_table(&[14, 0, 0, kind]), Err(2));
        assert_eq!(check_table(&chain(15, kind)), Ok(16));
        assert_eq!(check_table(&chain(16, kind)), Err(2));
        for (mode, number) in [(0, 0), (1, 0), (1, 30), (2, 1)] {
            assert_eq!(one(mode, number, 0, &[], kind), Ok(3));
            assert_eq!(one(mode, number, 1, &[], kind), Ok(3));
            for default in [&[][..], &[0], &[1], &[0x30, 0]] {
                assert_eq!(one(mode, number, 2, default, kind), Err(2), "{default:02X?}");
            }
        }
        // A member or a bit name can't follow it.
        assert_eq!(check_table(&[vec![kind], member("a", 2, 0, 0, 0, &[]), vec![2]].concat()), Err(2));
        assert_eq!(check_table(&[vec![17, 1, kind], vec![2]].concat()), Err(2));
        assert_eq!(check_table(&[vec![12, 1, kind], vec![2]].concat()), Err(2));
    }

    // Two members of these types, with the second type after the first.
    let two = |group: u8, presence: u8, first: &[u8], second: &[u8]| {
        let other = 3 + if matches!(first[0], 14 | 15) { 2 } else { 1 };
        let members = [member("a", 3, 0, 0, presence, &[]), member("b", other, 0, 0, 0, &[])].concat();
        let mut rows = [&[group, 2][..], &members, first].concat();
        if matches!(first[0], 14 | 15) {
            rows.push(2);
        }
        rows.extend(second);
        check_table(&rows).is_ok()
    };
    for (group, presence) in [(13, 0), (12, 1)] {
        assert!(!two(group, presence, &[RDN_SEQUENCE], &[12, 0]));
        assert!(!two(group, presence, &[14, 0, 4], &[RDN_SEQUENCE]));
        assert!(!two(group, presence, &[RDN_SEQUENCE], &[RDN_SEQUENCE]));
        assert!(!two(group, presence, &[15, 0, 4], &[RDN]));
        assert!(!two(group, presence, &[RDN], &[RDN]));
        assert!(two(group, presence, &[RDN], &[RDN_SEQUENCE]));
        assert!(two(group, presence, &[RDN_SEQUENCE], &[RDN]));
        assert!(two(group, presence, &[15, 0, 4], &[RDN_SEQUENCE]));
        assert!(two(group, presence, &[14, 0, 4], &[RDN]));
        assert!(two(group, presence, &[RDN], &[12, 0]));
    }
    assert!(two(12, 0, &[RDN_SEQUENCE], &[12, 0]));

    // Under an implicit tag they stay constructed; an explicit one is around their own.
    for (kind, tag, contents) in [(RDN_SEQUENCE, 0x30, name("cn=a")), (RDN, 0x31, rdn("cn=a"))] {
        let check = |mode: u8, octets: &[u8]| {
            let table = [vec![12, 1], member("a", 2, mode, 1, 0, &[]), vec![kind]].concat();
            check_value(&table, &encoded(0x30, octets))
        };
        assert_eq!(check(2, &encoded(0xA1, &contents)), Ok(()));
        assert_eq!(check(2, &encoded(0x81, &contents)), Err(4));
        assert_eq!(check(2, &encoded(0xA1, &encoded(tag, &contents))), Err(4));
        assert_eq!(check(2, &encoded(tag, &contents)), Err(4));
        assert_eq!(check(1, &encoded(0xA1, &encoded(tag, &contents))), Ok(()));
        assert_eq!(check(1, &encoded(0xA1, &contents)), Err(4));
    }
    // A CHOICE of a name is no name for the rules, its alternative is.
    let table = [vec![13, 1], member("rdnSequence", 2, 0, 0, 0, &[]), vec![RDN_SEQUENCE]].concat();
    let value = encoded(0x30, &name("cn=a"));
    let asked = |component: &str| {
        let filter = format!("item:{{{component}rule distinguishedNameMatch,value \"2.5.4.3=a\"}}");
        ask(&table, &value, filter.as_bytes(), BUDGET)
    };
    assert_eq!(asked(""), UNDEFINED);
    assert_eq!(asked("component \"rdnSequence\","), TRUE);
}

// longer member names.

/// 29 letters.
const CATEGORY: &str = "educationalConcessionCategory";
/// As long as a name may be.
const LONGEST: &str = "a-name-of-48-characters-begins-as-another-does-1";

/// A SEQUENCE or CHOICE of two members, and an INTEGER, which is row 3.
fn two(group: u8, first: Vec<u8>, second: Vec<u8>) -> Result<usize, u8> {
    check_table(&[vec![group, 2], first, second, vec![2]].concat())
}

/// A table of up to 8,064 octets is looked at, a larger one is not, by each entry alike.
#[test]
fn sizes_of_tables() {
    for (size, number) in
        [(4992, 2), (4993, 2), (7515, 2), (7516, 2), (8063, 2), (8064, 2), (8065, 1), (9000, 1)]
    {
        for octet in [2, 0, 12, 16, 21] {
            let table = vec![octet; size];
            assert_eq!(check_table(&table), Err(number), "{size} {octet}");
            assert_eq!(check_value(&table, &LICENCE), Err(number), "{size} {octet}");
            assert_eq!(list(&table, &LICENCE, Some(b"x"), true, &mut []), Err(number), "{size} {octet}");
            assert_eq!(ask(&table, &LICENCE, b"x", BUDGET), Err(number), "{size} {octet}");
        }
    }
    assert_eq!(check_table(&[]), Err(1));
    // 128 rows of 63 octets have this size, but none of them is a type.
    let members = long_member(LONGEST, 1, 0, 0, 0, &[]).repeat(128);
    assert_eq!((members.len(), check_table(&members)), (8064, Err(2)));
    // Another size that isn't good goes first too.
    assert_eq!(check_value(&[2; 8064], &[2]), Err(1));
    assert_eq!(ask(&[2; 8064], &LICENCE, b"x", 65_536), Err(1));
}

/// SEQUENCEs of long members of the last row's type, which is given: 16 in each and what is left in the last.
fn many_long(members: usize, last: &[u8]) -> Vec<u8> {
    let groups = members.div_ceil(16);
    let row = |at: usize| {
        let name = format!("{}{}", &LONGEST[..47], char::from(b'a' + at as u8));
        long_member(&name, (groups + members) as u16, 0, 0, 0, &[])
    };
    let mut table = Vec::new();
    for group in 0..groups {
        let count = (members - 16 * group).min(16);
        table.extend([12, count as u8]);
        table.extend((0..count).flat_map(row));
    }
    table.extend(last);
    table
}

/// The largest table that is admitted: 8 SEQUENCEs, 119 long members and a SEQUENCE without any.
#[test]
fn largest_table() {
    let largest = many_long(119, &[12, 0]);
    assert_eq!((largest.len(), check_table(&largest)), (7515, Ok(128)));
    assert_eq!(check_table(&many_long(119, &[2])), Ok(128));
    // The last row has to be a type without a row number; 129 rows are too many.
    assert_eq!(check_table(&many_long(119, &[14, 0, 127])), Err(2));
    assert_eq!(check_table(&many_long(119, &[12, 0, 2])), Err(2));
    assert_eq!(check_table(&many_long(120, &[2])), Err(2));
    assert_eq!(check_table(&largest[..7514]), Err(2));
    assert_eq!(check_table(&largest[..7513]), Err(2));

    // 16 empty SEQUENCEs; the last member's name.
    let value = encoded(0x30, &[0x30, 0].repeat(16));
    let last = format!("{}p", &LONGEST[..47]);
    let mut room = [9999; 4];
    assert_eq!(check_value(&largest, &value), Ok(()));
    assert_eq!(list(&largest, &value, Some(last.as_bytes()), true, &mut room), Ok(1));
    assert_eq!(room, [0, 32, 2, 9999]);
    let filter = format!("item:{{component \"{last}\",rule presentMatch,value NULL}}");
    assert_eq!(ask(&largest, &value, filter.as_bytes(), BUDGET), TRUE);
    // One octet of the last name of all makes it the one before.
    let mut twice = largest.clone();
    assert_eq!(twice[7515 - 2 - 15], b'g');
    twice[7515 - 2 - 15] = b'f';
    assert_eq!(check_table(&twice), Err(2));
}

/// A name of 25 to 48 characters stands in the long field, a shorter one in the other: each has one form.
#[test]
fn forms_of_long_names() {
    let one = |row: Vec<u8>| check_table(&[vec![12, 1], row, vec![2]].concat());
    for length in 1..=48 {
        let name = "m".repeat(length);
        let expected = if length > 24 { Ok(3) } else { Err(2) };
        assert_eq!(one(long_member(&name, 2, 0, 0, 0, &[])), expected, "{length}");
        if length <= 24 {
            assert_eq!(one(member(&name, 2, 0, 0, 0, &[])), Ok(3), "{length}");
        }
    }
    for (name, expected) in [
        (CATEGORY, Ok(3)),
        (LONGEST, Ok(3)),
        ("a-name-of-25-characters-1", Ok(3)),
        ("a-name-of-24-characters1", Err(2)),
        ("aA1-bB2-cC3-dD4-eE5-fF6-gG7", Ok(3)),
        ("", Err(2)),
        // Not the form of a name.
        ("EducationalConcessionCategory", Err(2)),
        ("1educationalConcessionCategory", Err(2)),
        ("-educationalConcessionCategory", Err(2)),
        ("educationalConcessionCategory-", Err(2)),
        ("educational--concessionCategory", Err(2)),
        ("educationalConcession--Category", Err(2)),
        ("educational_concession_category", Err(2)),
        ("educational concession category", Err(2)),
        ("educational.concession.category", Err(2)),
        ("educationalConcessionCategori\u{e9}", Err(2)),
        ("a-name-of-48-characters-begins-as-another-does--", Err(2)),
        ("a-name-of-48-characters-begins-as-another-does1-", Err(2)),
        // Zeros are after the name only.
        ("\0educationalConcessionCategory", Err(2)),
        ("educational\0ConcessionCategory", Err(2)),
        ("a-name-of-24-characters1\0a", Err(2)),
        ("a-name-of-25-characters-1\0a", Err(2)),
        ("educationalConcessionCategory\0\0\0\0\0\0\0\0\0\0\0\0\0\0\0\0\0\0a", Err(2)),
        ("a-name-of-48-characters-begins-as-another-does\x001", Err(2)),
    ] {
        assert_eq!(one(long_member(name, 2, 0, 0, 0, &[])), expected, "{name:?}");
    }
    // The body is as long as the kind says.
    let row = long_member(CATEGORY, 2, 0, 0, 0, &[]);
    assert_eq!(row.len(), 1 + 62);
    let cut = |length: usize| check_table(&[&[12, 1][..], &row[..length], &[2]].concat());
    assert_eq!([cut(63), cut(62), cut(39), cut(1)], [Ok(3), Err(2), Err(2), Err(2)]);
    assert_eq!(check_table(&[21]), Err(2));
    let as_other_kind = |kind: u8, row: &[u8]| check_table(&[&[12, 1, kind][..], &row[1..], &[2]].concat());
    assert_eq!(as_other_kind(16, &row), Err(2));
    assert_eq!(as_other_kind(21, &member("a", 2, 0, 0, 0, &[])), Err(2));
}

/// A long member is a member in everything that stands after its name.
#[test]
fn fields_of_long_members() {
    let b = || member("b", 3, 0, 0, 0, &[]);
    let long = |ty, mode, number, presence, default: &[u8]| {
        two(12, long_member(CATEGORY, ty, mode, number, presence, default), b())
    };
    for (found, expected) in [
        (long(3, 0, 0, 0, &[]), Ok(4)),
        // Row numbers are those of later types.
        (long(0, 0, 0, 0, &[]), Err(2)),
        (long(1, 0, 0, 0, &[]), Err(2)),
        (long(2, 0, 0, 0, &[]), Err(2)),
        (long(4, 0, 0, 0, &[]), Err(2)),
        (long(0x0103, 0, 0, 0, &[]), Err(2)),
        // Tags.
        (long(3, 0, 1, 0, &[]), Err(2)),
        (long(3, 1, 30, 0, &[]), Ok(4)),
        (long(3, 1, 31, 0, &[]), Err(2)),
        (long(3, 2, 0, 0, &[]), Ok(4)),
        (long(3, 3, 0, 0, &[]), Err(2)),
        // Presence; an untagged INTEGER stands after it.
        (long(3, 0, 0, 1, &[]), Err(2)),
        (long(3, 2, 0, 1, &[]), Ok(4)),
        (long(3, 2, 0, 3, &[]), Err(2)),
        (long(3, 2, 0, 1, &[1]), Err(2)),
        // Defaults.
        (long(3, 2, 0, 2, &[]), Err(2)),
        (long(3, 2, 0, 2, &[1]), Ok(4)),
        (long(3, 2, 0, 2, &[0, 1]), Err(2)),
        (long(3, 2, 0, 2, &[1, 2, 3, 4, 5, 6, 7, 8]), Ok(4)),
        (long(3, 0, 0, 2, &[1]), Err(2)),
    ] {
        assert_eq!(found, expected);
    }
    let mut filled = long_member(CATEGORY, 3, 2, 0, 2, &[1]);
    assert_eq!(filled[54], 1);
    filled[62] = 1;
    assert_eq!(two(12, filled.clone(), b()), Err(2));
    filled[62] = 0;
    filled[54] = 9;
    assert_eq!(two(12, filled, b()), Err(2));

    // Alternatives: mandatory, of different tags, and no implicit tag on a CHOICE.
    let choice = |mode, presence| two(13, long_member(CATEGORY, 3, mode, 0, presence, &[]), b());
    assert_eq!([choice(2, 0), choice(1, 0), choice(0, 0), choice(2, 1)], [Ok(4), Ok(4), Err(2), Err(2)]);
    let of_choice = |mode| {
        let rows = [member("a", 4, 0, 0, 0, &[]), vec![2]].concat();
        check_table(&[vec![12, 1], long_member(CATEGORY, 2, mode, 0, 0, &[]), vec![13, 1], rows].concat())
    };
    assert_eq!([of_choice(0), of_choice(1), of_choice(2)], [Ok(5), Ok(5), Err(2)]);
    // A chain of 16 types is admitted, one of 17 isn't: rows 0, 2, 4, .. are SEQUENCEs.
    let chain = |types: u16| {
        let row = |at: u16| [vec![12, 1], long_member(LONGEST, 2 * at + 2, 0, 0, 0, &[])].concat();
        check_table(&[(0..types - 1).flat_map(row).collect(), vec![2]].concat())
    };
    assert_eq!([chain(16), chain(17)], [Ok(31), Err(2)]);
}

/// Both kinds of member in one type, in any order; all of a name counts.
#[test]
fn mixed_members() {
    let row = |name: &str, ty| {
        if name.len() > 24 {
            long_member(name, ty, 0, 0, 0, &[])
        } else {
            member(name, ty, 0, 0, 0, &[])
        }
    };
    for (first, second, differ) in [
        (CATEGORY, "b", true),
        ("b", CATEGORY, true),
        (CATEGORY, LONGEST, true),
        (CATEGORY, CATEGORY, false),
        (LONGEST, LONGEST, false),
        // Alike in 24 characters, in 40, in 47, in all of the shorter one, and but for case.
        ("educationalConcessionCat", CATEGORY, true),
        ("educationalConcessionCategories", CATEGORY, true),
        ("educationalConcessionCategor", CATEGORY, true),
        ("a-name-of-48-characters1", LONGEST, true),
        ("a-name-of-48-characters-begins-as-anothe2-does-1", LONGEST, true),
        ("a-name-of-48-characters-begins-as-anotherDoes-1", LONGEST, true),
        ("a-name-of-48-characters-begins-as-another-does-2", LONGEST, true),
        ("a-name-of-48-characters-begins-as-another-does", LONGEST, true),
        ("a-Name-of-48-characters-begins-as-another-does-1", LONGEST, true),
    ] {
        let expected = if differ { Ok(4) } else { Err(2) };
        for group in [12, 13] {
            let tagged = |mut row: Vec<u8>, number: u8| {
                let at = row.len() - 12;
                row[at..at + 2].copy_from_slice(&[2, number]);
                row
            };
            let found = two(group, tagged(row(first, 3), 0), tagged(row(second, 3), 1));
            assert_eq!(found, expected, "{first} {second}");
            let found = two(group, tagged(row(second, 3), 0), tagged(row(first, 3), 1));
            assert_eq!(found, expected, "{second} {first}");
        }
    }
    // The same name may stand in two types.
    let inner = || [vec![12, 1], row(CATEGORY, 4)].concat();
    assert_eq!(check_table(&[vec![12, 1], row(CATEGORY, 2), inner(), vec![2]].concat()), Ok(5));
    // 16 members of both kinds, and one more.
    let many = |count: u8| {
        let rows = (0..count).flat_map(|at| {
            let letter = char::from(b'a' + at / 2);
            let name = if at % 2 == 0 { CATEGORY } else { "m" };
            row(&format!("{name}{letter}"), u16::from(count) + 1)
        });
        check_table(&[vec![12, count], rows.collect(), vec![2]].concat())
    };
    assert_eq!([many(15), many(16), many(17)], [Ok(17), Ok(18), Err(2)]);
}

/// Rows of kind 21 stand after a SEQUENCE or CHOICE and nowhere else; no other row has a long form.
#[test]
fn places_of_long_members() {
    let long = || long_member(CATEGORY, 2, 0, 0, 0, &[]);
    let bit = || named_bits(&[("a", 0)])[2..].to_vec();
    for (rows, expected) in [
        (vec![vec![12, 1], long(), vec![2]], Ok(3)),
        (vec![vec![13, 1], long(), vec![2]], Ok(3)),
        (vec![long(), vec![2, 2]], Err(2)),
        (vec![vec![12, 0], long(), vec![2]], Err(2)),
        (vec![vec![12, 1], long(), long(), vec![2]], Err(2)),
        (vec![vec![12, 2], long(), vec![2]], Err(2)),
        (vec![vec![2], long(), vec![2]], Err(2)),
        (vec![vec![12, 1], member("a", 3, 0, 0, 0, &[]), long(), vec![2]], Err(2)),
        (vec![vec![14, 0, 2], long(), vec![2]], Err(2)),
        (vec![vec![14, 0, 1], vec![12, 1], long_member(CATEGORY, 3, 0, 0, 0, &[]), vec![2]], Ok(4)),
        // Its row is no type.
        (vec![vec![14, 0, 2], vec![12, 1], long_member(CATEGORY, 3, 0, 0, 0, &[]), vec![2]], Err(2)),
        // Names of bits.
        (vec![vec![17, 1], bit()], Ok(2)),
        (vec![vec![17, 1], long(), vec![2]], Err(2)),
        // Cut to 24 characters, it would be the name of bit 49.
        (vec![vec![17, 1], long_member("a-name-of-24-characters11", 2, 0, 0, 0, &[]), vec![2]], Err(2)),
        (vec![vec![17, 2], bit(), long(), vec![2]], Err(2)),
        (vec![vec![12, 2], long(), bit(), vec![2]], Err(2)),
        (vec![named_bits(&[("a-name-of-24-characters1", 0)])], Ok(2)),
        (vec![vec![17, 1, 18], CATEGORY.bytes().chain([0; 19]).collect(), vec![0]], Err(2)),
        (vec![vec![17, 1, 18], CATEGORY.bytes().collect(), vec![0]], Err(2)),
        // The next kind isn't known.
        (vec![vec![12, 1, 22], long()[1..].to_vec(), vec![2]], Err(2)),
        (vec![vec![22]], Err(2)),
    ] {
        assert_eq!(check_table(&rows.concat()), expected, "{rows:02X?}");
    }
}

/// A licence whose parts have a concession category, a member alike in its first 24 letters, and a CHOICE.
fn concessions() -> Vec<u8> {
    [
        vec![12, 2],
        member("event", 3, 0, 0, 0, &[]),
        member("parts", 4, 0, 0, 0, &[]),
        vec![8, 14, 0, 5, 12, 4],
        long_member(CATEGORY, 10, 0, 0, 0, &[]),
        member("educationalConcessionCat", 11, 2, 0, 1, &[]),
        long_member("educationalConcessionCategoryCopies", 11, 2, 1, 2, &[1]),
        long_member("educationalConcessionCategoryReason", 12, 1, 2, 1, &[]),
        vec![9, 2, 13, 2],
        member("content", 15, 0, 0, 0, &[]),
        long_member("educationalConcessionCategory-2", 16, 2, 3, 0, &[]),
        vec![9, 2],
    ]
    .concat()
}

/// References use the whole name, whatever begins as it does.
#[test]
fn references_of_long_names() {
    let table = concessions();
    // Row 5 is the part, rows 6 to 9 its members, row 10 PrintableString, row 11 INTEGER, row 12 the CHOICE.
    assert_eq!(check_table(&table), Ok(17));
    let value = [
        // The event "e", the list from 5 on.
        0x30, 0x1E, 0x0C, 0x01, 0x65, 0x30, 0x19, //
        // From 7 on "pupil" and 3.
        0x30, 0x0A, 0x13, 0x05, 0x70, 0x75, 0x70, 0x69, 0x6C, 0x80, 0x01, 0x03, //
        // From 19 on "x", 2 and, chosen, 7.
        0x30, 0x0B, 0x13, 0x01, 0x78, 0x81, 0x01, 0x02, 0xA2, 0x03, 0x83, 0x01, 0x07,
    ];
    assert_eq!(check_value(&table, &value), Ok(()));
    let mut default = value;
    default[26] = 1;
    assert_eq!(check_value(&table, &default), Err(4));

    let answers = |of_parts: &str, rule: &str, text: &str| {
        let reference = format!("parts.*.{of_parts}");
        let listed = |defaults| {
            let mut room = [9999; 6];
            list(&table, &value, Some(reference.as_bytes()), defaults, &mut room)
                .map(|count| room[..3 * count].to_vec())
        };
        let filter = format!("item:{{component \"{reference}\",rule {rule},value {text}}}");
        (listed(true), listed(false), ask(&table, &value, filter.as_bytes(), BUDGET))
    };
    let (whole, first_24) = (CATEGORY, "educationalConcessionCat");
    assert_eq!(first_24, &whole[..24]);
    for (reference, rule, text, listed, without, expected) in [
        (whole, "caseIgnoreMatch", "\"PUPIL\"", vec![0, 9, 7, 0, 21, 3], vec![0, 9, 7, 0, 21, 3], TRUE),
        (whole, "integerMatch", "3", vec![0, 9, 7, 0, 21, 3], vec![0, 9, 7, 0, 21, 3], UNDEFINED),
        (first_24, "integerMatch", "3", vec![0, 16, 3], vec![0, 16, 3], TRUE),
        (first_24, "caseIgnoreMatch", "\"pupil\"", vec![0, 16, 3], vec![0, 16, 3], UNDEFINED),
        (
            "educationalConcessionCategoryCopies",
            "integerMatch",
            "2",
            vec![1, 7, 8, 0, 24, 3],
            vec![0, 24, 3],
            Ok((Truth::True, 2)),
        ),
        ("educationalConcessionCategoryReason", "presentMatch", "NULL", vec![0, 29, 3], vec![0, 29, 3], TRUE),
        (
            "educationalConcessionCategoryReason.educationalConcessionCategory-2",
            "integerMatch",
            "7",
            vec![0, 29, 3],
            vec![0, 29, 3],
            TRUE,
        ),
        (
            "educationalConcessionCategoryReason.content",
            "caseExactMatch",
            "\"x\"",
            vec![],
            vec![],
            Ok((Truth::False, 0)),
        ),
    ] {
        assert_eq!(answers(reference, rule, text), (Ok(listed), Ok(without), expected), "{reference}");
    }
    for reference in [
        "educationalConcessionCa",
        "educationalConcessionCate",
        "educationalConcessionCategor",
        "educationalConcessionCategorz",
        "educationalConcessionCategory1",
        "educationalConcessionCategoryCopie",
        "educationalConcessionCategoryCopiesOfAPart",
        "EducationalConcessionCategory",
        "educationalConcessioncategory",
        "educationalConcessionCategory.",
        "educationalConcessionCategory.educationalConcessionCategory",
        "educationalConcessionCategoryReason.educationalConcessionCat",
        "educationalConcessionCategoryReason.educationalConcessionCategory",
        "educationalConcessionCategory\0",
    ] {
        let expected = (Err(3), Err(3), UNDEFINED);
        assert_eq!(answers(reference, "presentMatch", "NULL"), expected, "{reference:?}");
    }
}

/// A name isn't cut: of one member with a long name, no shorter and no longer name is a reference.
#[test]
fn long_names_cut() {
    for name in [CATEGORY, LONGEST, "a-name-of-25-characters-1"] {
        let table = [vec![12, 1], long_member(name, 2, 0, 0, 0, &[]), vec![2]].concat();
        let value = [0x30, 3, 2, 1, 5];
        let longer = name.to_string() + "1";
        for length in 1..=longer.len() {
            let reference = &longer[..length];
            let is_name = length == name.len();
            let filter = format!("item:{{component \"{reference}\",rule integerMatch,value 5}}");
            let expected = if is_name { TRUE } else { UNDEFINED };
            assert_eq!(ask(&table, &value, filter.as_bytes(), BUDGET), expected, "{filter}");
            let mut room = [0; 3];
            let listed = list(&table, &value, Some(reference.as_bytes()), true, &mut room);
            assert_eq!(listed, if is_name { Ok(1) } else { Err(3) }, "{reference}");
            assert_eq!(room, if is_name { [0, 2, 3] } else { [0; 3] });
        }
    }
}

/// The licence's table reads as before. A short name in a long field isn't admitted there, a long one is.
#[test]
fn licence_with_long_fields() {
    assert_eq!(check_table(&licence_table()), Ok(12));
    let rows = |name: Vec<u8>| [&licence_table()[..2], &name, &licence_table()[2 + 39..]].concat();
    assert_eq!(check_table(&rows(member("event", 4, 0, 0, 0, &[]))), Ok(12));
    assert_eq!(check_table(&rows(long_member("event", 4, 0, 0, 0, &[]))), Err(2));
    let table = rows(long_member("educationalEventOfTheLicence", 4, 0, 0, 0, &[]));
    assert_eq!(check_table(&table), Ok(12));
    let asked = |table: &[u8], reference: &str| {
        let filter = format!("item:{{component \"{reference}\",rule caseIgnoreMatch,value \"E1\"}}");
        ask(table, &LICENCE, filter.as_bytes(), BUDGET)
    };
    assert_eq!(asked(&licence_table(), "event"), TRUE);
    assert_eq!(asked(&table, "event"), UNDEFINED);
    assert_eq!(asked(&table, "educationalEventOfTheLicence"), TRUE);
    let copies = b"item:{component \"parts.*.copies\",rule integerMatch,value 3}";
    assert_eq!(ask(&table, &LICENCE, copies, BUDGET), Ok((Truth::True, 2)));
}
