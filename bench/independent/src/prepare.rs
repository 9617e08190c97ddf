//! String preparation: Q-1 of document 02, by RFC 4518 sections 2.2 (Map), 2.3 (Normalize) and 2.6.1 (spaces).
//!
//! Texts are octets of valid UTF-8. Characters above U+017F stand for themselves. Those from U+0080 to U+017F are
//! exactly the characters of two octets that begin with C2 to C5. Foldings are those of RFC 3454 table B.2,
//! compatibility forms those of Unicode 3.2.

/// Whether the Map step folds letters: it does for caseIgnoreMatch, not for caseExactMatch.
#[derive(Clone, Copy, Debug, PartialEq, Eq)]
pub enum Case {
    Fold,
    Keep,
}

/// What a character up to U+017F is mapped and normalized to.
#[derive(Clone, Copy, Debug, PartialEq, Eq)]
pub enum Image {
    Nothing,
    /// A space that is trimmed or joined.
    Space,
    One(char),
    /// Several characters. A space among them is NFKC's, before a combining mark, and stays.
    Several(&'static str),
}

/// The image of a character up to U+017F.
pub fn image(c: char, case: Case) -> Image {
    match c {
        '\t'..='\r' | ' ' | '\u{85}' | '\u{A0}' => Image::Space,
        '\0'..='\u{1F}' | '\u{7F}'..='\u{9F}' | '\u{AD}' => Image::Nothing,
        _ if case == Case::Keep => compatible(c),
        _ => match folded(c) {
            Image::One(letter) => compatible(letter),
            several => several,
        },
    }
}

/// Table B.2.
fn folded(c: char) -> Image {
    Image::One(match c {
        'A'..='Z' | 'À'..='Ö' | 'Ø'..='Þ' => plus(c, 0x20),
        'µ' => '\u{3BC}',
        'ß' => return Image::Several("ss"),
        '\u{130}' => return Image::Several("i\u{307}"),
        '\u{149}' => return Image::Several("\u{2BC}n"),
        '\u{178}' => '\u{FF}',
        '\u{17F}' => 's',
        // Capital and small letters in turn: here capitals have even numbers, below odd ones.
        '\u{100}'..='\u{137}' | '\u{14A}'..='\u{177}' if u32::from(c) % 2 == 0 => plus(c, 1),
        '\u{139}'..='\u{148}' | '\u{179}'..='\u{17E}' if u32::from(c) % 2 == 1 => plus(c, 1),
        _ => c,
    })
}

fn plus(c: char, more: u32) -> char {
    char::from_u32(u32::from(c) + more).unwrap_or(c)
}

/// The NFKC form of a single character.
fn compatible(c: char) -> Image {
    Image::Several(match c {
        '\u{A8}' => " \u{308}",
        '\u{AA}' => "a",
        '\u{AF}' => " \u{304}",
        '\u{B2}' => "2",
        '\u{B3}' => "3",
        '\u{B4}' => " \u{301}",
        '\u{B5}' => "\u{3BC}",
        '\u{B8}' => " \u{327}",
        '\u{B9}' => "1",
        '\u{BA}' => "o",
        '\u{BC}' => "1\u{2044}4",
        '\u{BD}' => "1\u{2044}2",
        '\u{BE}' => "3\u{2044}4",
        '\u{132}' => "IJ",
        '\u{133}' => "ij",
        '\u{13F}' => "L\u{B7}",
        '\u{140}' => "l\u{B7}",
        '\u{149}' => "\u{2BC}n",
        '\u{17F}' => "s",
        _ => return Image::One(c),
    })
}

/// Whether an octet that begins a character or is within one stands for itself, but for the case of ASCII: graphic ASCII,
/// and the octets of characters above U+017F.
fn is_plain(octet: u8) -> bool {
    !matches!(octet, 0..=0x20 | 0x7F | 0xC2..=0xC5)
}

/// Hands the prepared text over in pieces, from the left, until one is not wanted. True if all were wanted. The case of
/// ASCII is as in the text: it is left to the receiver.
fn pieces(text: &[u8], case: Case, mut wanted: impl FnMut(&[u8]) -> bool) -> bool {
    let mut rest = text;
    // Whether something was handed over, and whether there was space since.
    let (mut begun, mut space) = (false, false);
    while let [first, after @ ..] = rest {
        let mut buffer = [0; 4];
        let run = rest.iter().take_while(|&&octet| is_plain(octet)).count();
        let piece = if run > 0 {
            let (plain, after) = rest.split_at(run);
            rest = after;
            plain
        } else {
            let (code, after) = match after {
                [second, after @ ..] if *first >= 0xC2 => {
                    (u16::from(first & 0x1F) << 6 | u16::from(second & 0x3F), after)
                }
                _ => (u16::from(*first), after),
            };
            rest = after;
            match image(char::from_u32(code.into()).unwrap_or_default(), case) {
                Image::Nothing => continue,
                Image::Space => {
                    space = true;
                    continue;
                }
                Image::One(letter) => letter.encode_utf8(&mut buffer).as_bytes(),
                Image::Several(letters) => letters.as_bytes(),
            }
        };
        if begun && space && !wanted(b" ") || !wanted(piece) {
            return false;
        }
        (begun, space) = (true, false);
    }
    true
}

/// The prepared text, which is most often the text as it is, or that in lower case.
pub fn prepared(mut text: Vec<u8>, case: Case) -> Vec<u8> {
    if case == Case::Fold {
        text.make_ascii_lowercase();
    }
    if is_prepared_to(&text, case, &text) {
        return text;
    }
    let mut found = Vec::with_capacity(text.len());
    prepare_onto(&text, case, &mut found);
    found
}

/// Puts the prepared text behind what was found before.
pub fn prepare_onto(text: &[u8], case: Case, found: &mut Vec<u8>) {
    let start = found.len();
    pieces(text, case, |piece| {
        found.extend(piece);
        true
    });
    if case == Case::Fold {
        found[start..].make_ascii_lowercase();
    }
}

/// Whether a text is prepared to this one, which has no capitals of ASCII if case is folded.
pub fn is_prepared_to(text: &[u8], case: Case, expected: &[u8]) -> bool {
    let mut rest = expected;
    let begins = pieces(text, case, |piece| match rest.split_at_checked(piece.len()) {
        Some((head, after)) if head == piece || case == Case::Fold && head.eq_ignore_ascii_case(piece) => {
            rest = after;
            true
        }
        _ => false,
    });
    begins && rest.is_empty()
}

#[cfg(test)]
mod tests {
    use super::*;

    const LAST: char = '\u{17F}';

    fn shown(text: &str, case: Case) -> String {
        let octets = prepared(text.as_bytes().to_vec(), case);
        let mut onto = b"Before ".to_vec();
        prepare_onto(text.as_bytes(), case, &mut onto);
        assert_eq!(onto, [b"Before ", &octets[..]].concat());
        assert!(is_prepared_to(text.as_bytes(), case, &octets));
        assert!(!is_prepared_to(text.as_bytes(), case, &[&octets[..], b"x"].concat()));
        String::from_utf8(octets).expect("UTF-8")
    }

    fn text(image: Image) -> String {
        match image {
            Image::Nothing => String::new(),
            Image::Space => " ".to_string(),
            Image::One(letter) => letter.to_string(),
            Image::Several(letters) => letters.to_string(),
        }
    }

    /// Table B.2 is the lower case but for five characters.
    #[test]
    fn foldings() {
        for c in '\0'..=LAST {
            let expected = match c {
                '\u{B5}' => "\u{3BC}".to_string(),
                '\u{DF}' => "ss".to_string(),
                '\u{149}' => "\u{2BC}n".to_string(),
                '\u{17F}' => "s".to_string(),
                _ => c.to_lowercase().collect(),
            };
            assert_eq!(text(folded(c)), expected, "{c:?}");
        }
    }

    #[test]
    fn controls_and_spaces() {
        let (mut spaces, mut nothing) = (Vec::new(), 0);
        for c in '\0'..=LAST {
            assert_eq!(image(c, Case::Keep) == Image::Nothing, image(c, Case::Fold) == Image::Nothing);
            assert_eq!(image(c, Case::Keep) == Image::Space, image(c, Case::Fold) == Image::Space);
            match image(c, Case::Keep) {
                Image::Nothing => nothing += 1,
                Image::Space => spaces.push(c),
                _ => assert!(!c.is_control()),
            }
        }
        assert_eq!(spaces, ['\t', '\n', '\u{B}', '\u{C}', '\r', ' ', '\u{85}', '\u{A0}']);
        // 65 controls without six, and the soft hyphen.
        assert_eq!(nothing, 65 - 6 + 1);
    }

    /// What an image gives has itself as its image, and folding may come before or after NFKC.
    #[test]
    fn images_stand_for_themselves() {
        let again = |letters: &str, case| {
            letters
                .chars()
                .map(|c| if c > LAST || c == ' ' { c.into() } else { text(image(c, case)) })
                .collect::<String>()
        };
        for c in '\0'..=LAST {
            let [kept, fold] = [Case::Keep, Case::Fold].map(|case| text(image(c, case)));
            assert_eq!(again(&kept, Case::Keep), kept);
            assert_eq!(again(&fold, Case::Fold), fold);
            assert_eq!(again(&fold, Case::Keep), fold);
            assert_eq!(again(&kept, Case::Fold), fold);
        }
    }

    /// A character is prepared to its image, whatever stands beside it.
    #[test]
    fn each_character() {
        for c in '\0'..=LAST {
            for case in [Case::Keep, Case::Fold] {
                let letters = match image(c, case) {
                    Image::Space => String::new(),
                    image => text(image),
                };
                assert_eq!(shown(&c.to_string(), case), letters);
                assert_eq!(shown(&format!(" {c} "), case), letters);
                assert_eq!(shown(&format!("a{c}b"), case), format!("a{}b", text(image(c, case))));
                let between = if letters.is_empty() { " ".to_string() } else { format!(" {letters} ") };
                assert_eq!(shown(&format!("a {c} b"), case), format!("a{between}b"));
            }
        }
    }

    #[test]
    fn above() {
        for c in [
            '\u{180}',
            '\u{182}',
            '\u{301}',
            '\u{3A9}',
            '\u{1E9E}',
            '\u{2003}',
            '\u{200B}',
            '\u{FEFF}',
            '\u{FFFD}',
            '\u{10400}',
        ] {
            for case in [Case::Keep, Case::Fold] {
                assert_eq!(shown(&format!("\u{A0}{c}\t \0{c}{c}\u{AD}"), case), format!("{c} {c}{c}"));
            }
        }
    }

    #[test]
    fn spaces_of_nfkc() {
        for (given, expected) in [
            ("\u{B4}", " \u{301}"),
            ("  \u{B4}  ", " \u{301}"),
            ("a\u{B4}", "a \u{301}"),
            ("a \u{A0}\u{B4}", "a  \u{301}"),
            ("\u{B4}\u{A8} \u{AF}\u{B8}", " \u{301} \u{308}  \u{304} \u{327}"),
            (" \u{301}", "\u{301}"),
            ("a  \u{301}", "a \u{301}"),
        ] {
            assert_eq!(shown(given, Case::Keep), expected);
            assert_eq!(shown(given, Case::Fold), expected);
        }
    }

    #[test]
    fn prefixes() {
        let same =
            |text: &str, expected: &str| is_prepared_to(text.as_bytes(), Case::Fold, expected.as_bytes());
        assert!(same("\u{BC}", "1\u{2044}4"));
        for other in ["", "1", "1\u{2044}", "1\u{2044}4 ", "1\u{2044}44"] {
            assert!(!same("\u{BC}", other), "{other}");
        }
        assert!(same("\u{AD} \0", ""));
        assert!(!same("a ", "a "));
    }
}
