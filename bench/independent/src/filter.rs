//! The filter text: filters, lists and assertions in GSER.

use crate::rules;

/// The size of a filter in octets.
pub const SIZES: std::ops::RangeInclusive<usize> = 1..=2048;
const MAX_DEPTH: usize = 16;
const MAX_ITEMS: usize = 64;

#[derive(Debug)]
pub enum Filter<'f> {
    Item(Assertion<'f>),
    And(Vec<Filter<'f>>),
    Or(Vec<Filter<'f>>),
    Not(Box<Filter<'f>>),
}

/// The parts of an assertion. Only their form is known.
#[derive(Debug)]
pub struct Assertion<'f> {
    /// The reference as it stands between the quotes. A doubled quote is left doubled: no reference has
    /// a quote in it, so that one with a quote is malformed either way.
    pub component: Option<&'f [u8]>,
    pub use_defaults: bool,
    /// A name or a dotted OID.
    pub rule: &'f [u8],
    pub value: &'f [u8],
}

impl<'f> Filter<'f> {
    /// Reads a filter; `None` if it is not of its form or over depth or items.
    pub fn parse(text: &'f [u8]) -> Option<Filter<'f>> {
        std::str::from_utf8(text).ok()?;
        let mut parser = Parser { rest: text, items: 0 };
        let filter = parser.filter(MAX_DEPTH)?;
        parser.rest.is_empty().then_some(filter)
    }
}

struct Parser<'f> {
    rest: &'f [u8],
    items: usize,
}

impl<'f> Parser<'f> {
    fn filter(&mut self, depth: usize) -> Option<Filter<'f>> {
        let below = depth.checked_sub(1)?;
        if self.accept(b"item:") {
            self.items += 1;
            if self.items > MAX_ITEMS {
                return None;
            }
            self.assertion().map(Filter::Item)
        } else if self.accept(b"and:") {
            self.list(below).map(Filter::And)
        } else if self.accept(b"or:") {
            self.list(below).map(Filter::Or)
        } else {
            self.expect(b"not:")?;
            self.filter(below).map(|inner| Filter::Not(Box::new(inner)))
        }
    }

    fn list(&mut self, depth: usize) -> Option<Vec<Filter<'f>>> {
        let mut filters = Vec::new();
        self.expect(b"{")?;
        self.spaces();
        if self.accept(b"}") {
            return Some(filters);
        }
        loop {
            filters.push(self.filter(depth)?);
            if !self.accept(b",") {
                break;
            }
            self.spaces();
        }
        self.spaces();
        self.expect(b"}")?;
        Some(filters)
    }

    fn assertion(&mut self) -> Option<Assertion<'f>> {
        self.expect(b"{")?;
        self.spaces();
        let mut component = None;
        if self.accept(b"component") {
            self.some_spaces()?;
            component = Some(self.quoted()?);
            self.comma()?;
        }
        let mut use_defaults = true;
        if self.accept(b"useDefaultValues") {
            self.some_spaces()?;
            if !self.accept(b"TRUE") {
                self.expect(b"FALSE")?;
                use_defaults = false;
            }
            self.comma()?;
        }
        self.expect(b"rule")?;
        self.some_spaces()?;
        let rule = self.rule()?;
        self.comma()?;
        self.expect(b"value")?;
        self.some_spaces()?;
        let value = self.value()?;
        Some(Assertion { component, use_defaults, rule, value })
    }

    /// The text between two quotes; a doubled quote doesn't end it.
    fn quoted(&mut self) -> Option<&'f [u8]> {
        self.expect(b"\"")?;
        let mut at = 0;
        loop {
            at += self.rest[at..].iter().position(|&b| b == b'"')?;
            if self.rest.get(at + 1) != Some(&b'"') {
                break;
            }
            at += 2;
        }
        let text = self.take(at);
        self.expect(b"\"")?;
        Some(text)
    }

    fn rule(&mut self) -> Option<&'f [u8]> {
        let part_of_rule = |b: &u8| b.is_ascii_alphanumeric() || matches!(b, b'-' | b'.');
        let length = self.rest.iter().take_while(|&b| part_of_rule(b)).count();
        let text = self.take(length);
        (rules::is_name(text) || rules::is_dotted(text)).then_some(text)
    }

    /// The text up to the brace that closes the assertion, and that brace.
    fn value(&mut self) -> Option<&'f [u8]> {
        let mut open = 0usize;
        let mut in_quotes = false;
        let length = self.rest.iter().position(|&b| {
            match b {
                b'"' => in_quotes = !in_quotes,
                b'{' if !in_quotes => open += 1,
                b'}' if !in_quotes && open == 0 => return true,
                b'}' if !in_quotes => open -= 1,
                _ => {}
            }
            false
        })?;
        let text = trim_spaces(self.take(length));
        self.expect(b"}")?;
        (!text.is_empty()).then_some(text)
    }

    fn comma(&mut self) -> Option<()> {
        self.expect(b",")?;
        self.spaces();
        Some(())
    }

    fn spaces(&mut self) {
        while self.accept(b" ") {}
    }

    fn some_spaces(&mut self) -> Option<()> {
        self.expect(b" ")?;
        self.spaces();
        Some(())
    }

    fn take(&mut self, length: usize) -> &'f [u8] {
        let (taken, rest) = self.rest.split_at(length);
        self.rest = rest;
        taken
    }

    fn accept(&mut self, word: &[u8]) -> bool {
        match self.rest.strip_prefix(word) {
            Some(rest) => {
                self.rest = rest;
                true
            }
            None => false,
        }
    }

    fn expect(&mut self, word: &[u8]) -> Option<()> {
        self.accept(word).then_some(())
    }
}

fn trim_spaces(mut text: &[u8]) -> &[u8] {
    while let [b' ', rest @ ..] = text {
        text = rest;
    }
    while let [rest @ .., b' '] = text {
        text = rest;
    }
    text
}

#[cfg(test)]
mod tests {
    use super::*;

    fn good(text: &str) -> bool {
        Filter::parse(text.as_bytes()).is_some()
    }

    #[test]
    fn forms() {
        for text in [
            "and:{}",
            "or:{  }",
            "not:and:{}",
            "item:{rule presentMatch,value NULL}",
            "item:{ component  \"a\"\"b\", useDefaultValues TRUE, rule 2.5.13.14, value  {\"}\"} }",
            "and:{ item:{rule a-,value 3, x},  or:{} }",
        ] {
            assert!(good(text), "{text}");
        }
        for text in [
            "",
            " and:{}",
            "and:{} ",
            "and: {}",
            "Item:{rule presentMatch,value NULL}",
            "item:{rule presentMatch ,value NULL}",
            "item:{rule presentMatch,value\"x\"}",
            "item:{rule presentMatch,value }",
            "item:{value NULL,rule presentMatch}",
            "item:{component seats,rule presentMatch,value NULL}",
            "item:{useDefaultValues false,rule presentMatch,value NULL}",
            "item:{rule 2.05,value NULL}",
            "item:{rule my_rule,value NULL}",
            "item:{rule presentMatch,value \"a}",
            "item:{rule presentMatch,value '}'}",
            "and:{and:{},}",
            "not:{}",
        ] {
            assert!(!good(text), "{text}");
        }
    }

    #[test]
    fn limits() {
        assert!(good(&format!("{}and:{{}}", "not:".repeat(15))));
        assert!(!good(&format!("{}and:{{}}", "not:".repeat(16))));
        let items = |n: usize| format!("and:{{{}}}", vec!["item:{rule a,value 1}"; n].join(","));
        assert!(good(&items(64)));
        assert!(!good(&items(65)));
    }
}
