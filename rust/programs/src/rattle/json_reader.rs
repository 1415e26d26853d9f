// SPDX-License-Identifier: MIT
//! A reader of JSON by RFC 8259. A number that doesn't fit an `f64` is refused, as by the crate `serde_json`.

use super::serde_json::{Error, Value};
use super::vec::{String, Vec};
use super::Global;

/// Maximum depth of nested arrays and objects.
const DEEPEST: usize = 127;

/// A text of which a part has been read.
pub struct Reader<'a> {
    alloc: Global,
    text: &'a str,
    at: usize,
}

impl<'a> Reader<'a> {
    /// Starts at the beginning.
    pub fn new(alloc: Global, text: &'a str) -> Self {
        Reader { alloc, text, at: 0 }
    }

    /// Parses the whole text as one value.
    pub fn whole_value(mut self) -> Result<Value, Error> {
        let value = self.value(DEEPEST)?;
        if self.next_mark().is_some() {
            return Err(Error::Text);
        }
        Ok(value)
    }

    fn rest(&self) -> &'a str {
        self.text.get(self.at..).unwrap_or("")
    }

    fn next_byte(&self) -> Option<u8> {
        self.text.as_bytes().get(self.at).copied()
    }

    // Returns the next byte that is no white space, without consuming it.
    fn next_mark(&mut self) -> Option<u8> {
        while let Some(b' ' | b'\n' | b'\r' | b'\t') = self.next_byte() {
            self.at += 1;
        }
        self.next_byte()
    }

    // Consumes these characters, if they are next.
    fn takes(&mut self, word: &str) -> bool {
        let is_next = self.rest().starts_with(word);
        if is_next {
            self.at += word.len();
        }
        is_next
    }

    fn take(&mut self, word: &str) -> Result<(), Error> {
        if self.takes(word) {
            Ok(())
        } else {
            Err(Error::Text)
        }
    }

    fn value(&mut self, depth: usize) -> Result<Value, Error> {
        match self.next_mark() {
            Some(b'n') => self.other("null"),
            Some(b't') => self.other("true"),
            Some(b'f') => self.other("false"),
            Some(b'"') => self.string().map(|_| Value::Other),
            Some(b'[') => self.array(depth),
            Some(b'{') => self.object(depth),
            _ => self.number(),
        }
    }

    fn other(&mut self, word: &str) -> Result<Value, Error> {
        self.take(word)?;
        Ok(Value::Other)
    }

    fn array(&mut self, depth: usize) -> Result<Value, Error> {
        let depth = depth.checked_sub(1).ok_or(Error::Text)?;
        let mut items = Vec::new(self.alloc);
        self.take("[")?;
        let mut has_more = self.next_mark() != Some(b']');
        while has_more {
            items.push(self.value(depth)?)?;
            self.next_mark();
            has_more = self.takes(",");
        }
        self.take("]")?;
        Ok(Value::Array(items))
    }

    fn object(&mut self, depth: usize) -> Result<Value, Error> {
        let depth = depth.checked_sub(1).ok_or(Error::Text)?;
        let mut members = Vec::new(self.alloc);
        self.take("{")?;
        let mut has_more = self.next_mark() != Some(b'}');
        while has_more {
            self.next_mark();
            let name = self.string()?;
            self.next_mark();
            self.take(":")?;
            members.push((name, self.value(depth)?))?;
            self.next_mark();
            has_more = self.takes(",");
        }
        self.take("}")?;
        Ok(Value::Object(members))
    }

    // Parses one or more decimal digits.
    fn digits(&mut self) -> Result<(), Error> {
        let count = self.rest().bytes().take_while(u8::is_ascii_digit).count();
        self.at += count;
        if count == 0 {
            return Err(Error::Text);
        }
        Ok(())
    }

    fn number(&mut self) -> Result<Value, Error> {
        let rest = self.rest();
        self.takes("-");
        if !self.takes("0") {
            self.digits()?;
        }
        if self.takes(".") {
            self.digits()?;
        }
        if self.takes("e") || self.takes("E") {
            let _ = self.takes("+") || self.takes("-");
            self.digits()?;
        }
        let number = &rest[..rest.len() - self.rest().len()];
        match number.parse::<f64>() {
            Ok(value) if value.is_finite() => {
                Ok(number.parse().map_or(Value::Other, Value::Number))
            }
            _ => Err(Error::Text),
        }
    }

    fn string(&mut self) -> Result<String, Error> {
        self.take("\"")?;
        let mut text = String::new(self.alloc);
        loop {
            match self.next_char()? {
                '"' => return Ok(text),
                '\\' => text.push(self.escaped()?)?,
                '\0'..='\x1f' => return Err(Error::Text),
                other => text.push(other)?,
            }
        }
    }

    fn next_char(&mut self) -> Result<char, Error> {
        let next = self.rest().chars().next().ok_or(Error::Text)?;
        self.at += next.len_utf8();
        Ok(next)
    }

    // Parses the character of an escape, after its backslash.
    fn escaped(&mut self) -> Result<char, Error> {
        Ok(match self.next_char()? {
            mark @ ('"' | '\\' | '/') => mark,
            'b' => '\x08',
            'f' => '\x0c',
            'n' => '\n',
            'r' => '\r',
            't' => '\t',
            'u' => return self.by_number(),
            _ => return Err(Error::Text),
        })
    }

    // Parses the character of the number after `\u`, or of two such numbers if it takes two units of UTF-16.
    fn by_number(&mut self) -> Result<char, Error> {
        let first = self.unit()?;
        let mut second = None;
        if let 0xd800..=0xdbff = first {
            self.take("\\u")?;
            second = Some(self.unit()?);
        }
        let mut characters = char::decode_utf16([first].into_iter().chain(second));
        match (characters.next(), characters.next()) {
            (Some(Ok(only)), None) => Ok(only),
            _ => Err(Error::Text),
        }
    }

    // Parses the number of four hexadecimal digits.
    fn unit(&mut self) -> Result<u16, Error> {
        let digits = self.rest().get(..4).ok_or(Error::Text)?;
        if !digits.bytes().all(|byte| byte.is_ascii_hexdigit()) {
            return Err(Error::Text);
        }
        self.at += 4;
        u16::from_str_radix(digits, 16).map_err(|_| Error::Text)
    }
}

#[cfg(test)]
mod tests {
    use super::*;

    fn read(text: &str) -> Result<Value, Error> {
        Value::from_str(Global, text)
    }

    #[test]
    fn values_are_read() {
        let value = read(
            " {\"a\" : [1, 18446744073709551615 ,-0, 1.5e3, true, \"\\u00e9\\n\"] , \"b\":{}}\n",
        )
        .unwrap();
        let items = value.get("a").unwrap().as_array().unwrap();
        let numbers: std::vec::Vec<_> = items.iter().map(Value::as_u64).collect();
        assert_eq!(numbers, [Some(1), Some(u64::MAX), None, None, None, None]);
        assert!(value.get("c").is_none() && value.as_u64().is_none());
    }

    #[test]
    fn the_last_member_of_a_name_counts() {
        let value = read("{\"a\":1,\"\\u0061\":2}").unwrap();
        assert_eq!(value.get("a").unwrap().as_u64(), Some(2));
    }

    #[test]
    fn what_is_not_json_is_refused() {
        let wrong = [
            "",
            " ",
            "01",
            "1.",
            ".5",
            "+1",
            "1e",
            "1e999",
            "-",
            "nul",
            "nulll",
            "[1,]",
            "[1 2]",
            "[",
            "{\"a\"}",
            "{\"a\":1,}",
            "{a:1}",
            "\"\n\"",
            "\"\\x\"",
            "\"\\u12\"",
            "\"\\ud800\"",
            "\"\\ud800\\u0041\"",
            "\"\\udc00\"",
            "1 1",
            "\u{a0}1",
        ];
        for text in wrong {
            assert_eq!(read(text).unwrap_err(), Error::Text, "{text}");
        }
    }

    #[test]
    fn lists_nest_127_deep() {
        let nested = |deep| format!("{}{}", "[".repeat(deep), "]".repeat(deep));
        assert!(read(&nested(127)).is_ok());
        assert_eq!(read(&nested(128)).unwrap_err(), Error::Text);
    }

    #[test]
    fn what_is_written_is_read() {
        let numbers = [0, 9, 10, u64::MAX].map(Value::from);
        let mut items = Vec::new(Global);
        for number in numbers {
            items.push(number).unwrap();
        }
        let value = Value::object(
            Global,
            [("a", Value::Array(items)), ("b", Value::from(7u8))],
        )
        .unwrap();
        let text = value.to_string(Global).unwrap();
        assert_eq!(
            text.as_str(),
            "{\"a\":[0,9,10,18446744073709551615],\"b\":7}"
        );
        assert_eq!(
            read(text.as_str()).unwrap().to_string(Global).unwrap(),
            text
        );
    }
}
