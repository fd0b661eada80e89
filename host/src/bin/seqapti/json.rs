//! Reads JSON values that stand one after another, as the original's manifest has them.
use crate::value::Value;

/// Values may lie in one another this deep.
const DEEPEST: usize = 128;

/// Why no value could be read, with the byte at which it was seen, from 0.
#[derive(Clone, Debug, PartialEq, Eq)]
pub enum Fault {
    /// The text ends inside a value.
    Ends,
    Bad {
        at: usize,
        why: String,
    },
}

/// Hands on one value after another.
pub struct Values<'a> {
    text: &'a [u8],
    at: usize,
}

type Read<T> = Result<T, Fault>;

impl<'a> Values<'a> {
    pub fn of(text: &'a [u8]) -> Values<'a> {
        Values { text, at: 0 }
    }

    /// The next value with its first byte, or none where only blanks are left.
    pub fn next(&mut self) -> Option<(usize, Read<Value>)> {
        self.blanks();
        let from = self.at;
        self.peek()?;
        Some((from, self.value(0)))
    }

    fn peek(&self) -> Option<u8> {
        self.text.get(self.at).copied()
    }

    fn blanks(&mut self) {
        while matches!(self.peek(), Some(b' ' | b'\t' | b'\n' | b'\r')) {
            self.at += 1;
        }
    }

    fn bad<T>(&self, why: &str) -> Read<T> {
        Err(Fault::Bad { at: self.at, why: why.into() })
    }

    // The next byte that is no blank.
    fn sign(&mut self) -> Read<u8> {
        self.blanks();
        self.peek().ok_or(Fault::Ends)
    }

    fn value(&mut self, depth: usize) -> Read<Value> {
        if depth >= DEEPEST {
            return self.bad(&format!("values lie in one another more than {DEEPEST} deep"));
        }
        match self.sign()? {
            b'{' => self.object(depth),
            b'[' => self.list(depth),
            b'"' => self.text().map(Value::Text),
            b'-' | b'0'..=b'9' => self.number(),
            b't' => self.word("true", Value::Bool(true)),
            b'f' => self.word("false", Value::Bool(false)),
            b'n' => self.word("null", Value::Null),
            _ => self.bad("no value begins like this"),
        }
    }

    fn word(&mut self, word: &str, value: Value) -> Read<Value> {
        for expected in word.bytes() {
            match self.peek() {
                None => return Err(Fault::Ends),
                Some(byte) if byte == expected => self.at += 1,
                Some(_) => return self.bad("no value begins like this"),
            }
        }
        Ok(value)
    }

    fn object(&mut self, depth: usize) -> Read<Value> {
        let mut fields: Vec<(String, Value)> = Vec::new();
        self.at += 1;
        if self.sign()? == b'}' {
            self.at += 1;
            return Ok(Value::Object(fields));
        }
        loop {
            if self.sign()? != b'"' {
                return self.bad("a field's name is expected");
            }
            let from = self.at;
            let name = self.text()?;
            if fields.iter().any(|(other, _)| *other == name) {
                return Err(Fault::Bad { at: from, why: format!("the field {name:?} stands there twice") });
            }
            if self.sign()? != b':' {
                return self.bad("a colon is expected");
            }
            self.at += 1;
            fields.push((name, self.value(depth + 1)?));
            if self.ends_with(b'}')? {
                return Ok(Value::Object(fields));
            }
        }
    }

    fn list(&mut self, depth: usize) -> Read<Value> {
        let mut values = Vec::new();
        self.at += 1;
        if self.sign()? == b']' {
            self.at += 1;
            return Ok(Value::List(values));
        }
        loop {
            values.push(self.value(depth + 1)?);
            if self.ends_with(b']')? {
                return Ok(Value::List(values));
            }
        }
    }

    // Past a comma, or past the closing sign.
    fn ends_with(&mut self, close: u8) -> Read<bool> {
        let sign = self.sign()?;
        if sign != b',' && sign != close {
            return self.bad(&format!("a comma or `{}` is expected", close as char));
        }
        self.at += 1;
        Ok(sign == close)
    }

    fn digits(&mut self) -> usize {
        let from = self.at;
        while matches!(self.peek(), Some(b'0'..=b'9')) {
            self.at += 1;
        }
        self.at - from
    }

    fn number(&mut self) -> Read<Value> {
        let from = self.at;
        if self.peek() == Some(b'-') {
            self.at += 1;
        }
        let zero = self.peek() == Some(b'0');
        let whole = self.digits();
        if whole > 1 && zero {
            return self.bad("a number has a leading zero");
        }
        self.some_digits(whole)?;
        if self.peek() == Some(b'.') {
            self.at += 1;
            let part = self.digits();
            self.some_digits(part)?;
        }
        if matches!(self.peek(), Some(b'e' | b'E')) {
            self.at += 1;
            if matches!(self.peek(), Some(b'+' | b'-')) {
                self.at += 1;
            }
            let part = self.digits();
            self.some_digits(part)?;
        }
        Ok(Value::Number(String::from_utf8_lossy(&self.text[from..self.at]).into_owned()))
    }

    fn some_digits(&self, count: usize) -> Read<()> {
        match (count, self.peek()) {
            (0, None) => Err(Fault::Ends),
            (0, Some(_)) => self.bad("a digit is expected"),
            _ => Ok(()),
        }
    }

    fn text(&mut self) -> Read<String> {
        let mut text = String::new();
        self.at += 1;
        loop {
            text += self.run()?;
            match self.peek() {
                None => return Err(Fault::Ends),
                Some(b'"') => {
                    self.at += 1;
                    return Ok(text);
                }
                Some(b'\\') => text.push(self.escape()?),
                Some(_) => return self.bad("a control character stands in a text"),
            }
        }
    }

    // Characters that stand for themselves.
    fn run(&mut self) -> Read<&'a str> {
        let rest = &self.text[self.at..];
        let length = rest.iter().position(|b| matches!(b, b'"' | b'\\' | 0..=31)).unwrap_or(rest.len());
        match std::str::from_utf8(&rest[..length]) {
            Ok(run) => {
                self.at += length;
                Ok(run)
            }
            // Cut off in a character.
            Err(e) if e.error_len().is_none() && length == rest.len() => Err(Fault::Ends),
            Err(e) => Err(Fault::Bad { at: self.at + e.valid_up_to(), why: "this is not UTF-8".into() }),
        }
    }

    fn escape(&mut self) -> Read<char> {
        let sign = *self.text.get(self.at + 1).ok_or(Fault::Ends)?;
        let plain = match sign {
            b'"' | b'\\' | b'/' => sign as char,
            b'b' => '\u{8}',
            b'f' => '\u{c}',
            b'n' => '\n',
            b'r' => '\r',
            b't' => '\t',
            b'u' => return self.coded(),
            _ => return self.bad("there is no such escape"),
        };
        self.at += 2;
        Ok(plain)
    }

    // `\uXXXX`, or two of them that make one character.
    fn coded(&mut self) -> Read<char> {
        let from = self.at;
        let first = self.unit()?;
        let code = match first {
            0xd800..=0xdbff => match self.text.get(self.at) {
                None => return Err(Fault::Ends),
                Some(b'\\') => {
                    let second = self.unit()?;
                    match second {
                        0xdc00..=0xdfff => 0x10000 + ((first - 0xd800) << 10) + (second - 0xdc00),
                        _ => first,
                    }
                }
                Some(_) => first,
            },
            _ => first,
        };
        char::from_u32(code).ok_or(Fault::Bad { at: from, why: "this escape is no character".into() })
    }

    fn unit(&mut self) -> Read<u32> {
        let mut code = 0;
        for (i, expected) in [Some(b'\\'), Some(b'u'), None, None, None, None].into_iter().enumerate() {
            let byte = *self.text.get(self.at + i).ok_or(Fault::Ends)?;
            match (expected, (byte as char).to_digit(16)) {
                (Some(sign), _) if sign == byte => {}
                (None, Some(digit)) => code = code * 16 + digit,
                _ => return self.bad("four hexadecimal digits are expected after \\u"),
            }
        }
        self.at += 6;
        Ok(code)
    }
}
