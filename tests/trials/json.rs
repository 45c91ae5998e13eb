//! JSON (RFC 8259) in the compact form in which twire writes it: no white space between the tokens, and no key twice.

/// A value. A number is kept as its digits.
#[derive(Clone, Debug, PartialEq, Eq)]
pub enum Value {
    Object(Vec<(String, Value)>),
    Array(Vec<Value>),
    Text(String),
    Number(String),
    Bool(bool),
    Null,
}

/// The value that a text is, the whole of it.
pub fn read(text: &str) -> Result<Value, String> {
    let mut reader = Reader { rest: text };
    let value = reader.value()?;
    if reader.rest.is_empty() {
        Ok(value)
    } else {
        Err(format!("after the value stands {:?}", reader.rest))
    }
}

struct Reader<'a> {
    rest: &'a str,
}

impl Reader<'_> {
    fn value(&mut self) -> Result<Value, String> {
        match self.rest.bytes().next() {
            Some(b'{') => self.object(),
            Some(b'[') => self.array(),
            Some(b'"') => Ok(Value::Text(self.text()?)),
            Some(b'-' | b'0'..=b'9') => self.number(),
            _ if self.takes("true") => Ok(Value::Bool(true)),
            _ if self.takes("false") => Ok(Value::Bool(false)),
            _ if self.takes("null") => Ok(Value::Null),
            _ => Err(format!("no value: {:?}", self.rest)),
        }
    }

    fn takes(&mut self, word: &str) -> bool {
        let rest = self.rest.strip_prefix(word);
        self.rest = rest.unwrap_or(self.rest);
        rest.is_some()
    }

    fn wants(&mut self, word: &str) -> Result<(), String> {
        if self.takes(word) {
            Ok(())
        } else {
            Err(format!("no {word:?}: {:?}", self.rest))
        }
    }

    fn object(&mut self) -> Result<Value, String> {
        self.wants("{")?;
        let mut members: Vec<(String, Value)> = Vec::new();
        if self.takes("}") {
            return Ok(Value::Object(members));
        }
        loop {
            let key = self.text()?;
            if members.iter().any(|(other, _)| *other == key) {
                return Err(format!("the key {key:?} comes twice"));
            }
            self.wants(":")?;
            members.push((key, self.value()?));
            if self.takes("}") {
                return Ok(Value::Object(members));
            }
            self.wants(",")?;
        }
    }

    fn array(&mut self) -> Result<Value, String> {
        self.wants("[")?;
        let mut items = Vec::new();
        if self.takes("]") {
            return Ok(Value::Array(items));
        }
        loop {
            items.push(self.value()?);
            if self.takes("]") {
                return Ok(Value::Array(items));
            }
            self.wants(",")?;
        }
    }

    // An integer without leading zeros. twire writes no other number.
    fn number(&mut self) -> Result<Value, String> {
        let size = self.rest.bytes().take_while(u8::is_ascii_digit).count();
        let (digits, rest) = self.rest.split_at(size);
        if digits.is_empty() || (digits.len() > 1 && digits.starts_with('0')) {
            return Err(format!("no number: {:?}", self.rest));
        }
        self.rest = rest;
        Ok(Value::Number(digits.to_owned()))
    }

    fn text(&mut self) -> Result<String, String> {
        self.wants("\"")?;
        let mut text = String::new();
        loop {
            let mut characters = self.rest.chars();
            let next = characters.next().ok_or("a text has no end")?;
            self.rest = characters.as_str();
            match next {
                '"' => return Ok(text),
                '\\' => text.push(self.escape()?),
                '\0'..='\x1f' => return Err(format!("a control character stands in a text: {next:?}")),
                _ => text.push(next),
            }
        }
    }

    fn escape(&mut self) -> Result<char, String> {
        let mut characters = self.rest.chars();
        let kind = characters.next().ok_or("an escape has no end")?;
        self.rest = characters.as_str();
        Ok(match kind {
            '"' | '\\' | '/' => kind,
            'b' => '\x08',
            'f' => '\x0c',
            'n' => '\n',
            'r' => '\r',
            't' => '\t',
            'u' => self.unit()?,
            _ => return Err(format!("no escape: {kind:?}")),
        })
    }

    // twire writes no pair of surrogates: it escapes control characters alone.
    fn unit(&mut self) -> Result<char, String> {
        let digits = self.rest.get(..4).ok_or("an escape has no end")?;
        let unit = u32::from_str_radix(digits, 16).map_err(|_| format!("no escape: {digits:?}"))?;
        self.rest = &self.rest[4..];
        char::from_u32(unit).ok_or_else(|| format!("no character: {digits:?}"))
    }
}
