//! A strict reader of JSON (RFC 8259).

use std::str::Chars;

/// A value; a number as it is written, an object with its members in their order.
#[derive(Clone, Debug, PartialEq)]
pub enum Json {
    Null,
    Bool(bool),
    Number(String),
    String(String),
    Array(Vec<Json>),
    Object(Vec<(String, Json)>),
}

impl Json {
    /// Reads a whole text; says what is wrong with another one.
    pub fn read(text: &str) -> Result<Json, String> {
        let mut reader = Reader { left: text.chars() };
        let value = reader.value()?;
        reader.blanks();
        match reader.left.next() {
            Some(letter) => Err(format!("{letter:?} behind the value")),
            None => Ok(value),
        }
    }

    /// A member of an object.
    pub fn at(&self, name: &str) -> &Json {
        let Json::Object(members) = self else { panic!("no object: {self:?}") };
        &members.iter().find(|(known, _)| known == name).unwrap_or_else(|| panic!("no member {name}")).1
    }

    pub fn items(&self) -> &[Json] {
        let Json::Array(items) = self else { panic!("no array: {self:?}") };
        items
    }

    pub fn text(&self) -> &str {
        let Json::String(text) = self else { panic!("no string: {self:?}") };
        text
    }
}

struct Reader<'t> {
    left: Chars<'t>,
}

impl Reader<'_> {
    fn peek(&self) -> Option<char> {
        self.left.clone().next()
    }

    fn blanks(&mut self) {
        while self.peek().is_some_and(|letter| matches!(letter, ' ' | '\t' | '\n' | '\r')) {
            self.left.next();
        }
    }

    fn take(&mut self, wanted: char) -> Result<(), String> {
        match self.left.next() {
            Some(letter) if letter == wanted => Ok(()),
            other => Err(format!("{wanted:?} was wanted, and {other:?} is there")),
        }
    }

    fn word(&mut self, word: &str, value: Json) -> Result<Json, String> {
        word.chars().try_for_each(|letter| self.take(letter)).map(|()| value)
    }

    fn value(&mut self) -> Result<Json, String> {
        self.blanks();
        match self.peek() {
            Some('n') => self.word("null", Json::Null),
            Some('t') => self.word("true", Json::Bool(true)),
            Some('f') => self.word("false", Json::Bool(false)),
            Some('"') => self.string().map(Json::String),
            Some('[') => self.listed('[', ']', Reader::value).map(Json::Array),
            Some('{') => self.listed('{', '}', Reader::member).and_then(object),
            Some('-' | '0'..='9') => self.number(),
            other => Err(format!("no value starts with {other:?}")),
        }
    }

    fn listed<T>(&mut self, open: char, close: char, item: fn(&mut Self) -> Result<T, String>) -> Result<Vec<T>, String> {
        self.take(open)?;
        self.blanks();
        let mut items = Vec::new();
        if self.peek() == Some(close) {
            return self.take(close).map(|()| items);
        }
        loop {
            items.push(item(self)?);
            self.blanks();
            if self.peek() != Some(',') {
                return self.take(close).map(|()| items);
            }
            self.take(',')?;
        }
    }

    fn member(&mut self) -> Result<(String, Json), String> {
        self.blanks();
        let name = self.string()?;
        self.blanks();
        self.take(':')?;
        Ok((name, self.value()?))
    }

    fn string(&mut self) -> Result<String, String> {
        self.take('"')?;
        let mut text = String::new();
        loop {
            match self.left.next().ok_or("a string without an end")? {
                '"' => return Ok(text),
                '\\' => text.push(self.escaped()?),
                letter if letter < ' ' => return Err(format!("{letter:?} in a string")),
                letter => text.push(letter),
            }
        }
    }

    fn escaped(&mut self) -> Result<char, String> {
        match self.left.next() {
            Some(letter @ ('"' | '\\' | '/')) => Ok(letter),
            Some('n') => Ok('\n'),
            Some('t') => Ok('\t'),
            Some('r') => Ok('\r'),
            Some('b') => Ok('\u{8}'),
            Some('f') => Ok('\u{c}'),
            Some('u') => {
                let digits: String = self.left.by_ref().take(4).collect();
                let number = u32::from_str_radix(&digits, 16).ok().filter(|_| digits.len() == 4 && !digits.starts_with('+'));
                number.and_then(char::from_u32).ok_or(format!("\\u{digits}"))
            }
            other => Err(format!("a backslash before {other:?}")),
        }
    }

    fn number(&mut self) -> Result<Json, String> {
        let mut text = String::new();
        while let Some(letter) = self.peek().filter(|letter| letter.is_ascii_digit() || "+-.eE".contains(*letter)) {
            text.push(letter);
            self.left.next();
        }
        let whole = text.strip_prefix('-').unwrap_or(&text);
        let is_number =
            text.parse::<f64>().is_ok() && (whole == "0" || !whole.starts_with('0') || whole.starts_with("0.")) && !whole.starts_with('.');
        is_number.then_some(Json::Number(text.clone())).ok_or(format!("no number: {text}"))
    }
}

fn object(members: Vec<(String, Json)>) -> Result<Json, String> {
    let twice = members.iter().enumerate().find(|(i, (name, _))| members.iter().take(*i).any(|(other, _)| other == name));
    match twice {
        Some((_, (name, _))) => Err(format!("two members {name}")),
        None => Ok(Json::Object(members)),
    }
}
