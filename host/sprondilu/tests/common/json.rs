//! A reader of JSON that takes nothing but JSON, and of that only what the program may print: whole numbers below 2^53, and no
//! name twice in an object.

use std::collections::BTreeMap;
use std::iter::Peekable;
use std::str::Chars;

#[derive(Clone, Debug, PartialEq, Eq)]
pub enum Value {
    Null,
    Bool(bool),
    Number(u64),
    Text(String),
    List(Vec<Value>),
    Object(BTreeMap<String, Value>),
}

/// The names under which programs are told a stamp: its number, its time and its client.
pub type StampNames = [&'static str; 3];
pub const STAMP: StampNames = ["stamp", "time", "client"];
pub const RETRY: StampNames = ["retry_stamp", "retry_time", "retry_client"];
pub const VERSION: StampNames = ["version", "version_time", "version_client"];
pub const READ: StampNames = ["read_stamp", "read_time", "read_client"];

impl Value {
    /// The value under these names, one within the other. What is missing is null.
    pub fn at(&self, names: &[&str]) -> &Value {
        names.iter().fold(self, |value, name| match value {
            Value::Object(fields) => fields.get(*name).unwrap_or(&Value::Null),
            _ => &Value::Null,
        })
    }

    pub fn number(&self, name: &str) -> Option<u64> {
        match self.at(&[name]) {
            Value::Number(number) => Some(*number),
            _ => None,
        }
    }

    /// The number of a stamp under its three names, with its time and its client beside it; all three are null for none. The version
    /// 0, of what was never written, has neither time nor client.
    #[track_caller]
    pub fn stamp(&self, names: StampNames) -> Option<u64> {
        let is_there =
            |name: &&str| matches!(self, Value::Object(fields) if fields.contains_key(*name));
        assert!(names.iter().all(is_there), "{:?} in {:?}", names, self);
        let [stamp, time, client] = names.map(|name| self.number(name));
        let written = stamp.filter(|stamp| *stamp > 0);
        let parts = (written.map(|s| s >> 16), written.map(|s| s & 0xffff));
        assert_eq!((time, client), parts, "{:?} in {:?}", names, self);
        stamp
    }

    pub fn text(&self, name: &str) -> Option<&str> {
        match self.at(&[name]) {
            Value::Text(text) => Some(text),
            _ => None,
        }
    }

    pub fn list(&self, name: &str) -> &[Value] {
        match self.at(&[name]) {
            Value::List(items) => items,
            _ => &[],
        }
    }
}

struct Reader<'a> {
    rest: Peekable<Chars<'a>>,
}

type Read<T> = Result<T, String>;

/// The one value that the text is, with nothing around it but white space.
pub fn read(text: &str) -> Read<Value> {
    let mut reader = Reader {
        rest: text.chars().peekable(),
    };
    let value = reader.value()?;
    reader.space();
    match reader.rest.next() {
        None => Ok(value),
        Some(more) => Err(format!("{:?} behind the value", more)),
    }
}

impl Reader<'_> {
    fn space(&mut self) {
        while self.rest.next_if(|c| " \t\n\r".contains(*c)).is_some() {}
    }

    fn expect(&mut self, letter: char) -> Read<()> {
        match self.rest.next() {
            Some(found) if found == letter => Ok(()),
            found => Err(format!("{:?} and not {:?}", found, letter)),
        }
    }

    fn value(&mut self) -> Read<Value> {
        self.space();
        match self.rest.peek() {
            Some('n') => self.word("null", Value::Null),
            Some('t') => self.word("true", Value::Bool(true)),
            Some('f') => self.word("false", Value::Bool(false)),
            Some('"') => Ok(Value::Text(self.text()?)),
            Some('[') => self.list(),
            Some('{') => self.object(),
            Some('0'..='9') => self.number(),
            other => Err(format!("no value begins with {:?}", other)),
        }
    }

    fn word(&mut self, word: &str, value: Value) -> Read<Value> {
        word.chars().try_for_each(|letter| self.expect(letter))?;
        Ok(value)
    }

    fn number(&mut self) -> Read<Value> {
        let mut digits = String::new();
        while let Some(digit) = self.rest.next_if(char::is_ascii_digit) {
            digits.push(digit);
        }
        let whole = digits == "0" || !digits.starts_with('0');
        let number = digits.parse().ok().filter(|number| *number < 1 << 53);
        match (number, self.rest.peek()) {
            (Some(number), next) if whole && !matches!(next, Some('.' | 'e' | 'E')) => {
                Ok(Value::Number(number))
            }
            _ => Err(format!("the number {}", digits)),
        }
    }

    fn text(&mut self) -> Read<String> {
        self.expect('"')?;
        let mut text = String::new();
        loop {
            match self.rest.next() {
                Some('"') => return Ok(text),
                Some('\\') => text.push(self.escaped()?),
                Some(letter) if letter >= ' ' => text.push(letter),
                other => return Err(format!("{:?} in a text", other)),
            }
        }
    }

    fn escaped(&mut self) -> Read<char> {
        match self.rest.next() {
            Some(letter @ ('"' | '\\' | '/')) => Ok(letter),
            Some('n') => Ok('\n'),
            Some('r') => Ok('\r'),
            Some('t') => Ok('\t'),
            Some('b') => Ok('\u{8}'),
            Some('f') => Ok('\u{c}'),
            Some('u') => {
                let digits: String = self.rest.by_ref().take(4).collect();
                let code = u32::from_str_radix(&digits, 16).ok();
                let letter = code.filter(|_| digits.len() == 4).and_then(char::from_u32);
                letter.ok_or_else(|| format!("\\u{}", digits))
            }
            other => Err(format!("\\{:?}", other)),
        }
    }

    /// Items up to the closing letter, with a comma between each two.
    fn items(&mut self, close: char, mut one: impl FnMut(&mut Self) -> Read<()>) -> Read<()> {
        self.rest.next();
        self.space();
        if self.rest.next_if_eq(&close).is_some() {
            return Ok(());
        }
        loop {
            self.space();
            one(self)?;
            self.space();
            if self.rest.next_if_eq(&close).is_some() {
                return Ok(());
            }
            self.expect(',')?;
        }
    }

    fn list(&mut self) -> Read<Value> {
        let mut items = Vec::new();
        self.items(']', |reader| {
            items.push(reader.value()?);
            Ok(())
        })?;
        Ok(Value::List(items))
    }

    fn object(&mut self) -> Read<Value> {
        let mut fields = BTreeMap::new();
        self.items('}', |reader| {
            let name = reader.text()?;
            reader.space();
            reader.expect(':')?;
            let value = reader.value()?;
            match fields.insert(name.clone(), value) {
                None => Ok(()),
                Some(_) => Err(format!("{} twice", name)),
            }
        })?;
        Ok(Value::Object(fields))
    }
}
