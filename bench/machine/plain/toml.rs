//! The part of TOML that the sample files are written in: keys with numbers, texts, truth values, lists and inline tables.
use std::collections::HashMap;

pub type Table = HashMap<String, Value>;

pub enum Value {
    Number(u64),
    Text(String),
    Truth(bool),
    List(Vec<Value>),
    Table(Table),
}

impl Value {
    pub fn number(&self) -> u64 {
        match self {
            Value::Number(number) => *number,
            _ => panic!("a number is wanted"),
        }
    }

    pub fn text(&self) -> &str {
        match self {
            Value::Text(text) => text,
            _ => panic!("a text is wanted"),
        }
    }

    pub fn list(&self) -> &[Value] {
        match self {
            Value::List(list) => list,
            _ => panic!("a list is wanted"),
        }
    }

    pub fn table(&self) -> &Table {
        match self {
            Value::Table(table) => table,
            _ => panic!("a table is wanted"),
        }
    }

    pub fn bytes(&self) -> Vec<u8> {
        self.list().iter().map(|value| value.number() as u8).collect()
    }
}

struct Reader<'t> {
    rest: &'t [u8],
}

impl<'t> Reader<'t> {
    fn skip(&mut self) {
        loop {
            match self.rest {
                [b' ' | b'\t' | b'\n' | b'\r' | b',', after @ ..] => self.rest = after,
                [b'#', ..] => {
                    let line = self.rest.iter().position(|c| *c == b'\n').unwrap_or(self.rest.len());
                    self.rest = &self.rest[line..];
                }
                _ => return,
            }
        }
    }

    fn take(&mut self, wanted: u8) -> bool {
        self.skip();
        match self.rest {
            [first, after @ ..] if *first == wanted => {
                self.rest = after;
                true
            }
            _ => false,
        }
    }

    fn word(&mut self) -> &'t str {
        self.skip();
        let end = self.rest.iter()
            .position(|c| !c.is_ascii_alphanumeric() && *c != b'_')
            .unwrap_or(self.rest.len());
        let (word, after) = self.rest.split_at(end);
        self.rest = after;
        std::str::from_utf8(word).unwrap()
    }

    fn text(&mut self) -> String {
        let end = self.rest.iter().position(|c| *c == b'"').expect("the end of a text");
        let text = String::from_utf8(self.rest[..end].to_vec()).expect("a text");
        self.rest = &self.rest[end + 1..];
        text
    }

    fn entry(&mut self, table: &mut Table) {
        let key = self.word().to_string();
        assert!(!key.is_empty() && self.take(b'='), "a key and its value are wanted");
        let value = self.value();
        table.insert(key, value);
    }

    fn value(&mut self) -> Value {
        if self.take(b'[') {
            let mut list = Vec::new();
            while !self.take(b']') {
                list.push(self.value());
            }
            Value::List(list)
        } else if self.take(b'{') {
            let mut table = Table::new();
            while !self.take(b'}') {
                self.entry(&mut table);
            }
            Value::Table(table)
        } else if self.take(b'"') {
            Value::Text(self.text())
        } else {
            match self.word() {
                "true" => Value::Truth(true),
                "false" => Value::Truth(false),
                number => Value::Number(number.parse().expect("a number")),
            }
        }
    }
}

pub fn read(text: &str) -> Table {
    let mut reader = Reader { rest: text.as_bytes() };
    let mut table = Table::new();
    reader.skip();
    while !reader.rest.is_empty() {
        reader.entry(&mut table);
        reader.skip();
    }
    table
}
