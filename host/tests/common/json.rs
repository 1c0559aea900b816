//! A reader of JSON, small and strict, so that what the command writes is held to
//! the language and not to its own writer.

use std::collections::BTreeMap;

#[derive(Clone, Debug, PartialEq)]
pub enum Value {
    Null,
    Truth(bool),
    Number(i64),
    /// A number with a point or an exponent.
    Float(f64),
    Text(String),
    List(Vec<Value>),
    Object(BTreeMap<String, Value>),
}

impl Value {
    /// The value that fills the whole text.
    pub fn read(text: &str) -> Value {
        let mut reader = Reader { rest: text };
        let value = reader.value();
        reader.skip();
        assert_eq!(reader.rest, "", "something follows the value");
        value
    }

    pub fn field(&self, name: &str) -> &Value {
        match self {
            Value::Object(fields) => fields.get(name).unwrap_or_else(|| panic!("no '{name}'")),
            other => panic!("'{name}' of {other:?}"),
        }
    }

    pub fn names(&self) -> Vec<&str> {
        match self {
            Value::Object(fields) => fields.keys().map(String::as_str).collect(),
            other => panic!("{other:?} is no object"),
        }
    }

    pub fn list(&self) -> &[Value] {
        match self {
            Value::List(items) => items,
            other => panic!("{other:?} is no list"),
        }
    }

    pub fn text(&self) -> &str {
        match self {
            Value::Text(text) => text,
            other => panic!("{other:?} is no text"),
        }
    }

    pub fn number(&self) -> i64 {
        match self {
            Value::Number(number) => *number,
            other => panic!("{other:?} is no number"),
        }
    }

    pub fn truth(&self) -> bool {
        match self {
            Value::Truth(truth) => *truth,
            other => panic!("{other:?} is neither true nor false"),
        }
    }

    pub fn float(&self) -> f64 {
        match self {
            Value::Float(float) => *float,
            other => panic!("{other:?} is no float"),
        }
    }

    pub fn floats(&self) -> Vec<f64> {
        self.list().iter().map(Value::float).collect()
    }

    pub fn word(&self) -> u32 {
        u32::try_from(self.number()).expect("the number is a u32")
    }

    pub fn words(&self) -> Vec<u32> {
        self.list().iter().map(Value::word).collect()
    }
}

struct Reader<'a> {
    rest: &'a str,
}

impl Reader<'_> {
    fn skip(&mut self) {
        self.rest = self.rest.trim_start_matches([' ', '\t', '\r', '\n']);
    }

    fn takes(&mut self, wanted: &str) -> bool {
        self.skip();
        let behind = self.rest.strip_prefix(wanted);
        self.rest = behind.unwrap_or(self.rest);
        behind.is_some()
    }

    fn needs(&mut self, wanted: &str) {
        assert!(self.takes(wanted), "no {wanted} at: {:.40}", self.rest);
    }

    fn value(&mut self) -> Value {
        if self.takes("null") {
            Value::Null
        } else if self.takes("true") {
            Value::Truth(true)
        } else if self.takes("false") {
            Value::Truth(false)
        } else if self.takes("[") {
            Value::List(self.items("]", Reader::value))
        } else if self.takes("{") {
            let fields = self.items("}", |reader| {
                let name = reader.string();
                reader.needs(":");
                (name, reader.value())
            });
            let count = fields.len();
            let object: BTreeMap<String, Value> = fields.into_iter().collect();
            assert_eq!(object.len(), count, "a name stands twice");
            Value::Object(object)
        } else if self.rest.starts_with('"') {
            Value::Text(self.string())
        } else {
            self.numeral()
        }
    }

    fn items<T>(&mut self, end: &str, one: impl Fn(&mut Self) -> T) -> Vec<T> {
        let mut items = Vec::new();
        if self.takes(end) {
            return items;
        }
        loop {
            items.push(one(self));
            if self.takes(end) {
                return items;
            }
            self.needs(",");
        }
    }

    /// As the language has it: no '+', no point at either end, no 'inf'.
    fn numeral(&mut self) -> Value {
        let belongs = |c: char| c.is_ascii_digit() || "+-.eE".contains(c);
        let behind = self.rest.trim_start_matches(belongs);
        let digits = &self.rest[..self.rest.len() - behind.len()];
        self.rest = behind;
        let bad = || -> ! { panic!("'{digits}' is no number") };
        let point = |at: usize| !digits[at..].starts_with(|c: char| c.is_ascii_digit());
        if digits.starts_with('+') || digits.match_indices('.').any(|(at, _)| point(at + 1)) {
            bad();
        }
        match (digits.parse(), digits.parse()) {
            (Ok(whole), _) => Value::Number(whole),
            (_, Ok(float)) => Value::Float(float),
            _ => bad(),
        }
    }

    fn string(&mut self) -> String {
        self.needs("\"");
        let mut text = String::new();
        loop {
            let mut letters = self.rest.chars();
            let letter = letters.next().expect("the string is ended");
            self.rest = letters.as_str();
            match letter {
                '"' => return text,
                '\\' => text.push(self.escaped()),
                letter if letter < ' ' => panic!("a control letter stands in a string"),
                letter => text.push(letter),
            }
        }
    }

    fn escaped(&mut self) -> char {
        let (letter, behind) = self.rest.split_at(1);
        self.rest = behind;
        match letter {
            "\"" | "\\" => char::from(letter.as_bytes()[0]),
            "u" => {
                let (digits, behind) = self.rest.split_at(4);
                self.rest = behind;
                let number = u32::from_str_radix(digits, 16).expect("four hex digits");
                char::from_u32(number).expect("a letter")
            }
            other => panic!("\\{other} is not written here"),
        }
    }
}
