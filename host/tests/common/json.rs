//! JSON, as far as the kit writes it.

/// A value.
pub enum Json {
    /// A number, `true`, `false` or `null`.
    Plain(String),
    /// A string, its escapes as they are written.
    Text(String),
    List(Vec<Json>),
    Record(Vec<(String, Json)>),
}

impl Json {
    pub fn text(&self) -> &str {
        let Self::Text(text) = self else {
            panic!("a string is wanted");
        };
        text
    }

    pub fn number(&self) -> usize {
        let Self::Plain(number) = self else {
            panic!("a number is wanted");
        };
        number.parse().unwrap()
    }

    pub fn list(&self) -> &[Self] {
        let Self::List(list) = self else {
            panic!("a list is wanted");
        };
        list
    }

    /// What a record has under each of its names, nothing where this is no record.
    pub fn fields(&self) -> &[(String, Self)] {
        match self {
            Self::Record(fields) => fields,
            _ => &[],
        }
    }

    /// What a record has under a name.
    pub fn get(&self, name: &str) -> Option<&Self> {
        let mut fields = self.fields().iter();
        fields.find(|(it, _)| it == name).map(|(_, value)| value)
    }

    /// What a record must have under a name.
    pub fn at(&self, name: &str) -> &Self {
        self.get(name).unwrap_or_else(|| panic!("no {name}"))
    }
}

/// Reads a text from its beginning on.
pub struct Reader<'a> {
    rest: &'a str,
}

impl<'a> Reader<'a> {
    pub fn new(rest: &'a str) -> Self {
        Self { rest }
    }

    /// Takes a mark, if the text goes on with it.
    pub fn takes(&mut self, mark: char) -> bool {
        let rest = self.rest.trim_start();
        let behind = rest.strip_prefix(mark);
        self.rest = behind.unwrap_or(rest);
        behind.is_some()
    }

    pub fn needs(&mut self, mark: char) {
        assert!(self.takes(mark), "{mark} is wanted at {:.60}", self.rest);
    }

    pub fn is_at_end(&self) -> bool {
        self.rest.trim_start().is_empty()
    }

    fn front(&mut self, length: usize) -> String {
        let (front, rest) = self.rest.split_at(length);
        self.rest = rest;
        front.to_owned()
    }

    /// A string, behind its first quotation mark.
    fn text(&mut self) -> String {
        let mut escaped = false;
        let end = self.rest.find(|c| {
            let ends = c == '"' && !escaped;
            escaped = c == '\\' && !escaped;
            ends
        });
        let text = self.front(end.expect("a string ends"));
        self.needs('"');
        text
    }

    pub fn value(&mut self) -> Json {
        if self.takes('"') {
            return Json::Text(self.text());
        }
        if self.takes('[') {
            let mut list = Vec::new();
            while !self.takes(']') {
                list.push(self.value());
                self.takes(',');
            }
            return Json::List(list);
        }
        if self.takes('{') {
            let mut fields = Vec::new();
            while !self.takes('}') {
                self.needs('"');
                let name = self.text();
                self.needs(':');
                fields.push((name, self.value()));
                self.takes(',');
            }
            return Json::Record(fields);
        }
        let end = self.rest.find([',', ']', '}']);
        let plain = self.front(end.unwrap_or(self.rest.len()));
        assert!(!plain.is_empty(), "a value is wanted");
        Json::Plain(plain.trim_end().to_owned())
    }
}
