//! As much of JSON as a line of a vectors file has: objects, arrays, texts and
//! numbers that are whole and not negative.

#[derive(Clone, Debug, PartialEq, Eq)]
pub enum Json {
    Number(u64),
    Text(String),
    List(Vec<Json>),
    Object(Vec<(String, Json)>),
}

impl Json {
    pub fn field(&self, name: &str) -> Option<&Json> {
        match self {
            Self::Object(fields) => fields.iter().find(|(n, _)| n == name).map(|(_, v)| v),
            _ => None,
        }
    }

    pub fn text(&self, name: &str) -> Option<&str> {
        match self.field(name) {
            Some(Self::Text(text)) => Some(text),
            _ => None,
        }
    }

    pub fn number(&self, name: &str) -> Option<u64> {
        match self.field(name) {
            Some(Self::Number(n)) => Some(*n),
            _ => None,
        }
    }

    pub fn numbers<N: TryInto<u64>>(numbers: impl IntoIterator<Item = N>) -> Self {
        let number = |n: N| Self::Number(n.try_into().ok().expect("a number of 64 bits"));
        Self::List(numbers.into_iter().map(number).collect())
    }

    pub fn write(&self, out: &mut String) {
        match self {
            Self::Number(n) => out.push_str(&n.to_string()),
            Self::Text(text) => write_text(text, out),
            Self::List(items) => {
                out.push('[');
                for (i, item) in items.iter().enumerate() {
                    out.push_str(if i == 0 { "" } else { "," });
                    item.write(out);
                }
                out.push(']');
            }
            Self::Object(fields) => {
                out.push('{');
                for (i, (name, value)) in fields.iter().enumerate() {
                    out.push_str(if i == 0 { "" } else { "," });
                    write_text(name, out);
                    out.push(':');
                    value.write(out);
                }
                out.push('}');
            }
        }
    }
}

fn write_text(text: &str, out: &mut String) {
    out.push('"');
    for c in text.chars() {
        match c {
            '\n' => out.push_str("\\n"),
            '"' | '\\' => out.extend(['\\', c]),
            _ => out.push(c),
        }
    }
    out.push('"');
}

/// A line, all of it; none where it is no such JSON.
pub fn parse(line: &str) -> Option<Json> {
    let mut parser = Parser { rest: line.trim() };
    let value = parser.value()?;
    parser.rest.is_empty().then_some(value)
}

struct Parser<'a> {
    rest: &'a str,
}

impl Parser<'_> {
    /// Takes `c` where it is next, blanks before it left out.
    fn take(&mut self, c: char) -> bool {
        self.rest = self.rest.trim_start();
        let after = self.rest.strip_prefix(c);
        self.rest = after.unwrap_or(self.rest);
        after.is_some()
    }

    fn value(&mut self) -> Option<Json> {
        if self.take('{') {
            let field = |p: &mut Self| {
                let name = p.take('"').then(|| p.text()).flatten()?;
                p.take(':').then(|| p.value()).flatten().map(|value| (name, value))
            };
            return self.items('}', field).map(Json::Object);
        }
        if self.take('[') {
            return self.items(']', Self::value).map(Json::List);
        }
        if self.take('"') {
            return self.text().map(Json::Text);
        }
        let end = self.rest.find(|c: char| !c.is_ascii_digit()).unwrap_or(self.rest.len());
        let (digits, rest) = self.rest.split_at(end);
        self.rest = rest;
        digits.parse().ok().map(Json::Number)
    }

    fn items<R>(&mut self, end: char, one: impl Fn(&mut Self) -> Option<R>) -> Option<Vec<R>> {
        let mut items = Vec::new();
        if self.take(end) {
            return Some(items);
        }
        loop {
            items.push(one(self)?);
            if self.take(end) {
                return Some(items);
            }
            if !self.take(',') {
                return None;
            }
        }
    }

    /// A text after its first quotation mark.
    fn text(&mut self) -> Option<String> {
        let mut out = String::new();
        let mut chars = self.rest.chars();
        loop {
            match chars.next()? {
                '"' => break,
                '\\' => out.push(match chars.next()? {
                    'n' => '\n',
                    c @ ('"' | '\\' | '/') => c,
                    _ => return None,
                }),
                c => out.push(c),
            }
        }
        self.rest = chars.as_str();
        Some(out)
    }
}
