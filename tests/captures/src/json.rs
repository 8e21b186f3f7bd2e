//! As much of JSON as the captures have: objects, lists and strings.

/// A value. Numbers, true, false and null don't occur.
#[derive(Clone, Debug, PartialEq, Eq)]
pub enum Value {
    Text(String),
    List(Vec<Value>),
    Object(Vec<(String, Value)>),
}

impl Value {
    /// The value under this name of an object.
    pub fn get(&self, name: &str) -> Option<&Value> {
        match self {
            Value::Object(fields) => fields.iter().find(|(key, _)| key == name).map(|(_, v)| v),
            _ => None,
        }
    }

    pub fn text(&self) -> Option<&str> {
        match self {
            Value::Text(text) => Some(text),
            _ => None,
        }
    }

    pub fn list(&self) -> Option<&[Value]> {
        match self {
            Value::List(values) => Some(values),
            _ => None,
        }
    }
}

/// Reads one value and what is white around it. `None`: it is none.
pub fn read(text: &str) -> Option<Value> {
    let mut reader = Reader { rest: text };
    let value = reader.value()?;
    reader.rest.trim_start().is_empty().then_some(value)
}

struct Reader<'a> {
    rest: &'a str,
}

impl Reader<'_> {
    /// Takes this character, white space before it apart.
    fn take(&mut self, wanted: char) -> Option<()> {
        self.rest = self.rest.trim_start().strip_prefix(wanted)?;
        Some(())
    }

    fn value(&mut self) -> Option<Value> {
        match self.rest.trim_start().chars().next()? {
            '"' => self.text().map(Value::Text),
            '[' => self.items('[', ']', Reader::value).map(Value::List),
            '{' => self.items('{', '}', Reader::field).map(Value::Object),
            _ => None,
        }
    }

    fn field(&mut self) -> Option<(String, Value)> {
        let name = self.text()?;
        self.take(':')?;
        Some((name, self.value()?))
    }

    /// What stands between two brackets, with commas.
    fn items<T>(
        &mut self,
        open: char,
        close: char,
        item: fn(&mut Self) -> Option<T>,
    ) -> Option<Vec<T>> {
        self.take(open)?;
        let mut items = Vec::new();
        if self.take(close).is_some() {
            return Some(items);
        }
        loop {
            items.push(item(self)?);
            if self.take(close).is_some() {
                return Some(items);
            }
            self.take(',')?;
        }
    }

    fn text(&mut self) -> Option<String> {
        self.take('"')?;
        let mut text = String::new();
        let mut letters = self.rest.chars();
        loop {
            match letters.next()? {
                '"' => break,
                '\\' => text.push(escaped(&mut letters)?),
                letter => text.push(letter),
            }
        }
        self.rest = letters.as_str();
        Some(text)
    }
}

fn escaped(letters: &mut std::str::Chars<'_>) -> Option<char> {
    match letters.next()? {
        'n' => Some('\n'),
        'r' => Some('\r'),
        't' => Some('\t'),
        'u' => {
            let digits = letters.as_str().get(..4)?;
            *letters = letters.as_str()[4..].chars();
            char::from_u32(u32::from_str_radix(digits, 16).ok()?)
        }
        letter @ ('"' | '\\' | '/') => Some(letter),
        _ => None,
    }
}

#[cfg(test)]
mod tests {
    use super::*;

    #[test]
    fn objects_lists_and_strings_are_read() {
        let value = read(" {\"a\": [\"x\\\"\\u00e9\", []], \"b\":{} }\n").unwrap();
        assert_eq!(value.get("a").unwrap().list().unwrap()[0].text(), Some("x\"\u{e9}"));
        assert_eq!(value.get("b"), Some(&Value::Object(Vec::new())));
    }

    #[test]
    fn anything_else_is_refused() {
        for text in ["", "{", "[\"a\"", "[\"a\",]", "{\"a\"}", "\"a\" b", "\"\\q\"", "1"] {
            assert_eq!(read(text), None);
        }
    }
}
