//! JSON objects, a line each.

/// A JSON value.
#[derive(Clone, PartialEq, Eq, Debug)]
pub enum Json {
    Null,
    Number(u64),
    Text(String),
    List(Vec<Json>),
    Object(Vec<(&'static str, Json)>),
}

impl Json {
    pub fn text(text: impl Into<String>) -> Json {
        Json::Text(text.into())
    }

    pub fn word(word: u32) -> Json {
        Json::Number(u64::from(word))
    }

    /// The value, or null.
    pub fn or_null<T>(value: Option<T>, json: impl Fn(T) -> Json) -> Json {
        value.map_or(Json::Null, json)
    }

    /// Bytes as hexadecimal digits.
    pub fn bytes(bytes: &[u8]) -> Json {
        Json::Text(bytes.iter().map(|byte| format!("{byte:02X}")).collect())
    }

    /// The value in one line.
    pub fn line(&self) -> String {
        let mut text = String::new();
        self.write(&mut text);
        text
    }

    fn write(&self, text: &mut String) {
        match self {
            Json::Null => text.push_str("null"),
            Json::Number(number) => text.push_str(&number.to_string()),
            Json::Text(words) => quoted(words, text),
            Json::List(values) => {
                text.push('[');
                for (place, value) in values.iter().enumerate() {
                    comma(place, text);
                    value.write(text);
                }
                text.push(']');
            }
            Json::Object(fields) => {
                text.push('{');
                for (place, (name, value)) in fields.iter().enumerate() {
                    comma(place, text);
                    quoted(name, text);
                    text.push(':');
                    value.write(text);
                }
                text.push('}');
            }
        }
    }
}

fn comma(place: usize, text: &mut String) {
    if place > 0 {
        text.push(',');
    }
}

fn quoted(words: &str, text: &mut String) {
    text.push('"');
    for letter in words.chars() {
        match letter {
            '"' => text.push_str("\\\""),
            '\\' => text.push_str("\\\\"),
            '\n' => text.push_str("\\n"),
            control if u32::from(control) < 0x20 => text.push_str(&format!("\\u{:04x}", u32::from(control))),
            other => text.push(other),
        }
    }
    text.push('"');
}

#[cfg(test)]
mod tests {
    use super::*;

    #[test]
    fn a_line() {
        let list = Json::List(vec![Json::Null, Json::text("a\"b\\\n\u{1}")]);
        let object = Json::Object(vec![("n", Json::Number(7)), ("l", list), ("b", Json::bytes(&[1, 0xFF]))]);
        assert_eq!(object.line(), r#"{"n":7,"l":[null,"a\"b\\\n\u0001"],"b":"01FF"}"#);
    }
}
