//! Values for programs: one object a line, ASCII. They are written only.

use std::fmt::Write as _;

/// An object under way. Fields stand in the order in which they were added.
#[derive(Clone, Debug, Default)]
pub struct Object {
    fields: Vec<String>,
}

impl Object {
    /// Without a field.
    #[must_use]
    pub fn new() -> Object {
        Object::default()
    }

    /// With one more field, whose value is written already.
    #[must_use]
    pub fn raw(mut self, name: &str, value: impl AsRef<str>) -> Object {
        self.fields
            .push(format!("{}: {}", string(name), value.as_ref()));
        self
    }

    /// With one more field: words.
    #[must_use]
    pub fn string(self, name: &str, words: impl AsRef<str>) -> Object {
        let value = string(words.as_ref());
        self.raw(name, value)
    }

    /// With one more field: a whole number.
    #[must_use]
    pub fn number(self, name: &str, number: impl Into<u64>) -> Object {
        let value = number.into().to_string();
        self.raw(name, value)
    }

    /// With one more field: how many.
    #[must_use]
    pub fn count(self, name: &str, count: usize) -> Object {
        self.raw(name, count.to_string())
    }

    /// With one more field: yes or no.
    #[must_use]
    pub fn truth(self, name: &str, truth: bool) -> Object {
        self.raw(name, if truth { "true" } else { "false" })
    }

    /// The object as it is written.
    #[must_use]
    pub fn written(&self) -> String {
        format!("{{{}}}", self.fields.join(", "))
    }
}

/// Values in a row.
#[must_use]
pub fn list(values: impl IntoIterator<Item = String>) -> String {
    let values: Vec<String> = values.into_iter().collect();
    format!("[{}]", values.join(", "))
}

/// Words in quotation marks; everything but plain ASCII is written as a number.
#[must_use]
pub fn string(words: &str) -> String {
    let mut written = String::from("\"");
    for unit in words.encode_utf16() {
        match u8::try_from(unit) {
            Ok(b'"') => written.push_str("\\\""),
            Ok(b'\\') => written.push_str("\\\\"),
            Ok(byte) if (b' '..=b'~').contains(&byte) => written.push(char::from(byte)),
            _ => {
                let _ = write!(written, "\\u{unit:04x}");
            }
        }
    }
    written.push('"');
    written
}

#[cfg(test)]
mod tests {
    use super::{list, string, Object};

    #[test]
    fn an_object() {
        let object = Object::new()
            .string("name", "a \"b\" \\ \u{e4} \u{1f600} \n")
            .number("n", 7_u8)
            .truth("yes", true)
            .raw("list", list([string("x"), "2".to_owned()]));
        assert_eq!(
            object.written(),
            "{\"name\": \"a \\\"b\\\" \\\\ \\u00e4 \\ud83d\\ude00 \\u000a\", \"n\": 7, \"yes\": true, \"list\": [\"x\", 2]}"
        );
    }
}
