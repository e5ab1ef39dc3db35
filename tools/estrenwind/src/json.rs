//! JSON, as much of it as the sheet needs. Numbers stand as texts where a reader could lose some of them: infinities have no JSON, and many
//! readers round whole numbers beyond 2^53.

/// A text with its quotation marks.
pub fn text(text: &str) -> String {
    let mut quoted = String::from("\"");
    for c in text.chars() {
        match c {
            '"' => quoted.push_str("\\\""),
            '\\' => quoted.push_str("\\\\"),
            '\n' => quoted.push_str("\\n"),
            c if c.is_control() => quoted.push_str(&format!("\\u{:04x}", c as u32)),
            c => quoted.push(c),
        }
    }
    quoted.push('"');
    quoted
}

/// An object of members whose values are JSON already.
pub fn object(members: &[(&str, String)]) -> String {
    let members: Vec<String> = members
        .iter()
        .map(|(name, value)| format!("{}: {value}", text(name)))
        .collect();
    format!("{{{}}}", members.join(", "))
}

/// An array of values that are JSON already, on one line.
pub fn array(values: &[String]) -> String {
    format!("[{}]", values.join(", "))
}

#[cfg(test)]
mod tests {
    use super::*;

    #[test]
    fn texts_are_escaped() {
        assert_eq!(text("a\"b\\c\n\u{1}é"), "\"a\\\"b\\\\c\\n\\u0001é\"");
        assert_eq!(
            object(&[("step", "0".into()), ("name", text("u"))]),
            "{\"step\": 0, \"name\": \"u\"}"
        );
        assert_eq!(array(&["1".into(), "2".into()]), "[1, 2]");
    }
}
