//! Colour, on a terminal only and never where NO_COLOR is set (no-color.org).

use std::env;
use std::io::IsTerminal;

#[derive(Clone, Copy, Debug, PartialEq, Eq)]
pub enum Colour {
    On,
    Off,
}

impl Colour {
    /// Whether to colour what goes to this stream.
    pub fn for_stream(stream: &impl IsTerminal) -> Colour {
        let refused = env::var_os("NO_COLOR").is_some_and(|value| !value.is_empty());
        let plain = env::var_os("TERM").is_some_and(|value| value == "dumb");
        if stream.is_terminal() && !refused && !plain {
            Colour::On
        } else {
            Colour::Off
        }
    }

    fn wrap(self, code: &str, text: &str) -> String {
        match self {
            Colour::On => format!("\x1b[{code}m{text}\x1b[0m"),
            Colour::Off => text.to_owned(),
        }
    }

    pub fn bold(self, text: &str) -> String {
        self.wrap("1", text)
    }

    pub fn red(self, text: &str) -> String {
        self.wrap("1;31", text)
    }

    pub fn green(self, text: &str) -> String {
        self.wrap("32", text)
    }
}
