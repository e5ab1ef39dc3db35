//! Recipes from files, in either form.

use crate::assemble::assemble;
use crate::colour::Colour;
use crate::diagnostic::Diagnostic;
use crate::failure::Failure;
use crate::recipe::{plain_name, Recipe};
use crate::slips;
use crate::source::Source;
use estrenwind::{explain, refusal_line, steps};
use std::ffi::OsStr;
use std::io;
use std::path::Path;

/// Bytes of the longest file that is taken for a recipe: room for much commentary, and an end to what has none.
const LONGEST: usize = 1 << 20;

/// All of a file, or of standard input where the path is `-`, and its name for messages.
fn read(path: &Path) -> Result<(String, Vec<u8>), Failure> {
    let mut source = Source::open(Some(path))?;
    let mut bytes = Vec::new();
    let mut piece = vec![0; 1 << 16];
    loop {
        let count = source
            .read(&mut piece)
            .map_err(|error| Failure::Files(source.cannot_read(error)))?;
        bytes.extend(&piece[..count]);
        if count == 0 {
            return Ok((source.name, bytes));
        }
        if bytes.len() > LONGEST {
            return Err(Failure::Refused(format!(
                "{}: over 1 MiB, and no recipe is that long\n",
                source.name
            )));
        }
    }
}

/// A recipe in either form. One that is not read is shown with its slips.
pub fn open(path: &Path) -> Result<Recipe, Failure> {
    let (name, bytes) = read(path)?;
    let recipe = if is_text_form(path, &bytes) {
        from_text(&name, &bytes)
    } else {
        from_hexadecimal(&name, &bytes)
    };
    recipe.map_err(|slips| {
        let colour = Colour::for_stream(&io::stderr());
        let shown: Vec<String> = slips
            .iter()
            .map(|slip| slip.show(&name, &bytes, colour))
            .collect();
        Failure::Refused(shown.join("\n"))
    })
}

/// Whether a file is in the text form: its name says so, or a line of it defines something.
fn is_text_form(path: &Path, bytes: &[u8]) -> bool {
    path.extension() == Some(OsStr::new("ew")) || bytes.contains(&b'=')
}

fn from_text(name: &str, bytes: &[u8]) -> Result<Recipe, Vec<Diagnostic>> {
    std::str::from_utf8(bytes)
        .map_err(|error| vec![no_text(bytes, error.valid_up_to())])
        .and_then(|text| assemble(name, text))
}

/// The slip of a byte that begins no character.
fn no_text(bytes: &[u8], place: usize) -> Diagnostic {
    let before = &bytes[..place];
    let line = before
        .split(|&byte| byte == b'\n')
        .next_back()
        .unwrap_or_default();
    Diagnostic {
        line: before.iter().filter(|&&byte| byte == b'\n').count() + 1,
        column: String::from_utf8_lossy(line).chars().count() + 1,
        length: 1,
        message: format!("the byte {:02x} is no text", bytes[place]),
        help: "save the file as UTF-8".to_owned(),
    }
}

fn from_hexadecimal(name: &str, bytes: &[u8]) -> Result<Recipe, Vec<Diagnostic>> {
    if let Err(refused) = explain(bytes) {
        let mut slip = slips::find(bytes, refused);
        slip.message = format!(
            "refused {} ({}): {}",
            refused.fault.number(),
            refusal_line(refused),
            slip.message
        );
        return Err(vec![slip]);
    }
    let steps = steps(bytes).expect("the library has read it");
    Ok(Recipe {
        file: name.to_owned(),
        text: bytes.to_vec(),
        names: (0..steps.len()).map(plain_name).collect(),
        steps,
    })
}
