//! The run program as one would write it without the library, over the plain interpreter: the
//! program that `run` is timed beside. The recipe is read once, and memory does not grow with the
//! input.

use estrenwind_tests::interpreter::{Recipe, Refused};
use std::io::{self, BufRead, BufReader, BufWriter, ErrorKind, Read, Write};

/// The longest recipe's bytes, and the line feed of the empty line after it.
const SEARCHED: usize = 4_993;
const LONGEST_FRAME: usize = 256;
const BUFFER: usize = 1 << 16;

fn main() {
    let mut output = BufWriter::with_capacity(BUFFER, io::stdout().lock());
    let mut input = BufReader::with_capacity(BUFFER, io::stdin().lock());
    // Whoever closed or filled the output knows of it, and there is nobody else to tell.
    let _ = answer(&mut input, &mut output).and_then(|()| output.flush());
}

fn answer(input: &mut impl BufRead, output: &mut impl Write) -> io::Result<()> {
    let recipe = match recipe(input)? {
        Ok(recipe) => recipe,
        Err(refused) => return refuse(output, refused),
    };
    let mut line = Vec::with_capacity(LONGEST_FRAME + 1);
    while next_line(input, &mut line)? {
        let answer = if line.len() > LONGEST_FRAME {
            Err((30, 0))
        } else {
            recipe.run(&line)
        };
        match answer {
            Ok((kind, word)) => write_answer(output, kind as u8, word)?,
            Err(refused) => refuse(output, refused)?,
        }
    }
    Ok(())
}

/// Reads up to the empty line, if there is one early enough.
fn recipe(input: &mut impl BufRead) -> io::Result<Result<Recipe, Refused>> {
    let mut text = Vec::with_capacity(SEARCHED);
    loop {
        let line = text.len();
        let room = (SEARCHED - line) as u64;
        input.by_ref().take(room).read_until(b'\n', &mut text)?;
        if text[line..] == *b"\n" {
            text.pop();
            break;
        }
        if text.len() == SEARCHED && !at_end(input)? {
            return Ok(Err((10, 0)));
        }
        if text.len() == SEARCHED || text.last() != Some(&b'\n') || text.len() == line {
            break;
        }
    }
    Ok(Recipe::read(&text))
}

fn at_end(input: &mut impl BufRead) -> io::Result<bool> {
    loop {
        match input.fill_buf() {
            Err(error) if error.kind() == ErrorKind::Interrupted => {}
            buffer => return Ok(buffer?.is_empty()),
        }
    }
}

/// The next frame without its line feed, or its first 257 bytes where it has as many; false at the
/// end.
fn next_line(input: &mut impl BufRead, line: &mut Vec<u8>) -> io::Result<bool> {
    line.clear();
    let most = LONGEST_FRAME as u64 + 1;
    input.by_ref().take(most).read_until(b'\n', line)?;
    if line.is_empty() {
        return Ok(false);
    }
    if line.last() == Some(&b'\n') {
        line.pop();
    } else if line.len() > LONGEST_FRAME {
        input.skip_until(b'\n')?;
    }
    Ok(true)
}

fn refuse(output: &mut impl Write, (number, place): Refused) -> io::Result<()> {
    writeln!(output, "ff{number:02x}{place:02x}")
}

fn write_answer(output: &mut impl Write, kind: u8, word: u64) -> io::Result<()> {
    const DIGITS: &[u8; 16] = b"0123456789abcdef";
    let mut line = *b"0k0000000000000000\n";
    line[1] = b'0' + kind;
    for (i, digit) in line[2..18].iter_mut().enumerate() {
        *digit = DIGITS[(word >> (60 - 4 * i) & 15) as usize];
    }
    output.write_all(&line)
}
