//! What `--help` says, in 80 columns. The manual page estrenwind(1) has it at length.

pub const GENERAL: &str = "\
usage: estrenwind COMMAND [OPTION].. FILE..

Recipes of roundings, as people write and read them:

  check FILE..          is it read, and does it have a sheet? Slips are shown
  sheet FILE            the range of every step, and which have no fraction
  explain FILE          why there is no sheet, and what would mend it
  run FILE [FRAMES]     answer frames, from a file or standard input
  join PART..           put the parts of a run with --shard together again
  asm FILE              the text form as the hexadecimal one
  dis FILE              the hexadecimal form as the text one
  help [COMMAND]        this, or the options of a command

FILE is a recipe in either form, - for standard input. The text form:

  u = input 0 .. 1        # a double; whole numbers: input whole -3 .. 12
  scaled = ldexp u 8      # operations have the names that they have in C
  index = lround scaled   # the last step is the answer

Exit status: 0 all went well and every frame was answered; 1 a frame was
refused; 2 usage; 3 the recipe was refused or has no sheet; 74 input or output
failed.

What is proved: every sheet, every explanation and every answer to a frame is
worked out by the proved library, and this command passes it on. Not proved is
what this command adds: the text form, decimal numbers, words and files. Its
tests hold sheets and runs to those of the proved programs, byte for byte.
";

pub const CHECK: &str = "\
usage: estrenwind check FILE..

Says of each recipe, in either form, whether it is read and has a sheet. A slip
is shown with its line, its column and what to do about it.

Exit status: 0 all are read and have sheets, 3 some is not or has none.
";

pub const SHEET: &str = "\
usage: estrenwind sheet [--hex | --json] FILE

Shows the range of every step: whatever frame is run whose inputs lie in their
ranges, it is answered, and each step's value lies in the range shown. Where the
column whole says yes, that value is also finite and has no fraction; where it
is blank, nothing is promised of that.

  --hex     the lines that the program sheet writes
  --json    JSON: an object with the steps, numbers as texts, whole as true or
            false

Exit status: 0 there is a sheet, 3 there is none (standard error says why).
";

pub const EXPLAIN: &str = "\
usage: estrenwind explain FILE

Says why a recipe has no sheet: the ranges up to the step that is refused, the
operand whose range is to blame, and what would mend it. Each mend was tried:
with it, the library takes the step.

Exit status: 0 there is a sheet, 3 there is none.
";

pub const RUN: &str = "\
usage: estrenwind run [OPTION].. FILE [FRAMES]

Answers each frame, a line of FRAMES or of standard input, with a line: 16
hexadecimal digits per input go in, kind and value come out, or ff, the number
of a refusal and its place.

  --decimal      frames and answers in decimal: numbers with spaces between
  --trace N      show every step of frame N alone (from 1, the line's number)
  --shard I/N    answer every N-th block of 4,096 frames, from block I on
  -o OUT         write to a file, which is replaced when all is written
  --quiet        no progress on standard error; the last line stays

The last line on standard error counts frames, answers and refusals by number.
Exit status: 0 all were answered, 1 a frame was refused, 3 the recipe was, 74
input or output failed and answers are missing.
";

pub const JOIN: &str = "\
usage: estrenwind join [-o OUT] PART..

Puts the parts of a run in shards together, in whatever order they are named:
the output of one run, byte for byte, with its last line and its status.
A part that is missing, given twice, cut off or of another run is told.

Exit status: 0 all frames were answered, 1 some were refused, 74 the parts are
not all parts of one run, or input or output failed.
";

pub const ASM: &str = "\
usage: estrenwind asm [-o OUT] FILE

Writes a recipe in the hexadecimal form, which the library and the programs
read. Slips in the text are shown with line and column, and what to do.

Exit status: 0 it is written, 3 the recipe was refused.
";

pub const DIS: &str = "\
usage: estrenwind dis [-o OUT] FILE

Writes a recipe in the text form; asm of that gives the same bytes again. Steps
without a name are called s and their number.

Exit status: 0 it is written, 3 the recipe was refused.
";

#[cfg(test)]
mod tests {
    #[test]
    fn help_fits_80_columns() {
        for text in [
            super::GENERAL,
            super::CHECK,
            super::SHEET,
            super::EXPLAIN,
            super::RUN,
            super::JOIN,
            super::ASM,
            super::DIS,
        ] {
            for line in text.lines() {
                assert!(line.len() <= 80, "{line}");
            }
        }
    }
}
