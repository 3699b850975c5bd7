//! Says why an instruction is as long as it is, or what refused it: the program behind the command `./why`, whose `--help` has the grammar of a statement. The
//! statement stands in the arguments or, without any or with `-`, one to a line on standard input. It only reads statements into rows of numbers and prints
//! what the library answers, a constant's widths included.
use joltwagon::{why_row, Node, Operation, ProgramLabels, Why, WhyNot};
use std::io::{self, BufRead, Write};
use std::process::ExitCode;

const ACCEPTED: u8 = 0;
const REFUSED: u8 = 1;
const UNREAD: u8 = 2;

const MODES: [&str; 8] = ["register", "offset", "pcrelative", "incdec", "extended", "direct", "immediate", "inherent"];
const REGISTERS: [&str; 10] = ["A", "B", "D", "X", "Y", "U", "S", "PC", "CC", "DP"];
const STEPS: [&str; 5] = ["none", ",R+", ",R++", ",-R", ",--R"];

/// What was read, or what is wrong with it.
type Read<T> = Result<T, String>;

/// A row, and the address that it is asked at.
type Asked = (Vec<u16>, u16);

/// 52, $34 or 0x34, each with a sign or without, from -32768 to 65535.
fn number(word: &str) -> Read<i32> {
    let (sign, size) = word.strip_prefix('-').map_or((1, word), |size| (-1, size));
    let (digits, radix) = match size.strip_prefix('$').or(size.strip_prefix("0x")) {
        Some(digits) => (digits, 16),
        None => (size, 10),
    };
    if digits.is_empty() || !digits.chars().all(|c| c.is_digit(radix)) {
        return Err(format!("{} is no number", if word.is_empty() { "nothing" } else { word }));
    }
    match i32::from_str_radix(digits, radix).map(|number| sign * number) {
        Ok(number @ -32768..=65535) => Ok(number),
        _ => Err(format!("{word} is not in -32768..65535")),
    }
}

/// The same modulo 65536, as a row has it.
fn cell(word: &str) -> Read<u16> {
    number(word).map(|number| number as u16)
}

/// A name's number.
fn named(word: &str, names: &[&str]) -> Option<u16> {
    names.iter().position(|name| name.eq_ignore_ascii_case(word)).map(|place| place as u16)
}

/// A name, or its number: any, since the library knows which there are.
fn known(word: &str, number: Option<u16>, what: &str) -> Read<u16> {
    number.or(cell(word).ok()).ok_or(format!("{word} is no {what}"))
}

/// The two evaluations, each a number and its width. With a width both have it; without, each has what the library gives it as a constant.
fn value(word: &str) -> Read<[u16; 4]> {
    let (word, width) = word.split_once(':').map_or((word, None), |(word, width)| (word, Some(width)));
    let number = number(word)?;
    match width {
        // What does not fit goes as it is, and the library refuses it.
        Some("8") => {
            let stored = if (-128..=255).contains(&number) { number as u8 as u16 } else { number as u16 };
            Ok([stored, 8, stored, 8])
        }
        Some("16") => Ok([number as u16, 16, number as u16, 16]),
        Some(width) => Err(format!("{width} is no width: 8 or 16")),
        None => {
            let mut labels = ProgramLabels::new();
            let node = labels.node(Node::Constant(number as u16));
            let (u, s) = labels.eval(node, 0).map_err(|refused| refused.to_string())?;
            Ok([u.number, u.width.into(), s.number, s.width.into()])
        }
    }
}

/// Names of registers between commas.
fn registers(word: &str) -> Option<Vec<u16>> {
    word.split(',').map(|name| named(name, &REGISTERS)).collect()
}

/// Fills what may be said once.
fn once<T>(slot: &mut Option<T>, part: T, name: &str) -> Read<()> {
    match slot.replace(part) {
        None => Ok(()),
        Some(_) => Err(format!("{name} stands twice")),
    }
}

/// `row`, then the numbers of a record.
fn row<'a>(words: impl Iterator<Item = &'a str>) -> Read<Asked> {
    let mut words = words.peekable();
    let mut cells = Vec::new();
    while let Some(word) = words.next_if(|word| !word.eq_ignore_ascii_case("at")) {
        cells.push(cell(word)?);
    }
    // The library refuses fewer, and would not look at more.
    if cells.len() > joltwagon::raw::RECORD {
        return Err(format!("{} numbers, and a record has 21", cells.len()));
    }
    let address = match words.next() {
        Some(_) => cell(words.next().ok_or("at what address?")?)?,
        None => 0,
    };
    match words.next() {
        Some(word) => Err(format!("{word} stands behind the address")),
        None => Ok((cells, address)),
    }
}

/// A statement's row, and its address.
fn statement(line: &str) -> Read<Asked> {
    let mut words = line.split_whitespace().take_while(|&word| word != "#");
    let first = words.next().ok_or("no operation")?;
    if first.eq_ignore_ascii_case("row") {
        return row(words);
    }
    let operation = known(first, Operation::named(&first.to_ascii_uppercase()).map(|operation| operation.0), "operation")?;
    let mode = words.next().ok_or("no mode")?;
    let mode = known(mode, named(mode, &MODES), "mode")?;
    let (mut indirect, mut forced, mut widening) = (None, None, None);
    let (mut list, mut step, mut page, mut values, mut address) = (None, None, None, None, None);
    while let Some(word) = words.next() {
        let lower = word.to_ascii_lowercase();
        match lower.split_once('=').unwrap_or((&lower, "")) {
            ("indirect", "") => once(&mut indirect, 1, "indirect")?,
            ("forced", "") => once(&mut forced, 1, "forced")?,
            ("widening", "") => once(&mut widening, 1, "widening")?,
            ("at", "") => once(&mut address, cell(words.next().ok_or("at what address?")?)?, "at")?,
            ("page", "unknown") => once(&mut page, joltwagon::raw::PAGE_UNKNOWN, "page")?,
            ("page", high) => once(&mut page, cell(high)?, "page")?,
            ("step", by) => once(&mut step, known(by, named(by, &STEPS), "step")?, "step")?,
            _ => match registers(word) {
                Some(these) => once(&mut list, these, "a list of registers")?,
                None if word.starts_with(|c: char| c == '$' || c == '-' || c.is_ascii_digit()) => once(&mut values, value(word)?, "a value")?,
                None => return Err(format!("{word} is none of value, registers, indirect, forced, step=, widening, page=, at")),
            },
        }
    }
    let list = list.unwrap_or_default();
    let mut cells = vec![operation, mode];
    cells.extend([indirect, forced, step, widening].map(Option::unwrap_or_default));
    cells.push(list.len().min(0xFFFF) as u16);
    cells.extend(list.into_iter().chain([0; 8]).take(8));
    cells.extend([page.unwrap_or(0), values.is_some() as u16]);
    cells.extend(values.unwrap_or_default());
    Ok((cells, address.unwrap_or(0)))
}

/// The address, then the bytes and the reason, or the refusal.
fn shown(address: u16, answer: &Result<Why, WhyNot>) -> String {
    match answer {
        Ok(why) => {
            let bytes: String = why.bytes.iter().map(|byte| format!(" {byte:02X}")).collect();
            format!("{address:04X}{bytes}  {why}")
        }
        Err(why_not) => format!("{address:04X} {why_not}"),
    }
}

/// Answers one statement. What cannot be read is said among the errors; where nobody hears that, the exit status still tells.
fn answer(line: &str, place: &str, out: &mut impl Write, errors: &mut impl Write) -> io::Result<u8> {
    match statement(line) {
        Ok((row, address)) => {
            let answer = why_row(&row, address);
            writeln!(out, "{}", shown(address, &answer))?;
            Ok(if answer.is_ok() { ACCEPTED } else { REFUSED })
        }
        Err(wrong) => {
            let _ = writeln!(errors, "why: {place}{}: {wrong}", line.trim());
            Ok(UNREAD)
        }
    }
}

/// Blank lines, and those that begin with `#`, are no statements.
fn answer_lines(lines: impl BufRead, out: &mut impl Write, errors: &mut impl Write) -> io::Result<u8> {
    let mut status = ACCEPTED;
    for (i, line) in lines.split(b'\n').enumerate() {
        let line = line?;
        let line = String::from_utf8_lossy(&line);
        let words = line.trim_start();
        if !words.is_empty() && !words.starts_with('#') {
            status = status.max(answer(words, &format!("line {}: ", i + 1), out, errors)?);
        }
    }
    Ok(status)
}

fn main() -> ExitCode {
    let words: Vec<String> = std::env::args_os().skip(1).map(|word| word.to_string_lossy().into_owned()).collect();
    let (mut out, mut errors) = (io::stdout().lock(), io::stderr().lock());
    let status = if words.is_empty() || words == ["-"] {
        answer_lines(io::stdin().lock(), &mut out, &mut errors)
    } else {
        answer(&words.join(" "), "", &mut out, &mut errors)
    };
    let status = status.unwrap_or_else(|e| {
        let _ = writeln!(errors, "why: {e}");
        UNREAD
    });
    ExitCode::from(status)
}

#[cfg(test)]
mod tests {
    use super::*;

    /// What is written for some lines on either side, and the exit status.
    fn lines(text: &[u8]) -> (String, String, u8) {
        let (mut out, mut errors) = (Vec::new(), Vec::new());
        let status = answer_lines(text, &mut out, &mut errors).unwrap();
        (String::from_utf8(out).unwrap(), String::from_utf8(errors).unwrap(), status)
    }

    #[test]
    fn statements_as_rows() {
        let lda = [54, 4, 0, 0, 0, 0, 0, 0, 0, 0, 0, 0, 0, 0, 0, 256, 1, 0x34, 8, 0x34, 8];
        for line in [
            "LDA extended $0034 page=unknown at $0100",
            "lda EXTENDED AT 256 PAGE=Unknown 52 # a cell",
            "54 4 page=256 at 0x100 0x34",
            "row 54 4 0 0 0 0 0 0 0 0 0 0 0 0 0 256 1 $34 8 $34 8 at $0100",
        ] {
            assert_eq!(statement(line), Ok((lda.to_vec(), 0x100)), "{line}");
        }
        let pushed = [138, 0, 0, 0, 0, 0, 9, 0, 1, 8, 9, 0, 0, 0, 0, 0, 0, 0, 0, 0, 0];
        assert_eq!(statement("PSHS register a,b,cc,dp,A,A,A,A,S"), Ok((pushed.to_vec(), 0)));
        let all = [54, 3, 1, 1, 4, 1, 2, 3, 7, 0, 0, 0, 0, 0, 0, 0x20, 1, 0xFFF0, 16, 0xF0, 8];
        for line in ["LDA incdec X,PC indirect forced step=,--r widening page=$20 -16", "LDA incdec -$10 page=32 widening step=4 forced indirect x,pc"] {
            assert_eq!(statement(line), Ok((all.to_vec(), 0)), "{line}");
        }
        assert_eq!(statement("row 1 -1 at 5"), Ok((vec![1, 0xFFFF], 5)));
        assert_eq!(statement("row"), Ok((vec![], 0)));
    }

    #[test]
    fn widths() {
        assert_eq!(value("255"), Ok([255, 8, 255, 16]));
        assert_eq!(value("256"), Ok([256, 16, 256, 16]));
        assert_eq!(value("127"), Ok([127, 8, 127, 8]));
        assert_eq!(value("-128"), Ok([0xFF80, 16, 0x80, 8]));
        assert_eq!(value("-129"), Ok([0xFF7F, 16, 0xFF7F, 16]));
        assert_eq!(value("5:8"), Ok([5, 8, 5, 8]));
        assert_eq!(value("-5:8"), Ok([0xFB, 8, 0xFB, 8]));
        assert_eq!(value("300:8"), Ok([300, 8, 300, 8]));
        assert_eq!(value("$5:16"), Ok([5, 16, 5, 16]));
    }

    #[test]
    fn what_is_wrong_is_said() {
        for (line, wrong) in [
            ("", "no operation"),
            ("# LDA", "no operation"),
            ("LDQ extended 5", "LDQ is no operation"),
            ("LDA", "no mode"),
            ("LDA indexed 5", "indexed is no mode"),
            ("LDA extended 5 6", "a value stands twice"),
            ("LDA offset X Y", "a list of registers stands twice"),
            ("LDA offset X forced forced", "forced stands twice"),
            ("LDA extended at 1 5 at 2", "at stands twice"),
            ("LDA extended 65536", "65536 is not in -32768..65535"),
            ("LDA extended -32769", "-32769 is not in -32768..65535"),
            ("LDA extended 99999999999", "99999999999 is not in -32768..65535"),
            ("LDA extended $", "$ is no number"),
            ("LDA extended 5A", "5A is no number"),
            ("LDA extended --5", "--5 is no number"),
            ("LDA extended $+5", "$+5 is no number"),
            ("LDA extended 5:9", "9 is no width: 8 or 16"),
            ("LDA extended 5 page=", "nothing is no number"),
            ("LDA extended 5 page=none", "none is no number"),
            ("LDA incdec X step=,X+", ",x+ is no step"),
            ("LDA extended 5 at", "at what address?"),
            ("LDA offset X,Q", "X,Q is none of value, registers, indirect, forced, step=, widening, page=, at"),
            ("LDA immediate #5", "#5 is none of value, registers, indirect, forced, step=, widening, page=, at"),
            ("row 1 2 x", "x is no number"),
            ("row 1 at", "at what address?"),
            ("row 1 at 5 6", "6 stands behind the address"),
            ("row 0 1 2 3 4 5 6 7 8 9 0 1 2 3 4 5 6 7 8 9 0 1", "22 numbers, and a record has 21"),
        ] {
            assert_eq!(statement(line), Err(wrong.to_string()), "{line}");
        }
    }

    #[test]
    fn lines_and_the_exit_status() {
        let (nop, missing, none) = ("0000 12  inherent: as written\n", "0000 refused 3: the value is missing\n", String::new);
        assert_eq!(lines(b""), (none(), none(), ACCEPTED));
        assert_eq!(lines(b"\n  # nothing\n\t\r\n"), (none(), none(), ACCEPTED));
        assert_eq!(lines(b"NOP inherent\r\nNOP inherent"), ([nop, nop].concat(), none(), ACCEPTED));
        assert_eq!(lines(b"LDA extended\nNOP inherent\n"), ([missing, nop].concat(), none(), REFUSED));
        let wrong = "why: line 2: NOPE 5: NOPE is no operation\nwhy: line 4: \u{FFFD}: \u{FFFD} is no operation\n";
        assert_eq!(lines(b"NOP inherent\n NOPE 5 \nLDA extended\n\xFF\n"), ([nop, missing].concat(), wrong.to_string(), UNREAD));
    }
}
