//! Asks the Rust in its own source text, a command a line. The answer is bytes or a number in hexadecimal, `error` or `panic`.
use crate::original::{bytes_of, guarded};
use coco::instructions;
use coco::obj::{Fcc, Fxb, Instruction, ObjectProducer, Org, Rmb};
use coco::parse::{Parser, ValueNode};
use coco::program::{ProgramLabels, ProgramSegments};
use coco::{config, u8u16, Error, ErrorKind};

/// The Rust's parser, with labels and segments of its own.
pub struct Coco {
    parser: Parser,
    labels: ProgramLabels,
    segments: ProgramSegments,
}

fn number(text: &str) -> u16 {
    u16::from_str_radix(text, 16).unwrap()
}

pub fn hex(bytes: &[u8]) -> String {
    bytes.iter().map(|b| format!("{b:02X}")).collect()
}

fn shown(value: u8u16) -> String {
    match value {
        u8u16::u8(b) => format!("{b:02X}"),
        u8u16::u16(w) => format!("{w:04X}"),
    }
}

impl Coco {
    pub fn new() -> Coco {
        instructions::init();
        Coco { parser: Parser::new(), labels: ProgramLabels::new(), segments: ProgramSegments::new() }
    }

    fn node(&self, text: &str) -> Result<ValueNode, Error> {
        self.parser.str_to_value_node(text)
    }

    /// def NAME ADDRESS [EXPRESSION], get NAME, move LEFT RIGHT BY, eval ADDRESS EXPRESSION, asm ADDRESS NAME [OPERAND] (clean, widening allowed),
    /// fcb|fdb ADDRESS EXPRESSION.., fcc ADDRESS TEXT, org|rmb ADDRESS EXPRESSION, add START, of ADDRESS, new
    pub fn ask(&mut self, line: &str) -> String {
        let words: Vec<&str> = line.split_whitespace().collect();
        match guarded(|| self.answer(&words)) {
            Ok(answer) => answer,
            Err(e) if e == "panic" => e,
            Err(_) => "error".to_string(),
        }
    }

    fn answer(&mut self, words: &[&str]) -> Result<String, Error> {
        let place = if matches!(words[0], "new" | "def" | "get") { 0 } else { number(words[1]) };
        match words[0] {
            "new" => {
                *self = Coco::new();
                Ok(String::new())
            }
            "def" => {
                let node = if words.len() > 3 { Some(self.node(words[3])?) } else { None };
                self.labels.new_definition(words[1], 0, number(words[2]), node)?;
                Ok(String::new())
            }
            "get" => Ok(self.labels.get_value(words[1]).map_or("none".to_string(), shown)),
            "move" => {
                self.labels.adjust_label_addresses((number(words[1]), number(words[2])), number(words[3]) as i16);
                Ok(String::new())
            }
            "eval" => Ok(shown(self.node(words[2])?.eval(&self.labels, place, false)?)),
            "asm" => self.assembled(place, words[2], words.get(3).unwrap_or(&"")),
            "fcb" | "fdb" => {
                let nodes = words[2..].iter().map(|w| self.node(w)).collect::<Result<Vec<_>, _>>()?;
                Ok(hex(&bytes_of(Fxb::new(nodes, words[0] == "fcb").build(place, &self.labels, false)?)))
            }
            "fcc" => Ok(hex(&bytes_of(Fcc::new(words.get(2).unwrap_or(&"")).build(place, &self.labels, false)?))),
            "org" => Ok(format!("{:04X}", Org::new(self.node(words[2])?).build(place, &self.labels, false)?.addr)),
            "rmb" => Ok(format!("{:04X}", Rmb::new(self.node(words[2])?).build(place, &self.labels, false)?.size)),
            "add" => self.segments.add(place).map(|_| String::new()),
            "of" => {
                let (left, right) = self.segments.segment_containing_address(place);
                Ok(format!("{left:04X} {right:04X}"))
            }
            _ => Err(Error::new(ErrorKind::General, None, "no such command")),
        }
    }

    fn assembled(&self, place: u16, name: &str, operand: &str) -> Result<String, Error> {
        config::set_lbr_disable(false);
        let unknown = || Error::new(ErrorKind::Syntax, None, "unknown operation");
        let id = instructions::name_to_descriptor(name).ok_or_else(unknown)?;
        let mut i = Instruction::try_new(id, self.parser.parse_operand(operand)?, place, &self.labels, false)?;
        Ok(hex(&bytes_of(i.build(place, &self.labels, false)?)))
    }
}
