//! The Rust's own answers: builds, texts of object lists, label moves, segments.
use crate::differences::EXIT;
use crate::inputs::{form, mode, register, Answer, Build, Operand, Value};
use crate::numbers::{mode_of, step_of, value_of};
use crate::rows::Rows;
use coco::instructions::{self, AddressingMode, Descriptor};
use coco::obj::{BinaryObject, Instruction, ObjectProducer};
use coco::parse::{LabelResolver, OperandDescriptor, Token, TokenType, ValueNode};
use coco::program::{Program, ProgramLine};
use coco::{config, u8u16, Error};
use std::cell::Cell;
use std::panic::{catch_unwind, AssertUnwindSafe};

/// A label whose value is first the unsigned and then the signed evaluation, since `build` asks in that order, again after a widening, and
/// `try_new` asks for the unsigned one alone. So each pair of evaluations can be handed to the unchanged `ValueNode::eval`.
struct Pair {
    unsigned: Cell<u8u16>,
    signed: Cell<u8u16>,
    asked: Cell<u32>,
}

impl LabelResolver for Pair {
    fn resolve(&self, _: &str) -> Option<u8u16> {
        let asked = self.asked.get();
        self.asked.set(asked + 1);
        Some(if asked % 2 == 0 { self.unsigned.get() } else { self.signed.get() })
    }
}

fn negated(v: u8u16) -> u8u16 {
    match v {
        u8u16::u8(b) => u8u16::u8(b.wrapping_neg()),
        u8u16::u16(w) => u8u16::u16(w.wrapping_neg()),
    }
}

impl Pair {
    fn new() -> Pair {
        Pair { unsigned: Cell::new(u8u16::u8(0)), signed: Cell::new(u8u16::u8(0)), asked: Cell::new(0) }
    }

    /// The signed evaluation widens an 8-bit value of 128 and more unless the node is negated: then both are handed over negated.
    fn arm(&self, node: &mut ValueNode, (u, s): (Value, Value)) {
        let (u, s) = (value_of(u.number, u.width), value_of(s.number, s.width));
        node.negate = s.is_u8() && s.u8() >= 128;
        self.asked.set(0);
        self.unsigned.set(if node.negate { negated(u) } else { u });
        self.signed.set(if node.negate { negated(s) } else { s });
    }
}

/// A Rust error and a panic, which match any refusal, have the number 0.
const ANY: Answer = Answer::Refused(0);

pub struct Original {
    descriptors: Vec<Option<&'static Descriptor>>,
}

/// The form by docs/ROWS.md of the Rust's run-time mode: lists of registers are Immediate there.
fn form_of(rust: AddressingMode, lists: bool) -> u8 {
    match rust {
        AddressingMode::Inherent => form::INHERENT,
        AddressingMode::Immediate if lists => form::REGISTER,
        AddressingMode::Immediate => form::IMMEDIATE,
        AddressingMode::Direct => form::DIRECT,
        AddressingMode::Indexed => form::INDEXED,
        AddressingMode::Extended => form::EXTENDED,
        _ => form::RELATIVE,
    }
}

pub fn label_node() -> ValueNode {
    ValueNode::new(Token::new(TokenType::Label, "V".to_string(), None), false, None, None)
}

fn descriptor(o: &Operand, value: Option<ValueNode>) -> OperandDescriptor {
    let names = || o.registers.iter().map(|&r| register::NAMES.get(r as usize).unwrap_or(&"?").to_string()).collect();
    let mut od = OperandDescriptor::new();
    od.mode = mode_of(o.mode);
    od.indirect = o.indirect;
    od.force_mode = o.forced;
    od.regs = if o.registers.is_empty() && o.mode != mode::REGISTER { None } else { Some(names()) };
    od.incdec = step_of(o.step);
    od.value = value;
    od
}

thread_local! {
    static ASKING: Cell<bool> = const { Cell::new(false) };
}

/// A panic of the Rust is an answer, and is not printed; any other is a fault of the harness.
pub fn quiet() {
    let loud = std::panic::take_hook();
    std::panic::set_hook(Box::new(move |panic| {
        if !ASKING.get() {
            loud(panic);
        }
    }));
}

pub fn guarded<T>(f: impl FnOnce() -> Result<T, Error>) -> Result<T, String> {
    ASKING.set(true);
    let answer = catch_unwind(AssertUnwindSafe(f));
    ASKING.set(false);
    match answer {
        Ok(Ok(v)) => Ok(v),
        Ok(Err(e)) => Err(format!("error: {}", e.msg)),
        Err(_) => Err("panic".to_string()),
    }
}

pub fn bytes_of(object: &BinaryObject) -> Vec<u8> {
    let mut buffer = vec![0; object.size as usize + 8];
    let n = object.to_bytes(&mut buffer) as usize;
    buffer.truncate(n);
    buffer
}

impl Original {
    pub fn new(rows: &Rows) -> Original {
        instructions::init();
        let named = |n| rows.name(n).and_then(instructions::name_to_descriptor);
        let mut descriptors: Vec<_> = (0..=255).map(named).collect();
        descriptors[EXIT as usize] = instructions::name_to_descriptor("EXIT");
        Original { descriptors }
    }

    /// The answers to builds of one operand, up to the first refusal.
    pub fn sequence(&self, o: &Operand, builds: &[Build]) -> Vec<Answer> {
        // Said here, since a panic where the Rust is asked would pass for its answer.
        assert!(builds.iter().all(|b| b.values.is_some() == builds[0].values.is_some()), "a value in every build, or in none");
        let Some(id) = self.descriptors[o.operation as usize] else { return vec![ANY] };
        config::set_lbr_disable(!o.widening);
        let pair = Pair::new();
        let mut kept: Option<Instruction> = None;
        let mut answers = Vec::new();
        for b in builds {
            let answer = guarded(|| self.build(id, o, &pair, &mut kept, b)).unwrap_or(ANY);
            let refused = answer.is_refused();
            answers.push(answer);
            if refused {
                break;
            }
        }
        answers
    }

    fn build(&self, id: &'static Descriptor, o: &Operand, pair: &Pair, kept: &mut Option<Instruction>, b: &Build) -> Result<Answer, Error> {
        if kept.is_none() {
            let node = b.values.map(|values| {
                let mut node = label_node();
                pair.arm(&mut node, values);
                node
            });
            *kept = Some(Instruction::try_new(id, descriptor(o, node), b.address, pair, b.dirty)?);
        }
        let i = kept.as_mut().unwrap();
        if let Some(values) = b.values {
            pair.arm(i.od.value.as_mut().unwrap(), values);
        }
        let bytes = bytes_of(i.build(b.address, pair, b.dirty)?);
        let lists = o.mode == mode::REGISTER;
        Ok(Answer::Built { form: form_of(i.flavor.mode, lists), dirties: i.changes_dp(), bytes })
    }
}

/// An object as the writer meets it: its address, and its values where it has data.
#[derive(Clone, Debug)]
pub struct Object {
    pub address: u16,
    pub values: Option<Vec<Value>>,
}

/// A producer that holds a finished object.
#[derive(Debug)]
struct Finished(BinaryObject);

impl std::fmt::Display for Finished {
    fn fmt(&self, f: &mut std::fmt::Formatter) -> std::fmt::Result {
        write!(f, "finished")
    }
}

impl ObjectProducer for Finished {
    fn build(&mut self, _: u16, _: &dyn LabelResolver, _: bool) -> Result<&BinaryObject, Error> {
        Ok(&self.0)
    }
    fn bob_ref(&self) -> Option<&BinaryObject> {
        Some(&self.0)
    }
}

fn line_of(object: &Object) -> ProgramLine {
    let data = object.values.as_ref().map(|values| values.iter().map(|v| value_of(v.number, v.width)).collect());
    let mut finished = BinaryObject { addr: object.address, is_static_addr: false, size: 0, data };
    finished.calc_size();
    let obj: Option<Box<dyn ObjectProducer>> = Some(Box::new(Finished(finished)));
    ProgramLine { src_line_num: 0, src: String::new(), label: None, operation: None, operand: None, obj, obj_size: 0, addr: 0 }
}

/// The text that the Rust's `write_output_files` writes of the objects, through a folder of its own.
pub fn text_of(objects: &[Object], folder: &std::path::Path) -> String {
    let program = Program::new(objects.iter().map(line_of).collect());
    guarded(|| program.write_output_files(&folder.join("out.asm"))).expect("the Rust writes every list");
    std::fs::read_to_string(folder.join("out.hex")).unwrap()
}
