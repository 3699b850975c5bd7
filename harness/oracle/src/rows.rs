//! The names of docs/ROWS.md and the sheet's opcode map, as crates/published/data/opcodes has it from docs/SHEET.md.
use crate::inputs::form;

const ROWS: &str = include_str!("../../../docs/ROWS.md");
const OPCODES: &str = include_str!("../../../crates/published/data/opcodes");

#[derive(Clone, Copy, Debug)]
pub struct Row {
    pub page: u8,
    pub code: u8,
}

pub struct Rows {
    names: Vec<Option<String>>,
    codes: Vec<[Option<Row>; 7]>,
}

fn hex(text: &str) -> u8 {
    u8::from_str_radix(text, 16).unwrap()
}

impl Rows {
    pub fn read() -> Rows {
        let mut rows = Rows { names: vec![None; 256], codes: vec![[None; 7]; 256] };
        let table = ROWS.split("\n## Operations\n").nth(1).unwrap().split("\n## ").next().unwrap();
        for line in table.lines().filter(|l| l.starts_with("| ") && !l.starts_with("| number")) {
            let cells: Vec<&str> = line.trim_matches('|').split('|').map(str::trim).collect();
            rows.names[cells[0].parse::<usize>().unwrap()] = Some(cells[1].to_string());
        }
        for line in OPCODES.lines() {
            let cells: Vec<&str> = line.split(' ').collect();
            if cells[2] != "-" {
                let row = Row { page: hex(cells[0]), code: hex(cells[1]) };
                rows.codes[hex(cells[3]) as usize][cells[2].parse::<usize>().unwrap()] = Some(row);
            }
        }
        for (alias, name) in [("LSL", "ASL"), ("LSLA", "ASLA"), ("LSLB", "ASLB"), ("BHS", "BCC"), ("BLO", "BCS"), ("LBHS", "LBCC"), ("LBLO", "LBCS")]
        {
            let (alias, number) = (rows.number(alias) as usize, rows.number(name) as usize);
            rows.codes[alias] = rows.codes[number];
        }
        rows
    }

    pub fn number(&self, name: &str) -> u8 {
        self.names.iter().position(|n| n.as_deref() == Some(name)).unwrap() as u8
    }

    pub fn name(&self, operation: u8) -> Option<&str> {
        self.names[operation as usize].as_deref()
    }

    /// The numbers of all operations, aliases too.
    pub fn operations(&self) -> Vec<u8> {
        (0..=255).filter(|&n| self.name(n).is_some()).collect()
    }

    pub fn row(&self, operation: u8, form: u8) -> Option<Row> {
        self.codes[operation as usize][form as usize]
    }

    pub fn has(&self, operation: u8, form: u8) -> bool {
        self.row(operation, form).is_some()
    }

    /// The long branch of a short one: its name with an L before it.
    pub fn long(&self, operation: u8) -> u8 {
        self.number(&format!("L{}", self.name(operation).unwrap()))
    }

    /// How many bytes of number an immediate or relative row has. The sheet's columns 3, C and E of 80 and C0 are the 16-bit immediates.
    pub fn number_size(&self, operation: u8, form_: u8) -> usize {
        let row = self.row(operation, form_).unwrap();
        let wide = match form_ {
            form::IMMEDIATE => row.code >= 0x80 && matches!(row.code & 15, 3 | 0xC | 0xE),
            _ => row.page == 0x10 || matches!(row.code, 0x16 | 0x17),
        };
        if wide {
            2
        } else {
            1
        }
    }
}
