//! The pass loop over a plain program: loads, stores and branches to labels, some ahead and some behind, every second statement with a label.
use joltwagon::{raw, Operation};

pub struct Program {
    list: Vec<u16>,
    nodes: Vec<u16>,
    labels: Vec<u16>,
}

const NONE: u16 = 0xFFFF;

pub fn program(statements: usize) -> Program {
    let names = ["LDA", "BNE", "STA", "LBSR", "LDX", "BEQ", "JSR", "ADDD"];
    let bearing = statements / 2;
    let mut made = Program { list: Vec::new(), nodes: Vec::new(), labels: vec![0; 3 * bearing] };
    for i in 0..statements {
        let label = if i % 2 == 0 { (i / 2) as u16 } else { NONE };
        // Branches stay near, the others go anywhere.
        let name = names[i % names.len()];
        let ahead = if name.starts_with('B') { 5 } else { bearing / 3 };
        let target = (i / 2 + ahead) % bearing;
        made.list.extend([1, label, i as u16, 0, 0, Operation::named(name).unwrap().0, 4, 0, 0, 0, 1]);
        made.list.extend([0; 9]);
        made.nodes.extend([1, target as u16, 0]);
    }
    made
}

/// How many passes it takes; the label table is begun anew.
pub fn settle(p: &mut Program) -> usize {
    p.labels.fill(0);
    let (passes, answer) = raw::settle(&p.list, &[], &p.nodes, &mut p.labels);
    answer.expect("the program settles");
    passes as usize
}
