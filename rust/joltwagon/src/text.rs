use crate::{raw, Refused, Result};

/// 18: a byte beyond 65535.
const BEYOND: Refused = Refused(18);

/// An object as the record writer takes it: where it stands, and its bytes if it has data.
#[derive(Clone, PartialEq, Eq, Debug)]
pub struct BinaryObject {
    pub addr: u16,
    pub data: Option<Vec<u8>>,
}

/// Bytes that follow on one another.
#[derive(Clone, PartialEq, Eq, Debug)]
pub struct Run {
    pub addr: u16,
    pub bytes: Vec<u8>,
}

/// The text of the objects, in Intel's hexadecimal format.
pub fn write_hex(objects: &[BinaryObject]) -> Result<String> {
    let mut rows = Vec::new();
    let mut values = Vec::new();
    for object in objects {
        let data = match &object.data {
            Some(data) => data,
            None => {
                rows.extend([0, object.addr, 0]);
                continue;
            }
        };
        // One of no length ends a record too. A row counts to 65535, so a longer one goes as two.
        if data.is_empty() {
            rows.extend([1, object.addr, 0]);
        }
        for (i, part) in data.chunks(0xFFFF).enumerate() {
            let addr = u16::try_from(object.addr as usize + i * 0xFFFF).map_err(|_| BEYOND)?;
            rows.extend([1, addr, part.len() as u16]);
        }
        values.extend(data.iter().flat_map(|&byte| [byte as u16, 8]));
    }
    let mut out = vec![0; raw::text_size(&rows, &values)?];
    raw::write_text(&rows, &values, &mut out)?;
    Ok(out.into_iter().map(char::from).collect())
}

/// The runs of a text.
pub fn read_hex(text: &[u8]) -> Result<Vec<Run>> {
    // Two characters or more to a byte, and more than ten to a run.
    let mut bytes = vec![0; text.len() / 2];
    let mut rows = vec![0; text.len() / 10 * 2];
    let (length, count) = raw::read_text(text, &mut bytes, &mut rows)?;
    let mut rest = &bytes[..length];
    let mut runs = Vec::with_capacity(count);
    for row in rows.chunks_exact(2).take(count) {
        let (run, after) = rest.split_at((row[1] - row[0]) as usize + 1);
        runs.push(Run { addr: row[0], bytes: run.to_vec() });
        rest = after;
    }
    Ok(runs)
}
