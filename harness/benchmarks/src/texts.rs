//! Text: this library's writer and reader against the Rust's (its records, without its files), and against other tools as programs.
use coco::hex::{HexRecord, HexRecordCollection};
use joltwagon::raw;
use std::path::{Path, PathBuf};
use std::process::{Command, Stdio};

/// Bytes as the tables of objects and values that the writer takes.
pub struct Tables {
    pub objects: Vec<u16>,
    pub values: Vec<u16>,
}

/// An object of so many bytes from 0 on.
pub fn tables(bytes: &[u8]) -> Tables {
    Tables { objects: vec![1, 0, bytes.len() as u16], values: bytes.iter().flat_map(|&b| [b as u16, 8]).collect() }
}

pub fn write(t: &Tables, out: &mut [u8]) -> usize {
    raw::write_text(&t.objects, &t.values, out).unwrap()
}

pub fn read(text: &[u8], bytes: &mut [u8], runs: &mut [u16]) -> usize {
    raw::read_text(text, bytes, runs).unwrap().0
}

/// What the Rust's `write_output_files` does with the bytes, but for its files.
pub fn rust_write(bytes: &[u8], out: &mut Vec<u8>) -> usize {
    let mut records = HexRecordCollection::new();
    for (i, part) in bytes.chunks(32).enumerate() {
        records.add_record(HexRecord::from_data((32 * i) as u16, part)).unwrap();
    }
    records.add_eof();
    out.clear();
    records.write_to_file(out).unwrap();
    out.len()
}

pub fn rust_read(text: &str) -> usize {
    HexRecordCollection::from_str_iter(text.lines()).unwrap().iter().count()
}

/// A program's run on a file, its output thrown away.
pub fn program(words: &[&str], folder: &Path) {
    let status = Command::new(words[0]).args(&words[1..]).current_dir(folder).stdout(Stdio::null()).stderr(Stdio::null()).status();
    assert!(status.is_ok_and(|s| s.success()), "{words:?}");
}

/// A folder with the text and the bytes, and with those of one byte, by which a program's own start is measured.
pub fn folder(text: &[u8], bytes: &[u8]) -> PathBuf {
    let folder = std::env::temp_dir().join(format!("joltwagon-bench-{}", std::process::id()));
    std::fs::create_dir_all(&folder).unwrap();
    let mut small = vec![0; 64];
    let length = write(&tables(&[0x12]), &mut small);
    std::fs::write(folder.join("full.hex"), text).unwrap();
    std::fs::write(folder.join("full.bin"), bytes).unwrap();
    std::fs::write(folder.join("none.hex"), &small[..length]).unwrap();
    std::fs::write(folder.join("none.bin"), [0x12]).unwrap();
    folder
}
