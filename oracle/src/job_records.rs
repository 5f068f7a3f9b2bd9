//! The form of a job's file and of a recording: the kinds of their records, a record, and the bytes of several.

pub const SETTINGS: u16 = 1;
pub const BASE: u16 = 2;
pub const PERSON: u16 = 3;
pub const RANGE: u16 = 4;
pub const FREEZE: u16 = 5;
pub const OWNER: u16 = 6;
pub const DRAW: u16 = 7;
pub const RECORDED: u16 = 8;
pub const CLOSE: u16 = 9;

/// A record: its kind and its body.
pub type Record = (u16, Vec<u8>);

/// The bytes of records, each with the length of its body before it.
pub fn file_of(records: &[Record]) -> Vec<u8> {
    let mut file = Vec::new();
    for (kind, body) in records {
        file.extend((body.len() as u16).to_le_bytes());
        file.extend(kind.to_le_bytes());
        file.extend(body);
    }
    file
}
