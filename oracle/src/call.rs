//! A call of an exported function, and what it must answer.

/// What is passed. A slice is passed as a pointer and its number of elements, as the library's functions take it.
#[derive(Debug, Clone, PartialEq, Eq)]
pub enum Arg {
    /// A number or a flag.
    Number(u64),
    /// A slice that is read: the size of an element, and all bytes.
    Lent(usize, Vec<u8>),
    /// A slice that may be written.
    LentMut(usize, Vec<u8>),
    /// One u64 that may be written, by its address alone.
    Out(u64),
}

/// What a call leaves: its result, and each buffer that it may have written, in order.
#[derive(Debug, Clone, PartialEq, Eq)]
pub struct Outcome {
    pub result: u64,
    pub written: Vec<Vec<u8>>,
}

/// A call, and the outcome that is due.
#[derive(Debug, Clone)]
pub struct Question {
    pub function: &'static str,
    pub args: Vec<Arg>,
    pub due: Outcome,
}

impl Question {
    /// A call that is answered by a number alone.
    pub fn number(function: &'static str, args: Vec<Arg>, result: u64) -> Self {
        let due = Outcome { result, written: vec![] };
        Self { function, args, due }
    }

    /// A call that writes numbers through addresses: those due, or where there are none, what stood there stays.
    pub fn beside(function: &'static str, mut args: Vec<Arg>, was: &[u64], result: u64, due: Option<Vec<u64>>) -> Self {
        args.extend(was.iter().map(|&n| Arg::Out(n)));
        let numbers = due.unwrap_or_else(|| was.to_vec());
        let written = numbers.iter().map(|n| n.to_le_bytes().to_vec()).collect();
        let due = Outcome { result, written };
        Self { function, args, due }
    }

    /// What is asked and what is due, short enough for a report.
    pub fn described(&self, got: &Outcome) -> String {
        let numbers: Vec<String> = self
            .args
            .iter()
            .map(|arg| match arg {
                Arg::Number(n) => n.to_string(),
                Arg::Lent(_, bytes) | Arg::LentMut(_, bytes) => format!("<{} bytes>", bytes.len()),
                Arg::Out(n) => format!("&{n}"),
            })
            .collect();
        let at = self.due.written.iter().zip(&got.written).position(|(due, got)| due != got);
        let which = match at {
            Some(k) => {
                let (due, got) = (&self.due.written[k], &got.written[k]);
                let byte = due.iter().zip(got.iter()).position(|(d, g)| d != g);
                match byte {
                    Some(b) => format!("; lent buffer {k} differs at byte {b}: {} due, {} got", due[b], got[b]),
                    None => format!("; lent buffer {k} has another length"),
                }
            }
            None => String::new(),
        };
        format!(
            "{}({}): {} due, {} got{}",
            self.function,
            numbers.join(", "),
            self.due.result,
            got.result,
            which
        )
    }
}

/// Words as bytes.
pub fn bytes64(words: &[u64]) -> Vec<u8> {
    words.iter().flat_map(|word| word.to_le_bytes()).collect()
}

/// u32 numbers as bytes.
pub fn bytes32(numbers: &[u32]) -> Vec<u8> {
    numbers.iter().flat_map(|n| n.to_le_bytes()).collect()
}

/// u16 numbers as bytes.
pub fn bytes16(numbers: &[u16]) -> Vec<u8> {
    numbers.iter().flat_map(|n| n.to_le_bytes()).collect()
}

/// Signed numbers as bytes.
pub fn bytes_i64(numbers: &[i64]) -> Vec<u8> {
    numbers.iter().flat_map(|n| n.to_le_bytes()).collect()
}
