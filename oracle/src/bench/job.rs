//! The row of a whole job.

use std::hint::black_box;

use boltraven::{lent, LISTING_MOST};

use super::{row, Row, Side};
use crate::job_cases::JobCase;

/// A job file as it is lent, with room for its listing.
struct LentJob {
    file: Vec<u8>,
    out: Vec<u8>,
    length: u64,
}

/// Ours: from the file to its listing. The Rust: from the same numbers to the same text.
pub fn job(job: JobCase) -> Row {
    let file = job.file();
    let ours = Side {
        fresh: Box::new(move || LentJob {
            file: file.clone(),
            out: vec![0; LISTING_MOST],
            length: 0,
        }),
        run: Box::new(|lent: &mut LentJob| {
            lent::run_job(black_box(&lent.file), &mut lent.out, &mut lent.length).expect("nothing is refused");
        }),
        seen: Box::new(|lent: &LentJob| lent.out[..lent.length as usize].to_vec()),
    };
    let rust = Side {
        fresh: Box::new(String::new),
        run: Box::new(move |text: &mut String| *text = black_box(&job).listing()),
        seen: Box::new(|text: &String| text.clone().into_bytes()),
    };
    row(ours, rust)
}
