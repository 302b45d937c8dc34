//! Prints the least seconds of many calls with the message in a file:
//!
//!     seconds convert|read|verify FILE
//!
//! With `verify`, a verifier asks for all that each signature covers, and for each certificate.

use std::error::Error;
use std::hint::black_box;
use std::time::{Duration, Instant};
use std::{env, fs};

use cms_canon::{Job, Verdict};

const LASTS: Duration = Duration::from_secs(3);

fn verdict(job: &Job<'_>) -> Verdict {
    if job.number() == 0 {
        job.certificates().iter().for_each(|it| drop(black_box(it.to_vec())));
    }
    black_box(job.covered()).map_or(Verdict::Unknown, |_| Verdict::Good)
}

fn call(name: &str, message: &[u8]) -> Result<(), cms_canon::Error> {
    match name {
        "convert" => cms_canon::convert(message).map(drop),
        "read" => cms_canon::read(message).map(drop),
        _ => cms_canon::check_with(message, Some(b""), None, verdict).map(drop),
    }
}

fn main() -> Result<(), Box<dyn Error>> {
    let words: Vec<_> = env::args().collect();
    let message = fs::read(&words[2])?;
    let (start, mut least) = (Instant::now(), Duration::MAX);
    while start.elapsed() < LASTS {
        let began = Instant::now();
        call(&words[1], &message)?;
        least = least.min(began.elapsed());
    }
    println!("{}", least.as_secs_f64());
    Ok(())
}
