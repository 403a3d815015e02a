//! page ARCHIVE URI DATE: prints what an archive has, and the page that was captured of a URI as of a date.
use std::error::Error;
use std::io::{self, Write};

fn main() -> Result<(), Box<dyn Error>> {
    let words: Vec<String> = std::env::args().skip(1).collect();
    let [path, uri, date] = &words[..] else {
        return Err("usage: page ARCHIVE URI DATE".into());
    };
    let bytes = std::fs::read(path)?;
    let archive = zogwedu::Archive::open(&bytes)?;
    let mut out = io::stdout().lock();
    writeln!(out, "{} records", archive.len())?;
    for part in archive.replay(uri.as_bytes(), date.as_bytes())?.parts {
        out.write_all(part)?;
    }
    Ok(out.flush()?)
}
