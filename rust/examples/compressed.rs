//! compressed ARCHIVE: lists the records of an archive that gzip compressed, by `gzip -dc`.
use std::error::Error;
use std::fs::File;
use std::io::{self, Write};
use std::process::{Command, Stdio};

/// What a compressed file holds, all of it in memory. A file that is torn or damaged, or that other bytes follow, is an
/// error: gzip then ends with another status than 0, whatever it wrote.
fn decompress(path: &str) -> Result<Vec<u8>, Box<dyn Error>> {
    let done = Command::new("gzip").arg("-dc").stdin(File::open(path)?).stderr(Stdio::inherit()).output()?;
    if !done.status.success() {
        return Err(format!("{path} isn't decompressed to its end: gzip ended with {}", done.status).into());
    }
    Ok(done.stdout)
}

fn main() -> Result<(), Box<dyn Error>> {
    let words: Vec<String> = std::env::args().skip(1).collect();
    let [path] = &words[..] else {
        return Err("usage: compressed ARCHIVE".into());
    };
    let bytes = decompress(path)?;
    let archive = zogwedu::Archive::open(&bytes)?;
    let mut out = io::stdout().lock();
    out.write_all(&archive.list()?)?;
    Ok(out.flush()?)
}
