//! report ARCHIVE: what the crate gives of an archive, in the form that tests/callers/compare.py compares.
use std::error;
use std::io::{self, Write};
use zogwedu::{Archive, Body, Error, Headers, PayloadVerdict, Verdict};

fn put_text(out: &mut impl Write, title: &str, text: Result<Vec<u8>, Error>) -> io::Result<()> {
    writeln!(out, "== {title}")?;
    match text {
        Ok(text) => out.write_all(&text),
        Err(error) => writeln!(out, "{error}"),
    }
}

fn put_body(out: &mut impl Write, body: Result<Body<'_>, Error>) -> io::Result<()> {
    let body = match body {
        Ok(body) => body,
        Err(error) => return writeln!(out, "{error}"),
    };
    let status = body.status.map_or("-".to_string(), |status| status.to_string());
    let truncated = if body.is_truncated { "yes" } else { "no" };
    let (chosen, given, length) = (body.chosen, body.given, body.len());
    writeln!(out, "chosen {chosen} given {given} status {status} truncated {truncated} length {length}")?;
    out.write_all(&body.to_vec())?;
    writeln!(out)
}

fn verdict_text(verdict: Result<Verdict, Error>) -> String {
    match verdict {
        Ok(Verdict::Good) => "good".to_string(),
        Ok(Verdict::Bad) => "bad".to_string(),
        Ok(Verdict::Unchecked) => "unchecked".to_string(),
        Err(error) => error.to_string(),
    }
}

/// The lines of `warc fixity` without ids and digests, made of the verdicts on single records.
fn put_stated(out: &mut impl Write, archive: &Archive<'_>) -> Result<(), Box<dyn error::Error>> {
    let verdicts = (0..archive.len()).map(|position| archive.stated_verdict(position));
    let verdicts = verdicts.collect::<Result<Vec<_>, _>>()?;
    writeln!(out, "== stated")?;
    for (position, verdict) in verdicts.iter().enumerate().filter(|(_, verdict)| **verdict != Verdict::Good) {
        writeln!(out, "{position}\t{}", verdict_text(Ok(*verdict)))?;
    }
    let count = |verdict| verdicts.iter().filter(|given| **given == verdict).count();
    let (good, bad, unchecked) = (count(Verdict::Good), count(Verdict::Bad), count(Verdict::Unchecked));
    Ok(writeln!(out, "records {} good {good} bad {bad} unchecked {unchecked}", verdicts.len())?)
}

/// The lines of `warc fixity --payload` without ids and digests, made of the verdicts on single records.
fn put_payloads(out: &mut impl Write, archive: &Archive<'_>) -> Result<(), Box<dyn error::Error>> {
    let (mut good, mut bad, mut unchecked) = (0, 0, 0);
    writeln!(out, "== payloads")?;
    for position in 0..archive.len() {
        match archive.payload_verdict(position)? {
            None => {}
            Some(PayloadVerdict::Good) => good += 1,
            Some(PayloadVerdict::Bad) => {
                bad += 1;
                writeln!(out, "{position}\tbad\t-")?;
            }
            Some(PayloadVerdict::Unchecked(reason)) => {
                unchecked += 1;
                writeln!(out, "{position}\tunchecked\t{reason}")?;
            }
        }
    }
    Ok(writeln!(out, "records {} good {good} bad {bad} unchecked {unchecked}", good + bad + unchecked)?)
}

fn put_fields(out: &mut impl Write, headers: &Headers) -> io::Result<()> {
    for (name, value) in headers {
        out.write_all(&[name, b"\t", value, b"\n"].concat())?;
    }
    Ok(())
}

fn put_heads(
    out: &mut impl Write,
    archive: &Archive<'_>,
    position: usize,
    headers: &Headers,
) -> Result<(), Box<dyn error::Error>> {
    writeln!(out, "== fields {position}")?;
    put_fields(out, headers)?;
    if let Some(http) = archive.http(position)? {
        write!(out, "== http {position}\nHTTP/1.{} {} ", http.minor, http.status)?;
        out.write_all(&http.reason)?;
        writeln!(out, "\t{}", http.stored.len())?;
        put_fields(out, &http.headers)?;
        out.write_all(http.stored)?;
        writeln!(out)?;
    }
    Ok(())
}

fn report(out: &mut impl Write, archive: &Archive<'_>) -> Result<(), Box<dyn error::Error>> {
    put_text(out, "list", archive.list())?;
    writeln!(out, "== rows")?;
    for record in archive {
        let record = record?;
        write!(out, "{}\t{}\t{}\t", record.position(), record.offset(), record.block().len())?;
        let columns = [record.kind(), record.date(), record.id(), record.target().unwrap_or(b"-")];
        out.write_all(&columns.join(&b'\t'))?;
        writeln!(out)?;
    }
    put_text(out, "check", archive.check())?;
    put_text(out, "fixity", archive.fixity())?;
    writeln!(out, "== verdicts")?;
    for position in 0..archive.len() {
        writeln!(out, "{position} {}", verdict_text(archive.verdict(position)))?;
    }
    put_stated(out, archive)?;
    put_payloads(out, archive)?;
    for record in archive {
        let record = record?;
        writeln!(out, "== body {}", record.position())?;
        put_body(out, archive.body(record.position()))?;
        if let Some(target) = record.target() {
            writeln!(out, "== replay {}", record.position())?;
            put_body(out, archive.replay(target, record.date()))?;
        }
    }
    archive.all_headers().enumerate().try_for_each(|(position, it)| put_heads(out, archive, position, &it?))
}

/// The lines of `warc pieces`, made of pieces.
fn put_pieces(out: &mut impl Write, bytes: &[u8]) -> Result<(), Box<dyn error::Error>> {
    writeln!(out, "== pieces")?;
    for piece in zogwedu::pieces(bytes)? {
        match piece.fault {
            Some(fault) => writeln!(out, "damage\t{}\t{}\t{fault}", piece.offset, piece.bytes.len())?,
            None => writeln!(out, "records\t{}\t{}\t{}", piece.offset, piece.bytes.len(), piece.count)?,
        }
    }
    Ok(())
}

fn main() -> Result<(), Box<dyn error::Error>> {
    let path = std::env::args_os().nth(1).ok_or("usage: report ARCHIVE")?;
    let bytes = std::fs::read(path)?;
    let mut out = io::BufWriter::new(io::stdout().lock());
    put_pieces(&mut out, &bytes)?;
    match Archive::open(&bytes) {
        Ok(archive) => report(&mut out, &archive)?,
        Err(error) => writeln!(out, "== refused\n{error}")?,
    }
    Ok(out.flush()?)
}
