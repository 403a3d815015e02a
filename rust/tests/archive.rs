//! What the crate gives of the examples.
use std::io::{self, Write};
use zogwedu::{Archive, Draft, ErrorKind, PayloadVerdict, Unjudged, Verdict};

const CRAWL: &[u8] = include_bytes!("../../examples/crawl.warc");
const DAMAGED: &[u8] = include_bytes!("../../examples/damaged.warc");

/// Where the record at a position of the crawl begins.
fn front(position: usize) -> usize {
    usize::try_from(Archive::open(CRAWL).unwrap().record(position).unwrap().offset()).unwrap()
}

#[test]
fn lists_and_replays() {
    let archive = Archive::open(CRAWL).unwrap();
    assert_eq!(archive.iter().count(), archive.len());
    assert_eq!(archive.iter().next_back().unwrap().unwrap().position(), 17);
    let body = archive.replay(b"http://127.0.0.1:8765/", b"9999").unwrap();
    assert_eq!((body.chosen, body.given, body.status, body.len()), (11, 11, Some(200), 93));
    assert_eq!(archive.captures(b"http://127.0.0.1:8765/sky.png").unwrap(), [4, 13]);
}

#[test]
fn judges_a_block_where_it_is_asked_to() {
    let mut archive = Archive::open(&CRAWL[..front(9)]).unwrap();
    assert_eq!(archive.verdict(0), Ok(Verdict::Good));
    assert_eq!(archive.verdict(13).unwrap_err().to_string(), "E1 NoRecord");
    archive.grow(CRAWL).unwrap();
    assert_eq!((archive.verdict(0), archive.verdict(13)), (Ok(Verdict::Good), Ok(Verdict::Bad)));
}

/// A record of three bytes with fields of digests, and its place in an archive.
fn judged(number: usize, kind: &str, fields: &str) -> String {
    format!(
        "WARC/1.1\r\nWARC-Type: {kind}\r\nWARC-Record-ID: <urn:uuid:00000000-0000-4000-8000-{number:012}>\r\n\
         WARC-Date: 2020-01-01T00:00:00Z\r\nWARC-Target-URI: http://a.example/x\r\nContent-Length: 3\r\n\
         {fields}\r\nabc\r\n\r\n"
    )
}

#[test]
fn judges_digests_in_hexadecimal() {
    let block = "WARC-Block-Digest: md5:900150983cd24fb0d6963f7d28e17f72\r\n";
    let bytes = judged(0, "resource", block) + &judged(1, "resource", &block.replace("72", "73"));
    let archive = Archive::open(bytes.as_bytes()).unwrap();
    assert_eq!((archive.stated_verdict(0), archive.verdict(0)), (Ok(Verdict::Good), Ok(Verdict::Unchecked)));
    assert_eq!((archive.stated_verdict(1), archive.verdict(1)), (Ok(Verdict::Bad), Ok(Verdict::Unchecked)));
    assert_eq!(archive.stated_verdict(2).unwrap_err().kind(), ErrorKind::NoRecord);
}

#[test]
fn judges_payloads() {
    let digest = "WARC-Payload-Digest: md5:900150983cd24fb0d6963f7d28e17f72\r\n";
    let segment = format!("WARC-Segment-Number: 1\r\n{digest}");
    let cases = [
        ("resource", digest, Some(PayloadVerdict::Good)),
        ("resource", "WARC-Payload-Digest: md5:900150983cd24fb0d6963f7d28e17f73\r\n", Some(PayloadVerdict::Bad)),
        ("resource", "", None),
        ("revisit", digest, Some(PayloadVerdict::Unchecked(Unjudged::Revisit))),
        ("request", digest, Some(PayloadVerdict::Unchecked(Unjudged::Request))),
        ("resource", &segment, Some(PayloadVerdict::Unchecked(Unjudged::Segment))),
        ("resource", "WARC-Payload-Digest: crc32:352441c2\r\n", Some(PayloadVerdict::Unchecked(Unjudged::Algorithm))),
        ("response", digest, Some(PayloadVerdict::Unchecked(Unjudged::Head))),
    ];
    let records = cases.iter().enumerate().map(|(number, (kind, fields, _))| judged(number, kind, fields));
    let bytes: String = records.collect();
    let archive = Archive::open(bytes.as_bytes()).unwrap();
    for (position, (_, _, verdict)) in cases.iter().enumerate() {
        assert_eq!(archive.payload_verdict(position), Ok(*verdict));
    }
    assert_eq!(archive.payload_verdict(cases.len()).unwrap_err().kind(), ErrorKind::NoRecord);
    assert_eq!(Unjudged::Coded.to_string(), "coded");
}

#[test]
fn bodies_outlive_the_archive_but_not_the_bytes() {
    let body = Archive::open(CRAWL).unwrap().body(2).unwrap();
    assert!(body.to_vec().starts_with(b"<title>"));
}

#[test]
fn faults_have_kinds_texts_and_offsets() {
    let fault = Archive::open(DAMAGED).unwrap_err();
    assert_eq!(
        (fault.kind(), fault.to_string().as_str(), fault.offset()),
        (ErrorKind::Refused, "F10 End at 274", Some(274))
    );
    assert_eq!(format!("{fault:?}"), "Refused(F10 End at 274)");
    let archive = Archive::open(CRAWL).unwrap();
    let week = b"http://127.0.0.1:8765/week";
    for (answer, kind, text) in [
        (archive.body(7), ErrorKind::NotACapture, "E2 NoCapture"),
        (archive.body(99), ErrorKind::NoRecord, "E1 NoRecord"),
        (archive.replay(week, b"9999"), ErrorKind::Coded, "P10 Coded"),
        (archive.replay(week, b"1000"), ErrorKind::NotCaptured, "P2 NotYet"),
        (archive.replay(week, b"soon"), ErrorKind::BadDate, "bad date"),
    ] {
        let error = answer.unwrap_err();
        assert_eq!((error.kind(), error.to_string().as_str()), (kind, text));
    }
}

#[test]
fn pieces_are_runs_and_damage() {
    let second = front(9);
    let parts = [&CRAWL[..second], b"\0\0\0", &CRAWL[second..], &CRAWL[..100]].concat();
    let found = zogwedu::pieces(&parts).unwrap();
    let faults = found.iter().map(|piece| piece.fault.map(|fault| fault.to_string()));
    let version = format!("F1 Version at {second}");
    let end = format!("F11 Truncated at {}", parts.len());
    assert_eq!(faults.collect::<Vec<_>>(), [None, Some(version), None, Some(end)]);
    assert_eq!(found.iter().map(|piece| piece.count).collect::<Vec<_>>(), [9, 0, 9, 0]);
    assert_eq!(found.iter().map(|piece| piece.bytes).collect::<Vec<_>>().concat(), parts);
    let good: Vec<_> = found.iter().filter(|piece| piece.fault.is_none()).map(|piece| piece.bytes).collect();
    assert_eq!(good.concat(), CRAWL);
    assert_eq!(zogwedu::pieces(b"").unwrap(), []);
    assert_eq!(zogwedu::pieces(CRAWL).unwrap().len(), 1);
}

#[test]
fn more_pieces_than_the_first_buffer_holds() {
    let record = &CRAWL[..front(1)];
    let parts = [record, b"damage"].concat().repeat(100);
    let found = zogwedu::pieces(&parts).unwrap();
    assert_eq!(found.len(), 200);
    assert!(found.iter().step_by(2).all(|piece| piece.bytes == record && piece.count == 1));
    assert!(found.iter().skip(1).step_by(2).all(|piece| piece.bytes == b"damage" && piece.fault.is_some()));
}

#[test]
fn grows_or_stays() {
    let front = front(9);
    let mut archive = Archive::open(&CRAWL[..front]).unwrap();
    assert_eq!(archive.len(), 9);
    assert_eq!(archive.grow(&CRAWL[..front + 10]).unwrap_err().kind(), ErrorKind::Refused);
    assert_eq!(archive.len(), 9);
    archive.grow(CRAWL).unwrap();
    assert_eq!(archive.len(), 18);
}

#[test]
fn fewer_or_other_bytes_are_refused_and_nothing_panics() {
    let mut other = CRAWL.to_vec();
    let last = front(17);
    other[last + 20] ^= 1;
    let mut archive = Archive::open(CRAWL).unwrap();
    for bytes in [&CRAWL[..0], &CRAWL[..700], &CRAWL[..CRAWL.len() - 1], &other] {
        assert_eq!(archive.grow(bytes).unwrap_err().kind(), ErrorKind::Changed);
        assert_eq!(archive.len(), 18);
        assert!(archive.iter().all(|record| record.is_ok()));
    }
    archive.grow(CRAWL).unwrap();
    assert_eq!(archive.len(), 18);
}

#[test]
fn opens_the_good_front() {
    let (archive, fault) = Archive::open_front(CRAWL).unwrap();
    assert_eq!((archive.len(), fault, archive.bytes().len()), (18, None, CRAWL.len()));
    let (archive, fault) = Archive::open_front(&CRAWL[..front(9) + 10]).unwrap();
    assert_eq!((archive.len(), archive.bytes().len()), (9, front(9)));
    assert_eq!(fault.unwrap().to_string(), format!("F11 Truncated at {}", front(9) + 10));
    let (archive, fault) = Archive::open_front(DAMAGED).unwrap();
    assert_eq!((archive.is_empty(), fault.unwrap().offset()), (true, Some(274)));
}

#[test]
fn heads_have_fields() {
    let archive = Archive::open(CRAWL).unwrap();
    let headers = archive.headers(2).unwrap();
    assert_eq!(headers.get("warc-TYPE"), Some(&b"response"[..]));
    assert_eq!((headers.get("x-none"), headers.get_all("WARC-Date").count()), (None, 1));
    assert_eq!((headers.len(), headers.iter().count()), (11, 11));
    let http = archive.http(2).unwrap().unwrap();
    assert_eq!((http.status, http.minor, http.reason.as_slice()), (200, 1, &b"OK"[..]));
    assert_eq!(http.headers.get("content-type"), Some(&b"text/html"[..]));
    assert!(http.stored.starts_with(b"<title>"));
    assert_eq!(archive.http(0).unwrap(), None);
    assert_eq!(archive.http(99).unwrap_err().kind(), ErrorKind::NoRecord);
    assert_eq!(archive.headers(99).unwrap_err().kind(), ErrorKind::NoRecord);
}

/// An archive of more records than one call gives, some of whose heads have unusual fields or don't fit into a buffer
/// together.
fn many() -> Vec<u8> {
    let kinds = ["", "X-A: one\r\nx-a: two\r\n", "X-Fold: a\r\n  b\r\n", "X-Empty:\r\n", &"X: y\r\n".repeat(3000)];
    let kinds = kinds.iter().chain(&kinds[..4]).cycle();
    let mut bytes: Vec<u8> =
        kinds.take(300).zip(0..).flat_map(|(it, at)| judged(at, "resource", it).into_bytes()).collect();
    bytes.extend(
        judged(300, "metadata", "X: \u{fc}\r\n").replace("WARC-Target-URI: http://a.example/x\r\n", "").bytes(),
    );
    bytes
}

#[test]
fn iterators_give_what_positions_give() {
    let bytes = many();
    for bytes in [&bytes, CRAWL, b""] {
        let archive = Archive::open(bytes).unwrap();
        let records: Vec<_> = (0..archive.len()).map(|at| archive.record(at).unwrap()).collect();
        let headers: Vec<_> = (0..archive.len()).map(|at| archive.headers(at).unwrap()).collect();
        assert_eq!(archive.iter().collect::<Result<Vec<_>, _>>().unwrap(), records);
        assert_eq!(archive.all_headers().collect::<Result<Vec<_>, _>>().unwrap(), headers);
        let back: Vec<_> = archive.iter().rev().map(Result::unwrap).collect();
        assert!(back.iter().rev().eq(&records));
        for step in [2, 63, 64, 65, 400] {
            assert!(archive.iter().step_by(step).map(Result::unwrap).eq(records.iter().step_by(step).cloned()));
            let passed = archive.all_headers().step_by(step).map(Result::unwrap);
            assert!(passed.eq(headers.iter().step_by(step).cloned()));
        }
    }
}

#[test]
fn iterators_meet_in_the_middle_and_end() {
    let bytes = many();
    let archive = Archive::open(&bytes).unwrap();
    let mut records = archive.iter();
    let mut seen = Vec::new();
    while let Some(record) = records.next() {
        seen.push(record.unwrap().position());
        seen.extend(records.next_back().map(|record| record.unwrap().position()));
        assert_eq!(records.len(), archive.len() - seen.len());
    }
    seen.sort_unstable();
    assert!(seen.into_iter().eq(0..archive.len()));
    assert!(records.next().is_none() && records.next_back().is_none());
    let mut headers = archive.all_headers();
    assert_eq!((headers.len(), headers.nth(archive.len() - 1).is_some(), headers.len()), (301, true, 0));
    assert!(headers.next().is_none() && archive.all_headers().nth(301).is_none() && archive.iter().nth(301).is_none());
    assert!(format!("{:?} {headers:?}", archive.iter()).len() < 100);
}

#[test]
fn debug_shows_no_block() {
    let record = Archive::open(CRAWL).unwrap().record(2).unwrap();
    assert!(format!("{record:?}").len() < 300);
    let body = Archive::open(CRAWL).unwrap().body(2).unwrap();
    assert!(format!("{body:?}").len() < 200);
}

/// Takes a few bytes at a time, up to a limit.
struct Full {
    taken: Vec<u8>,
    room: usize,
}

impl Write for Full {
    fn write(&mut self, piece: &[u8]) -> io::Result<usize> {
        let count = piece.len().min(7).min(self.room - self.taken.len());
        self.taken.extend_from_slice(&piece[..count]);
        Ok(count)
    }

    fn flush(&mut self) -> io::Result<()> {
        Ok(())
    }
}

#[test]
fn writes_archives() {
    let crawl = Archive::open(CRAWL).unwrap();
    let (mut canonical, mut converted, mut segments) = (Vec::new(), Vec::new(), Vec::new());
    crawl.rewrite(&mut canonical).unwrap();
    crawl.convert(&mut converted).unwrap();
    crawl.split(50, &mut segments).unwrap();
    assert_eq!(Archive::open(&canonical).unwrap().len(), 18);
    assert!(Archive::open(&converted).unwrap().iter().all(|record| record.unwrap().head().starts_with(b"WARC/1.1")));
    let whole = crawl.replay(b"http://127.0.0.1:8765/", b"9999").unwrap().to_vec();
    let archive = Archive::open(&segments).unwrap();
    assert_eq!(archive.replay(b"http://127.0.0.1:8765/", b"9999").unwrap().to_vec(), whole);

    let mut full = Full { taken: Vec::new(), room: 1000 };
    let error = crawl.rewrite(&mut full).unwrap_err();
    assert_eq!((error.sent(), full.taken.as_slice()), (1000, &canonical[..1000]));
    assert!(error.library_error().is_none());
    assert!(crawl.split(0, &mut full).is_err());
}

/// An archive of one record, whose head has more bytes than a text has room for at first, and whose block has more than
/// are held back.
fn long() -> Vec<u8> {
    let block = "block ".repeat(20_000);
    let mut bytes = judged(1, "resource", &format!("a: {}\r\nb:{}\r\n", "long ".repeat(4_000), "x".repeat(9_000)));
    bytes = bytes.replace("\r\nabc\r\n\r\n", &format!("\r\n{block}\r\n\r\n"));
    bytes.replace("Content-Length: 3\r\n", &format!("Content-Length: {}\r\n", block.len())).into_bytes()
}

#[test]
fn writes_long_heads_and_blocks() {
    let (bytes, mut once, mut twice) = (long(), Vec::new(), Vec::new());
    Archive::open(&bytes).unwrap().rewrite(&mut once).unwrap();
    let archive = Archive::open(&once).unwrap();
    let record = archive.record(0).unwrap();
    assert_eq!(record.block(), "block ".repeat(20_000).as_bytes());
    assert_eq!(archive.headers(0).unwrap().get("b"), Some("x".repeat(9_000).as_bytes()));
    assert_eq!(once.len(), record.head().len() + record.block().len() + 4);
    archive.rewrite(&mut twice).unwrap();
    assert!(once == twice);
}

#[test]
fn selects_records() {
    let archive = Archive::open(CRAWL).unwrap();
    let record = |position: usize| -> Vec<u8> {
        let record = archive.record(position).unwrap();
        [record.head(), record.block(), b"\r\n\r\n"].concat()
    };
    let (mut some, mut others, mut none) = (Vec::new(), Vec::new(), Vec::new());
    archive.select(&[3, 0, 3], &mut some).unwrap();
    assert_eq!(some, [record(0), record(3)].concat());
    archive.select_others(&[3, 0, 3], &mut others).unwrap();
    let rest = (0..archive.len()).filter(|position| ![0, 3].contains(position));
    assert_eq!(others, rest.flat_map(record).collect::<Vec<u8>>());
    archive.select_others(&[], &mut none).unwrap();
    assert_eq!(none, CRAWL);

    let revisit = (0..archive.len()).find(|position| archive.record(*position).unwrap().kind() == b"revisit").unwrap();
    let (mut closed, mut apart) = (Vec::new(), Vec::new());
    archive.select_closed(&[revisit], &mut closed).unwrap();
    let chosen = Archive::open(&closed).unwrap();
    assert_eq!(chosen.len(), 2);
    assert_eq!(chosen.body(1).unwrap().to_vec(), archive.body(revisit).unwrap().to_vec());
    archive.select_others_closed(&[0], &mut apart).unwrap();
    assert!(apart.len() < CRAWL.len() && Archive::open(&apart).is_ok());

    let error = archive.select(&[0, archive.len()], &mut none).unwrap_err();
    assert_eq!(error.library_error().unwrap().kind(), ErrorKind::NoRecord);
    assert_eq!((error.sent(), none.len()), (0, CRAWL.len()));
}

#[test]
fn makes_records() {
    let draft = Draft {
        kind: "resource",
        uri: b"http://a.example/x",
        date: "2020-01-01T00:00:00Z",
        uuid: "00000000-0000-4000-8000-000000000001",
        media_type: "text/plain",
        block: b"abc",
    };
    let mut out = Vec::new();
    zogwedu::make(&draft, &mut out).unwrap();
    let archive = Archive::open(&out).unwrap();
    assert_eq!((archive.check().unwrap(), archive.verdict(0)), (Vec::new(), Ok(Verdict::Good)));
    let wrong = Draft { date: "soon", ..draft };
    let error = zogwedu::make(&wrong, &mut Vec::new()).unwrap_err();
    assert_eq!((error.library_error().unwrap().to_string().as_str(), error.sent()), ("M1 Date", 0));
}

#[test]
fn each_thread_has_its_own() {
    let threads: Vec<_> =
        (0..4).map(|_| std::thread::spawn(|| Archive::open(CRAWL).unwrap().list().unwrap())).collect();
    let lists: Vec<_> = threads.into_iter().map(|thread| thread.join().unwrap()).collect();
    assert!(lists.iter().all(|list| *list == lists[0]));
}
