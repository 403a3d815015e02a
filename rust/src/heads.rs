//! The fields of heads, as the library reads them.
use std::ops::Range;
use std::slice;

/// The fields of a head, in their order. Names may repeat; ASCII case doesn't matter where one is looked for.
#[derive(Clone, Debug, Default)]
pub struct Headers {
    text: Vec<u8>,
    fields: Vec<(Range<usize>, Range<usize>)>,
}

impl Headers {
    /// How many fields there are.
    #[must_use]
    pub fn len(&self) -> usize {
        self.fields.len()
    }

    /// Whether there are none.
    #[must_use]
    pub fn is_empty(&self) -> bool {
        self.fields.is_empty()
    }

    /// The value of the first field of this name.
    #[must_use]
    pub fn get(&self, name: &str) -> Option<&[u8]> {
        self.iter().find(|(it, _)| it.eq_ignore_ascii_case(name.as_bytes())).map(|(_, value)| value)
    }

    /// The values of all fields of this name, in their order.
    pub fn get_all<'h>(&'h self, name: &'h str) -> impl Iterator<Item = &'h [u8]> + 'h {
        self.iter().filter(move |(it, _)| it.eq_ignore_ascii_case(name.as_bytes())).map(|(_, value)| value)
    }

    /// The name and the value of each field. A folded value is one line.
    #[must_use]
    pub fn iter(&self) -> Fields<'_> {
        Fields { headers: self, rest: self.fields.iter() }
    }

    /// Adds a text, and says where it is.
    fn add(&mut self, text: &[u8]) -> Range<usize> {
        let start = self.text.len();
        self.text.extend_from_slice(text);
        start..self.text.len()
    }

    /// The fields whose names and values are lines, each with a line feed after it.
    pub(crate) fn of_lines(lines: &[u8]) -> Self {
        let (mut start, mut fields) = (0, Vec::new());
        let mut parts = lines.split_inclusive(|byte| *byte == b'\n').map(|line| {
            let part = start..start + line.len() - 1;
            start += line.len();
            part
        });
        while let (Some(name), Some(value)) = (parts.next(), parts.next()) {
            fields.push((name, value));
        }
        Self { text: lines.to_vec(), fields }
    }

    pub(crate) fn push(&mut self, name: &[u8], value: &[u8]) {
        let field = (self.add(name), self.add(value));
        self.fields.push(field);
    }
}

impl PartialEq for Headers {
    fn eq(&self, other: &Self) -> bool {
        self.iter().eq(other)
    }
}

impl Eq for Headers {}

impl<'h> IntoIterator for &'h Headers {
    type Item = (&'h [u8], &'h [u8]);
    type IntoIter = Fields<'h>;

    fn into_iter(self) -> Fields<'h> {
        self.iter()
    }
}

/// The names and values of fields, in their order.
#[derive(Clone, Debug)]
pub struct Fields<'h> {
    headers: &'h Headers,
    rest: slice::Iter<'h, (Range<usize>, Range<usize>)>,
}

impl<'h> Iterator for Fields<'h> {
    type Item = (&'h [u8], &'h [u8]);

    fn next(&mut self) -> Option<Self::Item> {
        let (name, value) = self.rest.next()?;
        Some((&self.headers.text[name.clone()], &self.headers.text[value.clone()]))
    }

    fn size_hint(&self) -> (usize, Option<usize>) {
        self.rest.size_hint()
    }
}

impl ExactSizeIterator for Fields<'_> {}

/// The head of the HTTP response that a record's block begins with.
#[derive(Clone, Debug, PartialEq, Eq)]
#[non_exhaustive]
pub struct Http<'a> {
    /// The number that the three digits of its status give.
    pub status: u16,
    /// Its minor version: 1 for HTTP/1.1.
    pub minor: u8,
    /// Its reason phrase.
    pub reason: Vec<u8>,
    /// Its fields.
    pub headers: Headers,
    /// What follows it in the block, as it is stored: chunked or compressed where a field says so.
    pub stored: &'a [u8],
}
