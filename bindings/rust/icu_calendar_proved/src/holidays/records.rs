//! The records of a text in CSV (RFC 4180) without a header.

use alloc::vec::Vec;

/// The most bytes of a line that the program ignores.
const MOST_IGNORED: usize = 512;

/// Returns what follows the empty lines and the notes, which begin with `#`, at the start of a text.
pub(super) fn behind_notes(text: &[u8]) -> &[u8] {
    let mut rest = text;
    while !rest.is_empty() {
        let line = rest.split(|byte| *byte == b'\n').next().unwrap_or(rest);
        let is_empty = matches!(line, [] | [b'\r']);
        if line.len() > MOST_IGNORED || !(is_empty || line[0] == b'#') {
            return rest;
        }
        rest = rest.get(line.len() + 1..).unwrap_or(b"");
    }
    rest
}

/// An iterator over the records of a text. Blank lines and a byte order mark at the start are ignored, a record ends
/// with a carriage return or a line feed, and a quoted field has a quote in it written twice.
pub(super) struct Records<'a> {
    rest: &'a [u8],
}

impl<'a> Records<'a> {
    pub(super) fn new(text: &'a [u8]) -> Records<'a> {
        Records {
            rest: text.strip_prefix(b"\xef\xbb\xbf").unwrap_or(text),
        }
    }

    /// Takes the first byte.
    fn take(&mut self) -> Option<u8> {
        let (first, rest) = self.rest.split_first()?;
        self.rest = rest;
        Some(*first)
    }

    /// Reads a field to the comma or the end behind it. Returns whether a comma ended it.
    fn field(&mut self, field: &mut Vec<u8>) -> bool {
        if self.rest.first() == Some(&b'"') {
            self.take();
            self.quoted(field);
        }
        while let Some(byte) = self.take() {
            match byte {
                b',' => return true,
                b'\r' | b'\n' => return false,
                byte => field.push(byte),
            }
        }
        false
    }

    /// Reads a field up to the quote that ends it.
    fn quoted(&mut self, field: &mut Vec<u8>) {
        while let Some(byte) = self.take() {
            if byte != b'"' {
                field.push(byte);
            } else if self.rest.first() == Some(&b'"') {
                self.take();
                field.push(b'"');
            } else {
                return;
            }
        }
    }
}

impl Iterator for Records<'_> {
    type Item = Vec<Vec<u8>>;

    fn next(&mut self) -> Option<Vec<Vec<u8>>> {
        while let Some(b'\r' | b'\n') = self.rest.first() {
            self.take();
        }
        if self.rest.is_empty() {
            return None;
        }
        let mut fields = Vec::new();
        loop {
            let mut field = Vec::new();
            let is_followed = self.field(&mut field);
            fields.push(field);
            if !is_followed {
                return Some(fields);
            }
        }
    }
}
