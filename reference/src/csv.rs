//! Records of CSV: read as common spreadsheet programs write them, and written with quotes where they are needed.
#[derive(Clone, Copy, PartialEq)]
enum State {
    StartRecord,
    StartField,
    InField,
    InQuoted,
    AfterQuote,
    AfterCr,
}

/// The records of a file, one after another; a byte order mark and empty lines are left out.
pub struct Reader<'a> {
    bytes: &'a [u8],
    at: usize,
    state: State,
}

impl<'a> Reader<'a> {
    pub fn new(bytes: &'a [u8]) -> Self {
        let at = if bytes.starts_with(&[0xEF, 0xBB, 0xBF]) { 3 } else { 0 };
        Reader { bytes, at, state: State::StartRecord }
    }

    pub fn next_record(&mut self) -> Option<Vec<Vec<u8>>> {
        let mut fields = Vec::new();
        let mut field = Vec::new();
        while self.at < self.bytes.len() {
            let c = self.bytes[self.at];
            self.at += 1;
            let mut state = self.state;
            if state == State::AfterCr {
                if c == b'\n' {
                    self.state = State::StartRecord;
                    continue;
                }
                state = State::StartRecord;
            }
            if state == State::StartRecord {
                if c == b'\r' || c == b'\n' {
                    self.state = State::StartRecord;
                    continue;
                }
                state = State::StartField;
            }
            if state == State::StartField {
                if c == b'"' {
                    self.state = State::InQuoted;
                    continue;
                }
                state = State::InField;
            }
            if state == State::InQuoted {
                if c == b'"' {
                    self.state = State::AfterQuote;
                } else {
                    field.push(c);
                    self.state = State::InQuoted;
                }
                continue;
            }
            if state == State::AfterQuote {
                if c == b'"' {
                    field.push(c);
                    self.state = State::InQuoted;
                    continue;
                }
            }
            // in a field
            if c == b',' {
                fields.push(std::mem::take(&mut field));
                self.state = State::StartField;
            } else if c == b'\r' || c == b'\n' {
                fields.push(field);
                self.state = if c == b'\r' { State::AfterCr } else { State::StartRecord };
                return Some(fields);
            } else {
                field.push(c);
                self.state = State::InField;
            }
        }
        let state = self.state;
        self.state = State::StartRecord;
        match state {
            State::StartRecord | State::AfterCr => None,
            _ => {
                fields.push(field);
                Some(fields)
            }
        }
    }
}

/// Writes a record; one whose only field is empty stands in quotes, so that its line is not empty.
pub fn put_record(out: &mut Vec<u8>, fields: &[&[u8]]) {
    let start = out.len();
    for (i, f) in fields.iter().enumerate() {
        if i > 0 {
            out.push(b',');
        }
        if f.iter().any(|&b| matches!(b, b',' | b'"' | b'\r' | b'\n')) {
            out.push(b'"');
            for &b in f.iter() {
                if b == b'"' {
                    out.push(b'"');
                }
                out.push(b);
            }
            out.push(b'"');
        } else {
            out.extend_from_slice(f);
        }
    }
    if out.len() == start {
        out.extend_from_slice(b"\"\"");
    }
    out.push(b'\n');
}
