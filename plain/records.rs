//! Records of comma-separated fields, with quotes and ends of lines as other tools write them.

/// Where a reader stands in a field.
#[derive(Clone, Copy, PartialEq)]
enum Place {
    /// Before its first byte.
    Start,
    Unquoted,
    Quoted,
    /// Behind a quote in quotes: their end, or the first of two.
    Quote,
}

/// The records of a file, one after another.
pub struct Records<'a> {
    rest: &'a [u8],
}

impl<'a> Records<'a> {
    pub fn new(bytes: &'a [u8]) -> Records<'a> {
        Records { rest: bytes.strip_prefix(b"\xef\xbb\xbf").unwrap_or(bytes) }
    }

    /// Takes a byte of the record, unless it is the end of an unquoted line.
    fn byte(&mut self, place: Place) -> Option<u8> {
        let (byte, rest) = self.rest.split_first()?;
        self.rest = rest;
        (place == Place::Quoted || !matches!(byte, b'\n' | b'\r')).then_some(*byte)
    }
}

impl Iterator for Records<'_> {
    type Item = Vec<Vec<u8>>;

    fn next(&mut self) -> Option<Vec<Vec<u8>>> {
        while let [b'\n' | b'\r', rest @ ..] = self.rest {
            self.rest = rest;
        }
        if self.rest.is_empty() {
            return None;
        }
        let (mut fields, mut field, mut place) = (Vec::new(), Vec::new(), Place::Start);
        while let Some(byte) = self.byte(place) {
            place = match (place, byte) {
                (Place::Start, b'"') => Place::Quoted,
                (Place::Quoted, b'"') => Place::Quote,
                (Place::Start | Place::Unquoted | Place::Quote, b',') => {
                    fields.push(std::mem::take(&mut field));
                    Place::Start
                }
                _ => {
                    field.push(byte);
                    // A quote behind a quote stands for one, inside.
                    if place == Place::Quoted || (place == Place::Quote && byte == b'"') {
                        Place::Quoted
                    } else {
                        Place::Unquoted
                    }
                }
            };
        }
        fields.push(field);
        Some(fields)
    }
}
