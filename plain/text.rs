//! What stands in a TOML 1.1 text: keys, texts in quotes, numbers, dates and times, blanks and comments.

/// A number, a truth value, a text, or a value that nobody here takes: a float, a date or a time.
pub enum Scalar {
    Number(i64),
    Truth(bool),
    Text(String),
    Other,
}

/// How many parts a dotted key may have.
const MOST_PARTS: usize = 80;

/// A place in a text.
pub struct Reader<'a> {
    pub rest: &'a str,
}

impl<'a> Reader<'a> {
    pub fn takes(&mut self, mark: &str) -> bool {
        let rest = self.rest.strip_prefix(mark);
        self.rest = rest.unwrap_or(self.rest);
        rest.is_some()
    }

    pub fn expects(&mut self, mark: &str) -> Option<()> {
        self.takes(mark).then_some(())
    }

    /// The longest beginning of such characters.
    fn run(&mut self, is_one: impl Fn(char) -> bool) -> &'a str {
        let end = self.rest.find(|c| !is_one(c)).unwrap_or(self.rest.len());
        let (run, rest) = self.rest.split_at(end);
        self.rest = rest;
        run
    }

    pub fn blanks(&mut self) {
        self.run(|c| c == ' ' || c == '\t');
    }

    fn line_end(&mut self) -> bool {
        self.takes("\n") || self.takes("\r\n")
    }

    /// A line end of a text of several lines, which stays in it as it is written.
    fn line_end_in(&mut self, text: &mut String) -> bool {
        let before = self.rest;
        let takes = self.line_end();
        *text += &before[..before.len() - self.rest.len()];
        takes
    }

    fn comment(&mut self) {
        if self.takes("#") {
            self.run(|c| c == '\t' || !c.is_ascii_control());
        }
    }

    /// Blanks, comments and line ends.
    pub fn lines(&mut self) {
        loop {
            self.blanks();
            self.comment();
            if !self.line_end() {
                return;
            }
        }
    }

    /// The end of a line that has something, or of the text.
    pub fn ends_line(&mut self) -> Option<()> {
        self.blanks();
        self.comment();
        (self.rest.is_empty() || self.line_end()).then_some(())
    }

    /// A key: one part, or more of them with points between.
    pub fn key(&mut self) -> Option<Vec<String>> {
        let mut parts = vec![self.part()?];
        loop {
            let before = self.rest;
            self.blanks();
            if !self.takes(".") {
                self.rest = before;
                return (parts.len() <= MOST_PARTS).then_some(parts);
            }
            self.blanks();
            parts.push(self.part()?);
        }
    }

    fn part(&mut self) -> Option<String> {
        if self.takes("\"") {
            return self.basic();
        }
        if self.takes("'") {
            return self.literal();
        }
        let part = self.run(|c| c.is_ascii_alphanumeric() || c == '_' || c == '-');
        (!part.is_empty()).then(|| part.to_string())
    }

    /// A value that is neither a list nor a table.
    pub fn scalar(&mut self) -> Option<Scalar> {
        let text = if self.takes("\"\"\"") {
            self.long_basic()
        } else if self.takes("'''") {
            self.long_literal()
        } else if self.takes("\"") {
            self.basic()
        } else if self.takes("'") {
            self.literal()
        } else {
            return self.unquoted();
        };
        text.map(Scalar::Text)
    }

    /// The rest of a text in double quotes.
    fn basic(&mut self) -> Option<String> {
        let mut text = String::new();
        loop {
            text += self.run(|c| c == '\t' || !(c.is_ascii_control() || c == '"' || c == '\\'));
            if self.takes("\"") {
                return Some(text);
            }
            self.expects("\\")?;
            text.push(self.escaped()?);
        }
    }

    /// The rest of a text in single quotes.
    fn literal(&mut self) -> Option<String> {
        let text = self.run(|c| c == '\t' || !(c.is_ascii_control() || c == '\''));
        self.expects("'")?;
        Some(text.to_string())
    }

    /// The rest of a text in three double quotes.
    fn long_basic(&mut self) -> Option<String> {
        let mut text = String::new();
        self.line_end();
        loop {
            text += self.run(|c| c == '\t' || !(c.is_ascii_control() || c == '"' || c == '\\'));
            if self.line_end_in(&mut text) {
                continue;
            }
            if self.rest.starts_with('"') {
                if self.quotes('"', &mut text) {
                    return Some(text);
                }
            } else {
                self.expects("\\")?;
                if !self.line_goes_on() {
                    text.push(self.escaped()?);
                }
            }
        }
    }

    /// The rest of a text in three single quotes.
    fn long_literal(&mut self) -> Option<String> {
        let mut text = String::new();
        self.line_end();
        loop {
            text += self.run(|c| c == '\t' || !(c.is_ascii_control() || c == '\''));
            if self.line_end_in(&mut text) {
                continue;
            }
            if !self.rest.starts_with('\'') {
                return None;
            } else if self.quotes('\'', &mut text) {
                return Some(text);
            }
        }
    }

    /// Some quotes in a text of several lines, and whether they end it. One or two belong to the text, also before the
    /// three that end it.
    fn quotes(&mut self, quote: char, text: &mut String) -> bool {
        let most = self.rest.char_indices().take_while(|(place, c)| *place < 5 && *c == quote).count();
        let kept = if most < 3 { most } else { most - 3 };
        text.extend(std::iter::repeat_n(quote, kept));
        self.rest = &self.rest[most..];
        most >= 3
    }

    /// Whether a backslash stands at the end of a line: then all blanks and line ends behind it are left out.
    fn line_goes_on(&mut self) -> bool {
        let before = self.rest;
        self.blanks();
        if !self.line_end() {
            self.rest = before;
            return false;
        }
        loop {
            self.blanks();
            if !self.line_end() {
                return true;
            }
        }
    }

    /// What stands behind a backslash.
    fn escaped(&mut self) -> Option<char> {
        let mark = self.rest.chars().next()?;
        self.rest = &self.rest[mark.len_utf8()..];
        Some(match mark {
            'b' => '\u{8}',
            't' => '\t',
            'n' => '\n',
            'f' => '\u{c}',
            'r' => '\r',
            'e' => '\u{1b}',
            '"' | '\\' => mark,
            'x' => self.code(2)?,
            'u' => self.code(4)?,
            'U' => self.code(8)?,
            _ => return None,
        })
    }

    /// The character of a number of so many hexadecimal digits.
    fn code(&mut self, digits: usize) -> Option<char> {
        let code = self.rest.get(..digits)?;
        if !code.bytes().all(|byte| byte.is_ascii_hexdigit()) {
            return None;
        }
        self.rest = &self.rest[digits..];
        char::from_u32(u32::from_str_radix(code, 16).ok()?)
    }

    fn unquoted(&mut self) -> Option<Scalar> {
        let is_part = |c: char| c.is_ascii_alphanumeric() || "+-_.:".contains(c);
        let word = self.run(is_part);
        if is_date(word)
            && self.rest.starts_with(' ')
            && self.rest[1..].starts_with(|c: char| c.is_ascii_digit())
        {
            self.rest = &self.rest[1..];
            return is_time_and_offset(self.run(is_part)).then_some(Scalar::Other);
        }
        match word {
            "true" => Some(Scalar::Truth(true)),
            "false" => Some(Scalar::Truth(false)),
            _ if is_float(word) || is_moment(word) => Some(Scalar::Other),
            _ => integer(word).map(Scalar::Number),
        }
    }
}

fn unsigned(word: &str) -> &str {
    word.strip_prefix(['+', '-']).unwrap_or(word)
}

/// Whether these are digits of the base, with underscores only between two of them.
fn are_digits(digits: &str, base: u32) -> bool {
    digits.split('_').all(|part| !part.is_empty() && part.chars().all(|c| c.is_digit(base)))
}

/// Whether this is a number without a sign, and with no zero in front.
fn is_whole(digits: &str) -> bool {
    are_digits(digits, 10) && (digits.len() == 1 || !digits.starts_with('0'))
}

fn integer(word: &str) -> Option<i64> {
    for (mark, base) in [("0x", 16), ("0o", 8), ("0b", 2)] {
        if let Some(digits) = word.strip_prefix(mark) {
            return if are_digits(digits, base) { parsed(digits, base) } else { None };
        }
    }
    if is_whole(unsigned(word)) { parsed(word, 10) } else { None }
}

/// None where it doesn't fit 64 bits.
fn parsed(digits: &str, base: u32) -> Option<i64> {
    i64::from_str_radix(&digits.replace('_', ""), base).ok()
}

fn is_float(word: &str) -> bool {
    let word = unsigned(word);
    if word == "inf" || word == "nan" {
        return true;
    }
    let (number, exponent) = match word.split_once(['e', 'E']) {
        Some((number, exponent)) => (number, Some(exponent)),
        None => (word, None),
    };
    let (whole, fraction) = match number.split_once('.') {
        Some((whole, fraction)) => (whole, Some(fraction)),
        None => (number, None),
    };
    let are_parts = fraction.is_none_or(|digits| are_digits(digits, 10))
        && exponent.is_none_or(|exponent| are_digits(unsigned(exponent), 10));
    is_whole(whole) && are_parts && (fraction.is_some() || exponent.is_some()) && is_finite(word)
}

/// Whether a float fits 64 bits.
fn is_finite(word: &str) -> bool {
    word.replace('_', "").parse::<f64>().is_ok_and(f64::is_finite)
}

/// A number of just so many digits, within a range.
fn is_number(digits: &str, count: usize, range: std::ops::RangeInclusive<u32>) -> bool {
    digits.len() == count
        && digits.bytes().all(|byte| byte.is_ascii_digit())
        && digits.parse().is_ok_and(|number| range.contains(&number))
}

fn days(year: u32, month: u32) -> u32 {
    let leaps = year.is_multiple_of(4) && (!year.is_multiple_of(100) || year.is_multiple_of(400));
    match month {
        2 => 28 + u32::from(leaps),
        4 | 6 | 9 | 11 => 30,
        _ => 31,
    }
}

fn is_date(word: &str) -> bool {
    let parts: Vec<&str> = word.split('-').collect();
    let [year, month, day] = parts[..] else { return false };
    if !is_number(year, 4, 0..=9999) || !is_number(month, 2, 1..=12) {
        return false;
    }
    let (Ok(year), Ok(month)) = (year.parse(), month.parse()) else { return false };
    is_number(day, 2, 1..=days(year, month))
}

/// A time with seconds or without, and with a fraction of them or without.
fn is_time(word: &str) -> bool {
    let (word, fraction) = match word.split_once('.') {
        Some((word, fraction)) => (word, Some(fraction)),
        None => (word, None),
    };
    let parts: Vec<&str> = word.split(':').collect();
    let (hour, minute, second) = match parts[..] {
        [hour, minute] => (hour, minute, None),
        [hour, minute, second] => (hour, minute, Some(second)),
        _ => return false,
    };
    let is_fraction = |digits: &str| !digits.is_empty() && digits.bytes().all(|byte| byte.is_ascii_digit());
    is_number(hour, 2, 0..=23)
        && is_number(minute, 2, 0..=59)
        && second.is_none_or(|second| is_number(second, 2, 0..=60))
        && fraction.is_none_or(|digits| second.is_some() && is_fraction(digits))
}

fn is_time_and_offset(word: &str) -> bool {
    if let Some(time) = word.strip_suffix(['Z', 'z']) {
        return is_time(time);
    }
    let Some(place) = word.find(['+', '-']) else { return is_time(word) };
    let offset = &word[place + 1..];
    let Some((hours, minutes)) = offset.split_once(':') else { return false };
    is_time(&word[..place]) && is_number(hours, 2, 0..=23) && is_number(minutes, 2, 0..=59)
}

/// A date, a time, or both with a T between them.
fn is_moment(word: &str) -> bool {
    match word.split_once(['T', 't']) {
        Some((date, time)) => is_date(date) && is_time_and_offset(time),
        None => is_date(word) || is_time(word),
    }
}
