//! Reads a TOML document (docs/FORMATS.md, "Boot file"): what a boot file may have, so integers, strings, truths, arrays and
//! tables. Of a floating-point number it is known that it is one; dates are refused.

const DEEPEST: usize = 80;

pub enum Value {
    Integer(i64),
    String(String),
    Truth(bool),
    Array(Vec<Value>),
    Table(Table),
    Float,
}

#[derive(Default)]
pub struct Table {
    pub entries: Vec<(String, Value)>,
}

impl Table {
    pub fn get(&self, key: &str) -> Option<&Value> {
        self.entries.iter().find(|(other, _)| other == key).map(|(_, value)| value)
    }

    fn place(&self, key: &str) -> Option<usize> {
        self.entries.iter().position(|(other, _)| other == key)
    }

    /// The table under a key, which is made where there is none; of an array of tables the last.
    fn table_under(&mut self, key: String) -> Read<&mut Table> {
        let place = self.place(&key).unwrap_or_else(|| {
            self.entries.push((key, Value::Table(Table::default())));
            self.entries.len() - 1
        });
        match &mut self.entries[place].1 {
            Value::Table(table) => Ok(table),
            Value::Array(values) => match values.last_mut() {
                Some(Value::Table(table)) => Ok(table),
                _ => Err(NoDocument),
            },
            _ => Err(NoDocument),
        }
    }

    fn table_along(&mut self, keys: &[String]) -> Read<&mut Table> {
        keys.iter().try_fold(self, |table, key| table.table_under(key.clone()))
    }

    /// A value under these keys, where there is none; where it is an array, it may go on one that there is.
    fn insert(&mut self, mut keys: Vec<String>, value: Value, goes_on: bool) -> Read<()> {
        let last = keys.pop().ok_or(NoDocument)?;
        let table = self.table_along(&keys)?;
        let Some(place) = table.place(&last) else {
            table.entries.push((last, value));
            return Ok(());
        };
        match (&mut table.entries[place].1, value) {
            (Value::Array(values), Value::Array(more)) if goes_on => values.extend(more),
            _ => return Err(NoDocument),
        }
        Ok(())
    }
}

/// The bytes are no document.
pub struct NoDocument;

type Read<T> = Result<T, NoDocument>;

fn is(right: bool) -> Read<()> {
    if right { Ok(()) } else { Err(NoDocument) }
}

pub fn read_document(bytes: &[u8]) -> Read<Table> {
    let text = std::str::from_utf8(bytes).map_err(|_| NoDocument)?;
    let text = text.strip_prefix('\u{feff}').unwrap_or(text);
    let mut parser = Parser { bytes: text.as_bytes(), at: 0 };
    let (mut root, mut head) = (Table::default(), Vec::new());
    loop {
        parser.skip_lines();
        match parser.peek() {
            None => return Ok(root),
            Some(b'[') => head = parser.head(&mut root)?,
            _ => {
                let (keys, value) = parser.entry(0)?;
                root.table_along(&head)?.insert(keys, value, false)?;
            }
        }
        is(parser.ends_line() || parser.peek().is_none())?;
    }
}

struct Parser<'a> {
    bytes: &'a [u8],
    at: usize,
}

impl Parser<'_> {
    fn peek(&self) -> Option<u8> {
        self.bytes.get(self.at).copied()
    }

    fn next(&mut self) -> Read<u8> {
        let byte = self.peek().ok_or(NoDocument)?;
        self.at += 1;
        Ok(byte)
    }

    fn takes(&mut self, text: &str) -> bool {
        let takes = self.bytes[self.at..].starts_with(text.as_bytes());
        if takes {
            self.at += text.len();
        }
        takes
    }

    fn must(&mut self, text: &str) -> Read<()> {
        is(self.takes(text))
    }

    fn skip_while(&mut self, is_one: impl Fn(u8) -> bool) {
        while self.peek().is_some_and(&is_one) {
            self.at += 1;
        }
    }

    fn skip_blanks(&mut self) {
        self.skip_while(|byte| matches!(byte, b' ' | b'\t'));
    }

    fn takes_line_feed(&mut self) -> bool {
        self.takes("\n") || self.takes("\r\n")
    }

    /// What may stand at the end of a line: whether the line ends behind it.
    fn ends_line(&mut self) -> bool {
        self.skip_blanks();
        if self.peek() == Some(b'#') {
            self.skip_while(|byte| byte != b'\n');
        }
        self.takes_line_feed()
    }

    /// Blanks, remarks and line feeds.
    fn skip_lines(&mut self) {
        while self.ends_line() {}
    }

    /// The head of a table: its keys.
    fn head(&mut self, root: &mut Table) -> Read<Vec<String>> {
        self.must("[")?;
        let of_array = self.takes("[");
        self.skip_blanks();
        let keys = self.keys()?;
        self.must(if of_array { "]]" } else { "]" })?;
        if of_array {
            root.insert(keys.clone(), Value::Array(vec![Value::Table(Table::default())]), true)?;
        } else {
            root.table_along(&keys)?;
        }
        Ok(keys)
    }

    /// Keys with dots between, and the blanks behind them.
    fn keys(&mut self) -> Read<Vec<String>> {
        let mut keys = Vec::new();
        loop {
            keys.push(self.key()?);
            is(keys.len() <= DEEPEST)?;
            self.skip_blanks();
            if !self.takes(".") {
                return Ok(keys);
            }
            self.skip_blanks();
        }
    }

    fn key(&mut self) -> Read<String> {
        match self.peek() {
            Some(b'"' | b'\'') => self.string(false),
            _ => {
                let key = self.run_of(|byte| byte.is_ascii_alphanumeric() || byte == b'_' || byte == b'-');
                if key.is_empty() { Err(NoDocument) } else { Ok(key) }
            }
        }
    }

    /// The bytes of one sort, which are ASCII, that stand here.
    fn run_of(&mut self, is_one: impl Fn(u8) -> bool) -> String {
        let from = self.at;
        self.skip_while(is_one);
        self.bytes[from..self.at].iter().map(|byte| char::from(*byte)).collect()
    }

    fn entry(&mut self, depth: usize) -> Read<(Vec<String>, Value)> {
        let keys = self.keys()?;
        self.must("=")?;
        self.skip_blanks();
        Ok((keys, self.value(depth)?))
    }

    fn value(&mut self, depth: usize) -> Read<Value> {
        if depth > DEEPEST {
            return Err(NoDocument);
        }
        match self.peek() {
            Some(b'[') => self.array(depth).map(Value::Array),
            Some(b'{') => self.inline_table(depth).map(Value::Table),
            Some(b'"' | b'\'') => self.string(true).map(Value::String),
            _ => self.scalar(),
        }
    }

    fn array(&mut self, depth: usize) -> Read<Vec<Value>> {
        let mut values = Vec::new();
        self.elements("]", |parser| {
            values.push(parser.value(depth + 1)?);
            Ok(())
        })?;
        Ok(values)
    }

    fn inline_table(&mut self, depth: usize) -> Read<Table> {
        let mut table = Table::default();
        self.elements("}", |parser| {
            let (keys, value) = parser.entry(depth + 1)?;
            table.insert(keys, value, false)
        })?;
        Ok(table)
    }

    /// What stands behind a bracket, with commas between and perhaps one at the end.
    fn elements(&mut self, end: &str, mut element: impl FnMut(&mut Self) -> Read<()>) -> Read<()> {
        self.next()?;
        loop {
            self.skip_lines();
            if self.takes(end) {
                return Ok(());
            }
            element(self)?;
            self.skip_lines();
            if !self.takes(",") {
                return self.must(end);
            }
        }
    }

    fn scalar(&mut self) -> Read<Value> {
        let word = self.run_of(|byte| byte.is_ascii_alphanumeric() || b"_+-.:".contains(&byte));
        match word.as_str() {
            "true" => Ok(Value::Truth(true)),
            "false" => Ok(Value::Truth(false)),
            _ if is_float(&word) => Ok(Value::Float),
            _ => integer(&word).map(Value::Integer).ok_or(NoDocument),
        }
    }

    // Strings

    /// A text between marks of one of the two sorts, of several lines between three of them.
    fn string(&mut self, may_be_long: bool) -> Read<String> {
        let mark = self.next()?;
        let is_long = may_be_long && self.takes(if mark == b'"' { "\"\"" } else { "''" });
        if is_long {
            self.takes_line_feed();
        }
        let needed = if is_long { 3 } else { 1 };
        let mut text = Vec::new();
        loop {
            // marks of the text itself may stand before those at its end
            let marks = self.bytes[self.at..].iter().take(2 * needed - 1).take_while(|byte| **byte == mark).count();
            if marks >= needed {
                self.at += marks;
                text.resize(text.len() + marks - needed, mark);
                return String::from_utf8(text).map_err(|_| NoDocument);
            }
            match self.next()? {
                b'\\' if mark == b'"' && is_long && self.skips_line_end() => {}
                b'\\' if mark == b'"' => self.escape(&mut text)?,
                b'\r' if is_long && self.peek() == Some(b'\n') => text.push(b'\r'),
                b'\n' if is_long => text.push(b'\n'),
                byte if is_control(byte) => return Err(NoDocument),
                byte => text.push(byte),
            }
        }
    }

    /// Whether just blanks stand on the line: these, and all blanks and line feeds behind them, are skipped.
    fn skips_line_end(&mut self) -> bool {
        let from = self.at;
        self.skip_blanks();
        if !self.takes_line_feed() {
            self.at = from;
            return false;
        }
        loop {
            self.skip_blanks();
            if !self.takes_line_feed() {
                return true;
            }
        }
    }

    fn escape(&mut self, text: &mut Vec<u8>) -> Read<()> {
        let escaped = match self.next()? {
            b'b' => '\u{8}',
            b't' => '\t',
            b'n' => '\n',
            b'f' => '\u{c}',
            b'r' => '\r',
            b'e' => '\u{1b}',
            b'"' => '"',
            b'\\' => '\\',
            b'x' => self.hexadecimal(2)?,
            b'u' => self.hexadecimal(4)?,
            b'U' => self.hexadecimal(8)?,
            _ => return Err(NoDocument),
        };
        text.extend_from_slice(escaped.encode_utf8(&mut [0; 4]).as_bytes());
        Ok(())
    }

    fn hexadecimal(&mut self, digits: u32) -> Read<char> {
        let mut number = 0;
        for _ in 0..digits {
            number = 16 * number + char::from(self.next()?).to_digit(16).ok_or(NoDocument)?;
        }
        char::from_u32(number).ok_or(NoDocument)
    }
}

/// Whether a byte may not stand in a text of one line.
fn is_control(byte: u8) -> bool {
    byte != b'\t' && (byte < 32 || byte == 127)
}

fn is_float(word: &str) -> bool {
    let has_part = word.contains(['.', 'e', 'E']) || word.ends_with("inf") || word.ends_with("nan");
    has_part && !word.starts_with("0x") && word.replace('_', "").parse::<f64>().is_ok()
}

fn integer(word: &str) -> Option<i64> {
    let digits = word.replace('_', "");
    for (mark, base) in [("0x", 16), ("0o", 8), ("0b", 2)] {
        if let Some(digits) = digits.strip_prefix(mark) {
            return i64::from_str_radix(digits, base).ok();
        }
    }
    let plain = digits.trim_start_matches(['+', '-']);
    if plain.starts_with('0') && plain != "0" { None } else { digits.parse().ok() }
}
