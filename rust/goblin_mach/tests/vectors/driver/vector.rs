//! The format of vectors, as vectors/README.md says it. What the format doesn't allow is a fault with its line.
use std::collections::HashMap;

/// The keys of a vector, and whether a vector may have several lines of one.
const KEYS: &[(&str, bool)] = &[
    ("vector", false),
    ("shows", false),
    ("source", false),
    ("row", true),
    ("bytes", true),
    ("image", false),
    ("cut", false),
    ("change", true),
    ("library", true),
    ("call", false),
    ("mode", false),
    ("offset", false),
    ("name", false),
    ("address", false),
    ("number", true),
    ("part", true),
    ("want", true),
    ("count", false),
    ("first", true),
    ("last", true),
    ("checked", false),
    ("choice", false),
];

/// Why a file of vectors is refused.
#[derive(Debug)]
pub struct Fault {
    pub line: usize,
    pub what: String,
}

pub type Result<T> = std::result::Result<T, Fault>;

fn refuse<T>(line: usize, what: impl Into<String>) -> Result<T> {
    let what = what.into();
    Err(Fault { line, what })
}

/// The answer that a vector wants.
pub enum Want {
    /// All lines.
    Lines(Vec<String>),
    /// How many lines there are, and the first and the last ones.
    Counted {
        count: usize,
        first: Vec<String>,
        last: Vec<String>,
    },
    /// Not filled in yet.
    Missing,
}

/// A file, a question, and the answer.
pub struct Vector {
    pub name: String,
    pub line: usize,
    pub call: String,
    pub bytes: Vec<u8>,
    pub is_lossy: bool,
    pub offset: usize,
    /// What the lines of these keys say; empty or 0 without such lines.
    pub wanted_name: String,
    pub address: u64,
    pub numbers: Vec<Vec<u64>>,
    #[cfg_attr(not(feature = "write"), allow(dead_code))]
    pub parts: Vec<Vec<u64>>,
    /// The files that are given with it, each with its path.
    #[cfg_attr(not(feature = "resolve"), allow(dead_code))]
    pub libraries: Vec<(String, Vec<u8>)>,
    pub want: Want,
}

impl Vector {
    /// The number of the one `number` line.
    pub fn number(&self) -> u64 {
        self.numbers.first().map_or(0, |line| line[0])
    }
}

struct Line<'t> {
    number: usize,
    key: &'t str,
    value: &'t str,
}

/// The lines up to an empty one, without remarks.
struct Block<'t>(Vec<Line<'t>>);

impl<'t> Block<'t> {
    fn all(&self, key: &'static str) -> impl Iterator<Item = &Line<'t>> {
        self.0.iter().filter(move |line| line.key == key)
    }

    fn find(&self, key: &'static str) -> Option<&Line<'t>> {
        self.all(key).next()
    }

    fn needed(&self, key: &'static str) -> Result<&Line<'t>> {
        match self.find(key) {
            Some(line) => Ok(line),
            None => refuse(self.0[0].number, format!("no {key}")),
        }
    }

    fn values(&self, key: &'static str) -> Vec<String> {
        self.all(key).map(|line| line.value.to_string()).collect()
    }

    /// The number of a line that may be missing.
    fn number(&self, key: &'static str) -> Result<Option<u64>> {
        self.find(key)
            .map(|line| number(line, line.value))
            .transpose()
    }

    /// The numbers of all lines of a key, so many in each.
    fn numbers(&self, key: &'static str, count: usize) -> Result<Vec<Vec<u64>>> {
        self.all(key).map(|line| numbers(line, count)).collect()
    }

    /// Checks that what the call needs is there.
    fn check_needs(&self, call: &str) -> Result<()> {
        let key = match call {
            "find" | "archive-find" | "member-named" => "name",
            "slot-at" | "section-at" => "address",
            "section-of" | "strings" | "write-fat" | "requirement" => "number",
            _ if call.ends_with("-names") => "number",
            _ => return Ok(()),
        };
        self.needed(key).map(|_| ())
    }

    fn check_keys(&self) -> Result<()> {
        for (before, line) in self.0.iter().enumerate() {
            let Some((_, may_repeat)) = KEYS.iter().find(|known| known.0 == line.key) else {
                return refuse(line.number, format!("unknown key '{}'", line.key));
            };
            if !may_repeat && self.0[..before].iter().any(|other| other.key == line.key) {
                return refuse(line.number, format!("a second {}", line.key));
            }
        }
        Ok(())
    }
}

/// The blocks of a text, which is ASCII, and whose lines end with LF.
fn blocks(text: &str) -> Result<Vec<Block<'_>>> {
    let mut blocks = vec![Block(Vec::new())];
    for (index, line) in text.split('\n').enumerate() {
        let number = index + 1;
        if !line.is_ascii() || line.contains('\r') {
            return refuse(number, "a line that isn't ASCII, or ends with CR");
        }
        if line.is_empty() {
            blocks.push(Block(Vec::new()));
        } else if !line.starts_with('#') {
            let (key, value) = line.split_once(' ').unwrap_or((line, ""));
            let line = Line { number, key, value };
            blocks.last_mut().unwrap().0.push(line);
        }
    }
    if !text.ends_with('\n') {
        return refuse(text.split('\n').count(), "a last line without LF");
    }
    blocks.retain(|block| !block.0.is_empty());
    Ok(blocks)
}

fn number(line: &Line<'_>, text: &str) -> Result<u64> {
    let read = match text.strip_prefix("0x") {
        Some(digits) => u64::from_str_radix(digits, 16),
        None => text.parse(),
    };
    // A sign is no digit.
    match read {
        Ok(number) if !text.contains('+') => Ok(number),
        _ => refuse(line.number, format!("'{text}' is no number")),
    }
}

fn numbers(line: &Line<'_>, count: usize) -> Result<Vec<u64>> {
    let words: Vec<_> = line.value.split(' ').collect();
    if words.len() != count {
        return refuse(line.number, format!("not {count} numbers"));
    }
    words.into_iter().map(|word| number(line, word)).collect()
}

fn pairs(line: &Line<'_>, digits: &str) -> Result<Vec<u8>> {
    let pair = |pair: &[u8]| u8::from_str_radix(std::str::from_utf8(pair).ok()?, 16).ok();
    let are_digits = digits.bytes().all(|digit| digit.is_ascii_hexdigit());
    if digits.is_empty() || digits.len() % 2 != 0 || !are_digits {
        return refuse(line.number, format!("'{digits}' isn't pairs of digits"));
    }
    Ok(digits.as_bytes().chunks(2).filter_map(pair).collect())
}

/// Adds the bytes of words such as `00ff` and `00*16`.
fn add_words(bytes: &mut Vec<u8>, line: &Line<'_>, words: &str) -> Result<()> {
    for word in words.split_whitespace() {
        let (digits, times) = word.split_once('*').unwrap_or((word, "1"));
        let times = number(line, times)? as usize;
        bytes.extend(pairs(line, digits)?.repeat(times));
    }
    Ok(())
}

fn change(bytes: &mut [u8], line: &Line<'_>) -> Result<()> {
    let (place, words) = line.value.split_once(' ').unwrap_or((line.value, ""));
    let place = number(line, place)? as usize;
    let mut new = Vec::new();
    add_words(&mut new, line, words)?;
    let rest = bytes.get_mut(place..);
    let Some(old) = rest.and_then(|rest| rest.get_mut(..new.len())) else {
        return refuse(line.number, "a change outside of the bytes");
    };
    old.copy_from_slice(&new);
    Ok(())
}

/// The file of a vector: its image, cut and changed, and then its bytes.
fn file(block: &Block<'_>, images: &HashMap<&str, Vec<u8>>) -> Result<Vec<u8>> {
    let mut bytes = match block.find("image") {
        Some(line) => match images.get(line.value) {
            Some(image) => image.clone(),
            None => return refuse(line.number, format!("no image '{}'", line.value)),
        },
        None => Vec::new(),
    };
    if let Some(line) = block.find("cut") {
        let len = number(line, line.value)? as usize;
        if len > bytes.len() {
            return refuse(line.number, "a cut after the end of the image");
        }
        bytes.truncate(len);
    }
    for line in block.all("change") {
        change(&mut bytes, line)?;
    }
    for line in block.all("bytes") {
        add_words(&mut bytes, line, line.value)?;
    }
    Ok(bytes)
}

/// A name, in which `\x` and two digits are a byte.
fn name(line: &Line<'_>, text: &str) -> Result<String> {
    let mut parts = text.split('\\');
    let mut bytes = parts.next().unwrap_or("").as_bytes().to_vec();
    for part in parts {
        match (part.strip_prefix('x'), part.get(1..3), part.get(3..)) {
            (Some(_), Some(digits), Some(rest)) => {
                bytes.extend(pairs(line, digits)?);
                bytes.extend(rest.as_bytes());
            }
            _ => return refuse(line.number, "a backslash without x and two digits"),
        }
    }
    String::from_utf8(bytes).or_else(|_| refuse(line.number, "a name that isn't UTF-8"))
}

/// The path and the bytes of a library that is given with the file.
fn library(line: &Line<'_>, images: &HashMap<&str, Vec<u8>>) -> Result<(String, Vec<u8>)> {
    let (path, image) = line.value.split_once(' ').unwrap_or((line.value, ""));
    match images.get(image) {
        Some(bytes) => Ok((name(line, path)?, bytes.clone())),
        None => refuse(line.number, format!("no image '{image}'")),
    }
}

fn want(block: &Block<'_>) -> Result<Want> {
    let lines = block.values("want");
    let is_counted = |line: &&Line<'_>| ["count", "first", "last"].contains(&line.key);
    match (block.0.iter().find(is_counted), lines.is_empty()) {
        (None, true) => Ok(Want::Missing),
        (None, false) => Ok(Want::Lines(lines)),
        (Some(line), false) => refuse(line.number, format!("both want and {}", line.key)),
        (Some(_), true) => counted(block),
    }
}

fn counted(block: &Block<'_>) -> Result<Want> {
    let line = block.needed("count")?;
    let count = number(line, line.value)? as usize;
    let [first, last] = ["first", "last"].map(|key| block.values(key));
    if first.len().max(last.len()) > count {
        return refuse(line.number, "fewer lines than first or last ones");
    }
    Ok(Want::Counted { count, first, last })
}

fn vector(block: &Block<'_>, images: &HashMap<&str, Vec<u8>>) -> Result<Vector> {
    block.check_keys()?;
    let head = block.needed("vector")?;
    let call = block.needed("call")?.value;
    block.check_needs(call)?;
    let is_lossy = match block.find("mode") {
        None => false,
        Some(line) => match line.value {
            "strict" => false,
            "lossy" => true,
            mode => return refuse(line.number, format!("unknown mode '{mode}'")),
        },
    };
    let is_of_two = call == "cpu-names" || call == "relocation-names";
    Ok(Vector {
        name: head.value.to_string(),
        line: head.number,
        call: call.to_string(),
        bytes: file(block, images)?,
        is_lossy,
        offset: block.number("offset")?.unwrap_or(0) as usize,
        wanted_name: block
            .find("name")
            .map_or(Ok(String::new()), |line| name(line, line.value))?,
        address: block.number("address")?.unwrap_or(0),
        numbers: block.numbers("number", if is_of_two { 2 } else { 1 })?,
        parts: block.numbers("part", 5)?,
        libraries: block
            .all("library")
            .map(|line| library(line, images))
            .collect::<Result<_>>()?,
        want: want(block)?,
    })
}

/// The bytes of a block that gives them a name.
fn image(block: &Block<'_>) -> Result<Vec<u8>> {
    let mut bytes = Vec::new();
    for line in &block.0[1..] {
        if line.key != "bytes" {
            return refuse(line.number, format!("an image has no {}", line.key));
        }
        add_words(&mut bytes, line, line.value)?;
    }
    Ok(bytes)
}

/// Reads the vectors of a file, in order.
pub fn parse(text: &str) -> Result<Vec<Vector>> {
    let mut images = HashMap::new();
    let mut vectors = Vec::new();
    for block in blocks(text)? {
        let head = &block.0[0];
        match head.key {
            "vector" => vectors.push(vector(&block, &images)?),
            "image" if images.contains_key(head.value) => {
                return refuse(head.number, format!("a second image '{}'", head.value));
            }
            "image" => {
                images.insert(head.value, image(&block)?);
            }
            key => return refuse(head.number, format!("a block begins with '{key}'")),
        }
    }
    Ok(vectors)
}
