//! What a line says, or what is wrong with it.

use at45db081d_model::{Date, Part, Term};

use crate::rules::Rules;

/// Rooms of the lengths lent: a log has room for any call's frames.
const LOG_ROOM: usize = 102_204;
const OUTPUT_ROOM: usize = 65_536;
const JUNK_ROOM: usize = 1_114_112;

/// The words behind `part`, and the parts that they name.
pub const PARTS: [(&str, Part); 4] = [
    ("128", Part::SHORT),
    ("4096", Part::FULL),
    ("128x256", Part::SHORT_256),
    ("4096x256", Part::FULL_256),
];

const OPTIONS: [&str; 10] = [
    "b", "script", "junk", "junklen", "log", "buffer", "reply", "first", "last", "today",
];

/// What a line says.
#[derive(Clone, Debug, PartialEq, Eq)]
pub enum Order {
    Call(Request, Options),
    /// A frame straight to the chip.
    Send(Vec<u8>),
    /// The busy end.
    End,
    /// WP high or low.
    Pin(bool),
    /// A cut with junk of this seed.
    Cut(u64),
    /// A fresh part.
    Part(Part),
    Sum,
}

/// A call and what it is given of its own.
#[derive(Clone, Debug, PartialEq, Eq)]
pub enum Request {
    Put {
        slot: usize,
        recipe: Vec<u8>,
    },
    Patch {
        slot: usize,
        place: usize,
        bytes: Vec<u8>,
    },
    Get {
        slot: usize,
    },
    Wipe {
        slot: usize,
    },
    Raw {
        frame: Vec<u8>,
    },
}

/// What every call takes. A length that is not given is as the call needs it; first
/// and last day are both given or neither.
#[derive(Clone, Debug, PartialEq, Eq)]
pub struct Options {
    pub limit: usize,
    pub script: Vec<u8>,
    pub seed: u64,
    pub junk_len: Option<usize>,
    pub log_len: Option<usize>,
    pub buffer_len: Option<usize>,
    pub reply_len: Option<usize>,
    pub first: Option<Date>,
    pub last: Option<Date>,
    pub today: Date,
}

impl Default for Options {
    fn default() -> Options {
        Options {
            limit: 1,
            script: Vec::new(),
            seed: 0,
            junk_len: None,
            log_len: None,
            buffer_len: None,
            reply_len: None,
            first: None,
            last: None,
            today: Date::new(2000, 1, 1),
        }
    }
}

/// What a line says; the first thing that is wrong with it, words taken left
/// to right.
pub fn read(line: &[u8], rules: &Rules) -> Result<Order, String> {
    if line.len() > rules.longest_line {
        return Err("longer than 8192 characters".into());
    }
    let words = line.split(|&byte| (rules.is_blank)(byte));
    let mut words = words.filter(|word| !word.is_empty());
    let command = words.next().ok_or("no command")?;
    match read_call(command, &mut words)? {
        Some(request) => Ok(Order::Call(request, read_options(words)?)),
        None => {
            let order = read_other(command, &mut words)?;
            match words.next() {
                Some(_) => Err("too many words".into()),
                None => Ok(order),
            }
        }
    }
}

/// A call with its words; None if the command is no call.
fn read_call<'a>(
    command: &[u8],
    words: &mut impl Iterator<Item = &'a [u8]>,
) -> Result<Option<Request>, String> {
    Ok(Some(match command {
        b"put" => Request::Put {
            slot: next_number("S", words)? as usize,
            recipe: next_hex(words)?,
        },
        b"patch" => Request::Patch {
            slot: next_number("S", words)? as usize,
            place: next_number("PLACE", words)? as usize,
            bytes: next_hex(words)?,
        },
        b"get" => Request::Get {
            slot: next_number("S", words)? as usize,
        },
        b"wipe" => Request::Wipe {
            slot: next_number("S", words)? as usize,
        },
        b"raw" => Request::Raw {
            frame: next_hex(words)?,
        },
        _ => return Ok(None),
    }))
}

fn read_other<'a>(
    command: &[u8],
    words: &mut impl Iterator<Item = &'a [u8]>,
) -> Result<Order, String> {
    match command {
        b"send" => Ok(Order::Send(next_hex(words)?)),
        b"end" => Ok(Order::End),
        b"pin" => match words.next().ok_or("level is missing")? {
            b"0" => Ok(Order::Pin(false)),
            b"1" => Ok(Order::Pin(true)),
            _ => Err("level is not 0 or 1".into()),
        },
        b"cut" => Ok(Order::Cut(next_number("SEED", words)?)),
        b"part" => {
            let word = words.next().ok_or("part is missing")?;
            let named = PARTS.iter().find(|(it, _)| it.as_bytes() == word);
            match named {
                Some((_, part)) => Ok(Order::Part(*part)),
                None => Err("part is not 128, 4096, 128x256 or 4096x256".into()),
            }
        }
        b"sum" => Ok(Order::Sum),
        _ => Err("unknown command".into()),
    }
}

fn read_options<'a>(words: impl Iterator<Item = &'a [u8]>) -> Result<Options, String> {
    let mut options = Options::default();
    let mut given = Vec::new();
    for word in words {
        let (name, value) = split_option(word).ok_or("unknown option")?;
        if given.contains(&name) {
            return Err("option given twice".into());
        }
        given.push(name);
        options.set(name, value)?;
    }
    match (options.first, options.last) {
        (Some(_), None) => Err("last is missing".into()),
        (None, Some(_)) => Err("first is missing".into()),
        _ => Ok(options),
    }
}

/// NAME=VALUE with one of the ten names.
fn split_option(word: &[u8]) -> Option<(&'static str, &[u8])> {
    OPTIONS.into_iter().find_map(|name| {
        let value = word.strip_prefix(name.as_bytes())?.strip_prefix(b"=")?;
        Some((name, value))
    })
}

impl Options {
    /// The term of a put, if there is one.
    pub fn term(&self) -> Option<Term> {
        Some(Term::new(self.first?, self.last?))
    }

    fn set(&mut self, name: &str, value: &[u8]) -> Result<(), String> {
        match name {
            "b" => self.limit = number(name, value)? as usize,
            "script" => self.script = hex(name, value)?,
            "junk" => self.seed = number(name, value)?,
            "junklen" => self.junk_len = Some(length(name, value, JUNK_ROOM)?),
            "log" => self.log_len = Some(length(name, value, LOG_ROOM)?),
            "buffer" => self.buffer_len = Some(length(name, value, OUTPUT_ROOM)?),
            "reply" => self.reply_len = Some(length(name, value, OUTPUT_ROOM)?),
            "first" => self.first = Some(date(name, value)?),
            "last" => self.last = Some(date(name, value)?),
            _ => self.today = date(name, value)?,
        }
        Ok(())
    }
}

fn next_number<'a>(name: &str, words: &mut impl Iterator<Item = &'a [u8]>) -> Result<u64, String> {
    let word = words.next().ok_or_else(|| format!("{name} is missing"))?;
    number(name, word)
}

fn next_hex<'a>(words: &mut impl Iterator<Item = &'a [u8]>) -> Result<Vec<u8>, String> {
    hex("HEX", words.next().ok_or("HEX is missing")?)
}

/// Decimal digits only, at most 2^64 - 1.
fn number(name: &str, word: &[u8]) -> Result<u64, String> {
    if word.is_empty() || !word.iter().all(u8::is_ascii_digit) {
        return Err(format!("{name} is not a number"));
    }
    word.iter()
        .try_fold(0_u64, |number, digit| {
            number.checked_mul(10)?.checked_add(u64::from(digit - b'0'))
        })
        .ok_or_else(|| format!("{name} is too large"))
}

fn length(name: &str, word: &[u8], room: usize) -> Result<usize, String> {
    let length = number(name, word)?;
    if length > room as u64 {
        return Err(format!("{name} is over {room}"));
    }
    Ok(length as usize)
}

/// Year, month and day, joined by `-`: each decimal digits only, at most 2^32 - 1.
/// Whether there is such a day is the call's to say.
fn date(name: &str, word: &[u8]) -> Result<Date, String> {
    let mut parts = word.splitn(3, |&byte| byte == b'-');
    // What follows a third `-` is no part of a number.
    let mut next = || date_part(name, parts.next().unwrap_or(b""));
    Ok(Date::new(next()?, next()?, next()?))
}

fn date_part(name: &str, digits: &[u8]) -> Result<u32, String> {
    if digits.is_empty() || !digits.iter().all(u8::is_ascii_digit) {
        return Err(format!("{name} is not a date"));
    }
    let number = number(name, digits)?;
    u32::try_from(number).map_err(|_| format!("{name} is too large"))
}

/// An even number of hexadecimal digits, either case, or `-` for none.
fn hex(name: &str, word: &[u8]) -> Result<Vec<u8>, String> {
    if word == b"-" {
        return Ok(Vec::new());
    }
    let digit = |&byte: &u8| char::from(byte).to_digit(16).map(|digit| digit as u8);
    let digits: Option<Vec<u8>> = word.iter().map(digit).collect();
    let digits =
        digits.ok_or_else(|| format!("{name} has a character that is not a hexadecimal digit"))?;
    if digits.len() % 2 != 0 {
        return Err(format!("{name} has an odd number of digits"));
    }
    Ok(digits
        .chunks(2)
        .map(|pair| pair[0] << 4 | pair[1])
        .collect())
}
