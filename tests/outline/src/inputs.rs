//! Random inputs: lines that can be read, damaged ones and mere bytes, by
//! their seeds.

use random::Rng;

/// Numbers, good and bad, for any place.
const NUMBERS: [&str; 14] = [
    "",
    "x",
    "-1",
    "+1",
    "1x",
    "0x1",
    "007",
    "2044",
    "2045",
    "2108",
    "2109",
    "18446744073709551615",
    "18446744073709551616",
    "99999999999999999999999",
];

/// Levels of the pin and words for a part, good and bad.
const LEVELS: [&str; 7] = ["0", "1", "1", "1", "2", "01", "x"];
const PARTS: [&str; 14] = [
    "128",
    "128",
    "128",
    "128x256",
    "128x256",
    "128x256",
    "4096",
    "4096x256",
    "127",
    "0128",
    "128x264",
    "128X256",
    "4096x2560",
    "256",
];

/// Dates around a term, and such as are none, that can be read.
const DATES: [&str; 21] = [
    "2026-05-01",
    "2026-05-01",
    "2026-04-30",
    "2026-10-31",
    "2026-10-31",
    "2026-11-01",
    "2026-7-1",
    "002026-0007-00000000000000000000000000001",
    "2000-01-01",
    "2199-12-31",
    "2000-02-29",
    "2100-02-28",
    "2100-03-01",
    "2100-02-29",
    "1999-12-31",
    "2200-01-01",
    "2026-13-01",
    "2026-0-0",
    "67562-05-01",
    "4294967295-1-1",
    "2026-1-4294967295",
];

/// Dates that cannot be read.
const NO_DATES: [&str; 19] = [
    "",
    "-",
    "--",
    "---",
    "2026",
    "2026-",
    "2026-5",
    "2026-5-",
    "2026--5",
    "-2026-5-1",
    "2026-5-1-",
    "2026-5-1-1",
    "2026-5-x",
    "2026/5/1",
    "4294967296-1-1",
    "1-18446744073709551616-1",
    "1-1-99999999999999999999999",
    "99999999999999999999999",
    "x-4294967296-1",
];

/// The options with values that are numbers or dates; those of script are made.
const VALUES: [(&str, &[&str]); 10] = [
    ("b", &["1", "2", "3", "3", "1000", "0", "1001"]),
    ("script", &[]),
    (
        "junk",
        &["0", "1", "37", "255", "256", "18446744073709551615"],
    ),
    (
        "junklen",
        &[
            "34320", "33280", "1081872", "1049088", "0", "34319", "33281", "1114112", "1114113",
        ],
    ),
    (
        "log",
        &["258", "54", "30", "6", "5", "0", "102204", "102205"],
    ),
    (
        "buffer",
        &[
            "2109", "2108", "2110", "2044", "2045", "2046", "0", "65536", "65537",
        ],
    ),
    ("reply", &["2", "4", "0", "300", "65536", "65537"]),
    ("first", &DATES),
    ("last", &DATES),
    ("today", &DATES),
];

/// The places of the options with dates.
const FIRST: usize = 7;
const LAST: usize = 8;
const TODAY: usize = 9;

/// Lengths of recipes and patches: around the pages' ends and the longest.
const RECIPE_LENS: [usize; 24] = [
    0, 1, 2, 5, 100, 252, 253, 254, 260, 261, 262, 2000, 2036, 2037, 2038, 2044, 2045, 2046, 2100,
    2101, 2102, 2108, 2109, 2110,
];

/// Lengths of a frame's data.
const DATA_LENS: [usize; 12] = [0, 1, 2, 3, 16, 17, 64, 256, 264, 300, 1096, 1097];

/// Lines that are brief.
const BRIEF: [&[u8]; 10] = [
    b"",
    b" ",
    b"\r",
    b"\t \t",
    b"sum 1",
    b"end -",
    b"patch 1",
    b"patch 1 1",
    b"put 1",
    b"raw",
];

/// Openings of frames, with and without a place for an address.
const OPENINGS: [&[u8]; 34] = [
    &[0xD2],
    &[0x03],
    &[0x0B],
    &[0xD1],
    &[0xD3],
    &[0xD4],
    &[0xD6],
    &[0x84],
    &[0x87],
    &[0x83],
    &[0x86],
    &[0x88],
    &[0x89],
    &[0x82],
    &[0x85],
    &[0x81],
    &[0x50],
    &[0x7C],
    &[0xC7, 0x94, 0x80, 0x9A],
    &[0x53],
    &[0x55],
    &[0x60],
    &[0x61],
    &[0x58],
    &[0x59],
    &[0x3D, 0x2A, 0x7F, 0xA9],
    &[0x3D, 0x2A, 0x7F, 0x9A],
    &[0x3D, 0x2A, 0x7F, 0xCF],
    &[0x3D, 0x2A, 0x7F, 0xFC],
    &[0x3D, 0x2A, 0x7F, 0x30],
    &[0x9B, 0, 0, 0],
    &[0x32],
    &[0x35],
    &[0x77],
];

/// Whole frames: the last four list and lock sectors.
const FRAMES: [&[u8]; 10] = [
    &[0xD7, 0],
    &[0x9F, 0, 0, 0, 0, 0],
    &[0xB9],
    &[0xAB],
    &[0x00],
    &[],
    &[0x3D, 0x2A, 0x7F, 0xCF],
    &[0x3D, 0x2A, 0x7F, 0xA9],
    &[0x3D, 0x2A, 0x7F, 0x30, 0, 0, 0],
    &[0x3D, 0x2A, 0x7F, 0x30, 0, 0x10, 0],
];

/// As many inputs as the tests take, from seed 0 on.
pub const INPUTS: u64 = 800;

/// The input with this seed.
pub fn input(seed: u64) -> Vec<u8> {
    let mut rng = Rng::new(seed);
    match seed % 10 {
        0 => noise(&mut rng),
        kind => lines(&mut rng, kind % 3 == 0),
    }
}

/// Bytes of no meaning, now and then none at all.
fn noise(rng: &mut Rng) -> Vec<u8> {
    let mut bytes = vec![0; rng.below(9) * rng.below(3000)];
    rng.fill(&mut bytes);
    let alphabet = rng.pick(&[&b"\n"[..], b"\n \t\r", b"\n sum 0=b", b"\n\0-"]);
    for byte in &mut bytes {
        if rng.one_in(3) {
            *byte = rng.pick(alphabet);
        }
    }
    bytes
}

fn lines(rng: &mut Rng, damaged: bool) -> Vec<u8> {
    let end: &[u8] = if rng.one_in(3) { b"\r\n" } else { b"\n" };
    let mut input = Vec::new();
    let first: &[u8] = match rng.below(16) {
        0 => b"part 4096",
        1 => b"part 4096x256",
        2..=8 => b"part 128x256",
        _ => b"part 128",
    };
    input.extend(first);
    input.extend(end);
    for _ in 0..=rng.below(24) {
        let mut line = line(rng).into_bytes();
        if damaged && rng.one_in(2) {
            damage(rng, &mut line);
        }
        input.extend(line);
        input.extend(end);
        if rng.one_in(2) {
            input.extend(b"sum");
            input.extend(end);
        }
    }
    if rng.one_in(3) {
        input.truncate(input.len() - end.len());
    }
    input
}

/// A line that can be read, but for a number or an option now and then.
fn line(rng: &mut Rng) -> String {
    let line = match rng.below(18) {
        0..=3 => format!("put {} {}", slot(rng), recipe(rng)),
        4 | 5 => format!("patch {} {} {}", slot(rng), place(rng), recipe(rng)),
        6..=8 => format!("get {}", slot(rng)),
        9 => format!("wipe {}", slot(rng)),
        10 | 11 => format!("raw {}", frame(rng)),
        12 | 13 => return format!("send {}", frame(rng)),
        14 => return "end".into(),
        15 => return format!("pin {}", rng.pick(&LEVELS)),
        16 => return format!("cut {}", number(rng, 300)),
        _ => return format!("part {}", rng.pick(&PARTS)),
    };
    line.clone() + &days(rng, &line) + &options(rng)
}

/// A term for half of the puts, a date for most of the gets.
fn days(rng: &mut Rng, line: &str) -> String {
    match line.split(' ').next() {
        Some("put") if rng.one_in(2) => {
            let mut days = [option(FIRST, rng), option(LAST, rng)];
            if rng.one_in(4) {
                days.reverse();
            }
            format!(" {} {}", days[0], days[1])
        }
        Some("get") if !rng.one_in(3) => format!(" {}", option(TODAY, rng)),
        _ => String::new(),
    }
}

/// A number below `bound`, or one of the others.
fn number(rng: &mut Rng, bound: usize) -> String {
    match rng.below(12) {
        0 => rng.pick(&NUMBERS).into(),
        _ => rng.below(bound).to_string(),
    }
}

/// Few slots, so that calls meet on them.
fn slot(rng: &mut Rng) -> String {
    match rng.below(20) {
        0 => number(rng, 520),
        1 => rng.pick(&["16", "511", "512"]).into(),
        _ => rng.pick(&["0", "1", "15"]).into(),
    }
}

fn place(rng: &mut Rng) -> String {
    match rng.below(8) {
        0 => number(rng, 2200),
        1 => rng
            .pick(&["x", "18446744073709551615", "18446744073709551616"])
            .into(),
        _ => rng
            .pick(&["0", "1", "4", "250", "258", "1945", "2009"])
            .into(),
    }
}

fn recipe(rng: &mut Rng) -> String {
    let len = rng.pick(&RECIPE_LENS);
    let mut bytes = vec![0; len];
    rng.fill(&mut bytes);
    hex(rng, &bytes)
}

fn frame(rng: &mut Rng) -> String {
    if rng.one_in(3) {
        let frame = rng.pick(&FRAMES);
        return hex(rng, frame);
    }
    let mut frame = rng.pick(&OPENINGS).to_vec();
    let mut data = vec![0; rng.pick(&DATA_LENS)];
    rng.fill(&mut data);
    if rng.one_in(2) {
        frame.extend([0, rng.byte() & 0x0F, 0]);
    }
    frame.extend(data);
    hex(rng, &frame)
}

/// Digits of either case; `-` for none.
fn hex(rng: &mut Rng, bytes: &[u8]) -> String {
    let lower = rng.one_in(2);
    let digits = bytes.iter().map(|byte| match lower {
        true => format!("{byte:02x}"),
        false => format!("{byte:02X}"),
    });
    let digits: String = digits.collect();
    if digits.is_empty() {
        return "-".into();
    }
    digits
}

/// Some of the options, beginning with any of them; those with dates are rare.
fn options(rng: &mut Rng) -> String {
    let mut text = String::new();
    let first = rng.below(VALUES.len());
    for i in 0..VALUES.len() {
        let option = (first + i) % VALUES.len();
        let rarity = if option < FIRST { 5 } else { 60 };
        if rng.one_in(rarity) {
            text += &format!(" {}", self::option(option, rng));
        }
    }
    if rng.one_in(60) {
        text += rng.pick(&[" c=1", " b", " =1", " B=1", " b=1 b=1", " log=x log=1"]);
    }
    text
}

fn option(which: usize, rng: &mut Rng) -> String {
    let wrong = rng.one_in(10);
    let (name, values) = VALUES[which];
    let value = match (name, wrong) {
        ("script", _) => script(rng, wrong),
        ("first" | "last" | "today", true) => rng.pick(&NO_DATES).into(),
        (_, true) => rng.pick(&NUMBERS).into(),
        _ => rng.pick(values).into(),
    };
    format!("{name}={value}")
}

/// Bytes 0 and 1, now and then a cut, seldom a byte of no meaning.
fn script(rng: &mut Rng, wrong: bool) -> String {
    if wrong {
        return rng
            .pick(&["", "-", "0", "0g", "--", "03", "000102030"])
            .into();
    }
    let most = rng.pick(&[0, 1, 2]);
    let mut script: Vec<u8> = (0..rng.below(40))
        .map(|_| rng.byte() % (most + 1))
        .collect();
    if !script.is_empty() && rng.one_in(2) {
        let at = rng.below(script.len());
        script.fill(rng.pick(&[0, 0, 1]));
        script[at] = rng.pick(&[1, 2, 2]);
    }
    hex(rng, &script)
}

fn damage(rng: &mut Rng, line: &mut Vec<u8>) {
    let at = rng.below(line.len());
    match rng.below(9) {
        0 => drop(line.remove(at)),
        1 => line.insert(at, rng.byte()),
        2 => line[at] = rng.pick(b"\0 \t\r=-gG09\x80\xFF"),
        3 => line.truncate(at),
        4 => line.make_ascii_uppercase(),
        5 => pad(rng, line),
        6 => change_word(rng, line),
        7 => *line = rng.pick(&BRIEF).into(),
        _ => line.extend(rng.pick(&[&b" x"[..], b" b=1", b" 1", b" script=", b" \t", b"\0"])),
    }
}

/// Blanks in front of, behind or within a line, up to the longest and beyond.
fn pad(rng: &mut Rng, line: &mut Vec<u8>) {
    let len = rng.pick(&[8190, 8191, 8192, 8193, 8194, 20_000]);
    let blanks = vec![rng.pick(b" \t\r"); usize::saturating_sub(len, line.len())];
    let within = line.iter().position(|&byte| byte == b' ').unwrap_or(0);
    let at = rng.pick(&[0, within, line.len()]);
    line.splice(at..at, blanks);
}

/// A word goes, comes twice or becomes a number.
fn change_word(rng: &mut Rng, line: &mut Vec<u8>) {
    let mut words: Vec<&[u8]> = line.split(|&byte| byte == b' ').collect();
    let at = rng.below(words.len());
    match rng.below(3) {
        0 => drop(words.remove(at)),
        1 => words.insert(at, words[at]),
        _ => words[at] = rng.pick(&NUMBERS).as_bytes(),
    }
    *line = words.join(&b' ');
}
