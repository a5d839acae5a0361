//! Shows that the comparison notices faults: references with one wrong rule
//! each stand in for the program.

use at45db081d_model::calls::LOG_LINE;
use at45db081d_model::{Date, Outcome, Part, Record};
use outline_tests::crc::{crc32, Crc};
use outline_tests::inputs::{input, INPUTS};
use outline_tests::order::{self, Options, Order, Request};
use outline_tests::session::Step;
use outline_tests::stored::{Stored, COMPARES, PAGES_256, RUN, TERMS};
use outline_tests::{difference, rules, run_by, Difference, Rules, RULES};

/// What is wrong, and how.
type Fault = (&'static str, fn(&mut Rules));

const FAULTS: [Fault; 45] = [
    ("padding shown", |it| it.frame_text = padding_shown),
    ("three bytes shown", |it| it.frame_text = three_shown),
    ("lower-case digits", |it| it.frame_text = lower_case),
    ("a length of one byte", |it| it.frame_text = short_length),
    ("polls off by one", |it| it.totals_text = more_polls),
    ("frames of refused calls", |it| it.totals_text = one_frame),
    ("12 for 13", |it| it.totals_text = twelve_for_13),
    ("out over the log", |it| it.sum_text = out_over_log),
    ("the log as far as used", |it| it.sum_text = used_log),
    ("state without array", |it| it.sum_text = no_array),
    ("array before record", |it| it.sum_text = array_first),
    ("sums without zeros", |it| it.sum_text = no_zeros),
    ("CRC without its end", |it| it.sum_text = no_end),
    ("no n", |it| it.sum_text = no_n),
    ("zeros lent", |it| it.stale = 0),
    ("junk of 256 bytes", |it| it.junk_byte = junk_of_256),
    ("junk without seed", |it| it.junk_byte = seedless),
    ("put's log short", |it| it.log_frames = short_logs),
    ("get's log long", |it| it.log_frames = long_logs),
    ("limit beyond 1,000", |it| it.log_frames = any_limit),
    ("8,192 too long", |it| it.longest_line = 8191),
    ("8,193 not too long", |it| it.longest_line = 8193),
    ("CR no blank", |it| {
        it.is_blank = |it| it == b' ' || it == b'\t'
    }),
    ("tab no blank", |it| {
        it.is_blank = |it| it == b' ' || it == b'\r'
    }),
    ("lines from 0", |it| it.fault_text = from_0),
    ("rest after the last LF", |it| it.lines = with_rest),
    ("last line needs LF", |it| it.lines = whole_lines),
    ("fault as step", |it| {
        it.after_fault = |step| *step = Step::default()
    }),
    ("any case", |it| it.read = any_case),
    ("script ignored", |it| it.read = no_script),
    ("buffer ignored", |it| it.read = no_buffer),
    ("line ends at NUL", |it| it.read = to_nul),
    ("264 for 256", |it| it.read = long_pages),
    ("buffers of 2,109", |it| it.read = long_buffers),
    ("first ignored", |it| it.read = no_first),
    ("first for last", |it| it.read = turned),
    ("first alone", |it| it.read = first_alone),
    ("today ignored", |it| it.read = no_today),
    ("another default day", |it| it.read = another_day),
    ("months first", |it| it.read = months_first),
    ("no date as no number", |it| it.read = no_number),
    ("14 for 15", |it| it.totals_text = fourteen_for_15),
    ("16 bits of a year", |it| it.read = narrow_years),
    ("no room for compares", |it| it.log_frames = uncompared),
    ("logs of 65,536", |it| it.log_frames = small_logs),
];

fn faulty(fault: Fault) -> Rules {
    let mut rules = RULES;
    fault.1(&mut rules);
    rules
}

/// The first random input whose output differs, by its seed.
fn first_difference(rules: &Rules) -> Option<(u64, Difference)> {
    (0..INPUTS).find_map(|seed| {
        let input = input(seed);
        Some((seed, difference(&input, &run_by(rules, &input))?))
    })
}

#[test]
fn random_inputs_notice_faults() {
    assert_eq!(first_difference(&RULES), None);
    for fault in FAULTS {
        let noticed = first_difference(&faulty(fault));
        let (seed, difference) = noticed.unwrap_or_else(|| panic!("not noticed: {}", fault.0));
        println!("{}: input {seed}: {difference}", fault.0);
    }
}

/// So do the runs that are stored.
#[test]
fn stored_runs_notice_faults() {
    let notices = |stored: &Stored, rules: &Rules| {
        let found = run_by(rules, &stored.input());
        difference(&stored.input(), &found).is_some()
    };
    for fault in FAULTS {
        let rules = faulty(fault);
        let runs = [RUN, PAGES_256, TERMS, COMPARES];
        let noticed = runs.iter().any(|it| notices(it, &rules));
        assert!(noticed, "not noticed: {}", fault.0);
    }
}

/// A difference is shown with both lines and the line of the input.
#[test]
fn difference_names_its_line() {
    let found = run_by(&faulty(FAULTS[4]), b"pin 1\nraw D700\n");
    let difference = difference(b"pin 1\nraw D700\n", &found).expect("a difference");
    let text = "line 3 of the output differs
  on line 2: raw D700
  expected: frames 1 polls 0 answer 0\\n
  found:    frames 1 polls 1 answer 0\\n";
    assert_eq!(difference.to_string(), text);
}

/// Output that ends early or late.
#[test]
fn difference_notices_the_end() {
    assert_eq!(difference(b"pin 1\n", b"answer 0\n"), None);
    for found in [
        &b""[..],
        b"answer 0",
        b"answer 0\n\n",
        b"answer 0\nanswer 0\n",
    ] {
        assert!(difference(b"pin 1\n", found).is_some());
    }
}

fn padding_shown(line: &[u8]) -> String {
    let len = usize::from(line[0]) << 8 | usize::from(line[1]);
    let [a, b, c, d] = [line[2], line[3], line[4], line[5]];
    format!("{len} {a:02X} {b:02X} {c:02X} {d:02X}\n")
}

fn three_shown(line: &[u8]) -> String {
    let text = rules::frame_text(line);
    let words: Vec<&str> = text.split_whitespace().take(4).collect();
    words.join(" ") + "\n"
}

fn lower_case(line: &[u8]) -> String {
    rules::frame_text(line).to_lowercase()
}

fn short_length(line: &[u8]) -> String {
    let text = rules::frame_text(line);
    let (_, bytes) = text.split_once(' ').expect("a byte");
    format!("{} {bytes}", line[1])
}

fn more_polls(outcome: &Outcome) -> String {
    let polls = outcome.polls + 1;
    rules::totals_text(&Outcome { polls, ..*outcome })
}

fn one_frame(outcome: &Outcome) -> String {
    let frames = outcome.frames.max(1);
    rules::totals_text(&Outcome { frames, ..*outcome })
}

fn twelve_for_13(outcome: &Outcome) -> String {
    let answer = match outcome.answer {
        13 => 12,
        answer => answer,
    };
    rules::totals_text(&Outcome { answer, ..*outcome })
}

fn out_over_log(record: &Record, array: &[u8], step: &Step) -> String {
    let out = step.log.clone();
    rules::sum_text(
        record,
        array,
        &Step {
            out,
            ..step.clone()
        },
    )
}

fn used_log(record: &Record, array: &[u8], step: &Step) -> String {
    let mut step = step.clone();
    let used = |line: &&[u8]| line.iter().any(|byte| *byte != RULES.stale);
    step.log = step
        .log
        .chunks(LOG_LINE)
        .take_while(used)
        .flatten()
        .copied()
        .collect();
    rules::sum_text(record, array, &step)
}

fn no_array(record: &Record, _: &[u8], step: &Step) -> String {
    rules::sum_text(record, &[], step)
}

fn array_first(record: &Record, array: &[u8], step: &Step) -> String {
    let state = Crc::default().then(array).then(record).end();
    sum(state, step)
}

fn no_end(record: &Record, array: &[u8], step: &Step) -> String {
    sum(!Crc::default().then(record).then(array).end(), step)
}

/// The line of sum with this state.
fn sum(state: u32, step: &Step) -> String {
    let (log, out) = (crc32(&step.log), crc32(&step.out));
    format!("sum {state:08X} log {log:08X} out {out:08X} n {}\n", step.n)
}

fn no_zeros(record: &Record, array: &[u8], step: &Step) -> String {
    rules::sum_text(record, array, step).replace("00000000", "0")
}

fn no_n(record: &Record, array: &[u8], step: &Step) -> String {
    rules::sum_text(
        record,
        array,
        &Step {
            n: 0,
            ..step.clone()
        },
    )
}

fn junk_of_256(seed: u64, i: usize) -> u8 {
    rules::junk_byte(seed, i % 256)
}

fn seedless(_: u64, i: usize) -> u8 {
    rules::junk_byte(0, i)
}

fn short_logs(request: &Request, limit: usize) -> usize {
    match request {
        Request::Put { .. } => rules::log_frames(request, limit) - 1,
        _ => rules::log_frames(request, limit),
    }
}

fn long_logs(request: &Request, limit: usize) -> usize {
    match request {
        Request::Get { .. } => rules::log_frames(request, limit) + 1,
        _ => rules::log_frames(request, limit),
    }
}

fn any_limit(request: &Request, limit: usize) -> usize {
    let more = limit.saturating_sub(1000).min(1);
    rules::log_frames(request, limit) + more
}

/// As many as a call would send without its compares.
fn uncompared(request: &Request, limit: usize) -> usize {
    let compares = 8 * (limit.min(1000) + 1);
    match request {
        Request::Put { .. } | Request::Patch { .. } => rules::log_frames(request, limit) - compares,
        _ => rules::log_frames(request, limit),
    }
}

fn small_logs(request: &Request, limit: usize) -> usize {
    rules::log_frames(request, limit).min(65_536 / LOG_LINE)
}

fn from_0(number: usize, what: &str) -> String {
    (RULES.fault_text)(number - 1, what)
}

fn with_rest(input: &[u8]) -> Vec<&[u8]> {
    input.split(|&byte| byte == b'\n').collect()
}

fn whole_lines(input: &[u8]) -> Vec<&[u8]> {
    let mut lines = with_rest(input);
    lines.pop();
    lines
}

fn any_case(line: &[u8], rules: &Rules) -> Result<Order, String> {
    order::read(&line.to_ascii_lowercase(), rules)
}

fn no_script(line: &[u8], rules: &Rules) -> Result<Order, String> {
    changed(line, rules, |options| options.script.clear())
}

fn no_buffer(line: &[u8], rules: &Rules) -> Result<Order, String> {
    changed(line, rules, |options| options.buffer_len = None)
}

fn long_pages(line: &[u8], rules: &Rules) -> Result<Order, String> {
    let order = order::read(line, rules)?;
    Ok(match order {
        Order::Part(part) if part.pages == Part::SHORT.pages => Order::Part(Part::SHORT),
        Order::Part(_) => Order::Part(Part::FULL),
        order => order,
    })
}

fn long_buffers(line: &[u8], rules: &Rules) -> Result<Order, String> {
    changed(line, rules, |options| {
        options.buffer_len.get_or_insert(2109);
    })
}

fn no_first(line: &[u8], rules: &Rules) -> Result<Order, String> {
    changed(line, rules, |options| {
        options.first = options.first.map(|_| Date::new(2000, 1, 1));
    })
}

fn turned(line: &[u8], rules: &Rules) -> Result<Order, String> {
    changed(line, rules, |options| {
        std::mem::swap(&mut options.first, &mut options.last);
    })
}

/// A first day without a last is none at all.
fn first_alone(line: &[u8], rules: &Rules) -> Result<Order, String> {
    match order::read(line, rules) {
        Err(what) if what == "last is missing" => {
            let words = line.split(|&byte| byte == b' ');
            let words: Vec<&[u8]> = words.filter(|it| !it.starts_with(b"first=")).collect();
            order::read(&words.join(&b' '), rules)
        }
        read => read,
    }
}

fn no_today(line: &[u8], rules: &Rules) -> Result<Order, String> {
    changed(line, rules, |options| {
        options.today = Options::default().today;
    })
}

fn another_day(line: &[u8], rules: &Rules) -> Result<Order, String> {
    changed(line, rules, |options| {
        if options.today == Options::default().today {
            options.today = Date::new(2026, 7, 1);
        }
    })
}

fn months_first(line: &[u8], rules: &Rules) -> Result<Order, String> {
    changed(line, rules, |options| {
        let Date { year, month, day } = options.today;
        options.today = Date::new(year, day, month);
    })
}

fn no_number(line: &[u8], rules: &Rules) -> Result<Order, String> {
    order::read(line, rules).map_err(|what| what.replace("a date", "a number"))
}

fn narrow_years(line: &[u8], rules: &Rules) -> Result<Order, String> {
    changed(line, rules, |options| options.today.year %= 0x1_0000)
}

fn fourteen_for_15(outcome: &Outcome) -> String {
    let answer = outcome.answer.min(14);
    rules::totals_text(&Outcome { answer, ..*outcome })
}

/// A call's options as changed.
fn changed(line: &[u8], rules: &Rules, change: fn(&mut Options)) -> Result<Order, String> {
    let mut order = order::read(line, rules)?;
    if let Order::Call(_, options) = &mut order {
        change(options);
    }
    Ok(order)
}

fn to_nul(line: &[u8], rules: &Rules) -> Result<Order, String> {
    let end = line.iter().position(|&byte| byte == 0);
    order::read(&line[..end.unwrap_or(line.len())], rules)
}
