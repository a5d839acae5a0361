//! Pairs of inputs with recipes of very different lengths, with and without terms:
//! their outlines are alike, but for answers 0, 12, 13 and 15.

use at45db081d_model::Outcome;
use outline_tests::order::{self, Order, Request, PARTS};
use outline_tests::pairs::{check, pair, PAIRS};
use outline_tests::{rules, run, run_by, Rules, RULES};

#[test]
fn outlines_are_alike() {
    let shown = check(run).unwrap_or_else(|unlike| panic!("{unlike}"));
    assert!(shown.is_enough(), "{shown:?}");
}

#[test]
fn pairs_are_on_every_part() {
    for (word, _) in PARTS {
        let first = format!("part {word}\n");
        let pairs = (0..PAIRS).map(pair);
        let count = pairs.filter(|it| it.short.starts_with(&first) && it.long.starts_with(&first));
        assert!(count.count() >= 10, "{first}");
    }
}

/// Every put has at most 20 bytes in one input and at least 1,800 in the other.
#[test]
fn recipes_have_very_different_lengths() {
    let mut puts = 0;
    for pair in (0..PAIRS).map(pair) {
        let both = pair.short.lines().zip(pair.long.lines());
        for (short, long) in both.filter(|(short, _)| short.starts_with("put ")) {
            assert!(long.len() > short.len() + 2 * 1700);
            puts += 1;
        }
    }
    assert!(puts >= 1_900, "{puts}");
}

/// Puts with a term in one input alone, in both, with other days.
#[test]
fn terms_and_days_differ() {
    let (mut one, mut both, mut gets) = (0, 0, 0);
    for pair in (0..PAIRS).map(pair) {
        for (short, long) in pair.short.lines().zip(pair.long.lines()) {
            let [short, long] = [short, long].map(dates_in);
            match (&short[..], &long[..]) {
                ([_], [_]) => gets += u32::from(short != long),
                ([_, _], []) | ([], [_, _]) => one += 1,
                ([_, _], [_, _]) => both += u32::from(short != long),
                _ => assert_eq!(short, long),
            }
        }
    }
    assert!(
        one >= 900 && both >= 450 && gets >= 950,
        "{one} {both} {gets}"
    );
}

/// The options of a line that give dates.
fn dates_in(line: &str) -> Vec<&str> {
    let is_date = |word: &&str| {
        ["first=", "last=", "today="]
            .iter()
            .any(|it| word.starts_with(it))
    };
    line.split(' ').filter(is_date).collect()
}

/// What shows something of a recipe, and how.
type Leak = (&'static str, fn(&mut Rules));

const LEAKS: [Leak; 7] = [
    ("n among the polls", |it| it.totals_text = n_polled),
    ("12 and 13 a frame shorter", |it| it.totals_text = shorter),
    ("15 a frame shorter", |it| it.totals_text = shorter_outside),
    ("log by the term", |it| it.read = log_by_term),
    ("log by the day", |it| it.read = log_by_day),
    ("log by the recipe", |it| it.log_frames = log_by_recipe),
    ("long lines not read", |it| it.longest_line = 2000),
];

#[test]
fn leaks_are_noticed() {
    for (name, leak) in LEAKS {
        let mut rules = RULES;
        leak(&mut rules);
        match check(|input| run_by(&rules, input)) {
            Ok(_) => panic!("not noticed: {name}"),
            Err(unlike) => println!("{name}: {unlike}"),
        }
    }
}

fn n_polled(outcome: &Outcome) -> String {
    let polls = outcome.polls + outcome.n;
    rules::totals_text(&Outcome { polls, ..*outcome })
}

fn shorter(outcome: &Outcome) -> String {
    let frames = outcome.frames - u64::from([12, 13].contains(&outcome.answer));
    rules::totals_text(&Outcome { frames, ..*outcome })
}

fn shorter_outside(outcome: &Outcome) -> String {
    let frames = outcome.frames - u64::from(outcome.answer == 15);
    rules::totals_text(&Outcome { frames, ..*outcome })
}

fn log_by_term(line: &[u8], rules: &Rules) -> Result<Order, String> {
    let mut order = order::read(line, rules)?;
    if let Order::Call(_, options) = &mut order {
        options.log_len = options.term().map(|_| 6);
    }
    Ok(order)
}

fn log_by_day(line: &[u8], rules: &Rules) -> Result<Order, String> {
    let mut order = order::read(line, rules)?;
    if let Order::Call(_, options) = &mut order {
        options.log_len = (options.today.year >= 2100).then(|| 6);
    }
    Ok(order)
}

fn log_by_recipe(request: &Request, limit: usize) -> usize {
    match request {
        Request::Put { recipe, .. } => 3 + (recipe.len() + 255) / 256 * 5,
        _ => rules::log_frames(request, limit),
    }
}
