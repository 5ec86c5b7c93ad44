//! The calendar: dates as day numbers and day numbers as dates, weekdays, and the table of working days.

use emorizugu_tests::calendar::{self, Date, Month, MOST, REFUSAL};
use emorizugu_tests::generator::Random;
use emorizugu_tests::linked;
use emorizugu_tests::tally::Tally;
use std::fs;
use std::ops::RangeInclusive;

/// How often each answer is to have been compared at least.
const LEAST: u64 = 300;

/// Dates before the settled month's last day, and behind the last one with a number, that are compared.
const AROUND: usize = 40;

/// Numbers at the ends of ranges and far outside them.
const ENDS: [u64; 15] = [
    0,
    1,
    12,
    13,
    31,
    32,
    399,
    400,
    401,
    2019,
    2020,
    2059,
    2060,
    1 << 32,
    u64::MAX,
];

/// The ends in every one of so many fields.
fn ends<const FIELDS: usize>() -> impl Iterator<Item = [u64; FIELDS]> {
    let products = ENDS.len().pow(FIELDS as u32);
    (0..products).map(|mut product| {
        [0; FIELDS].map(|_| {
            let end = ENDS[product % ENDS.len()];
            product /= ENDS.len();
            end
        })
    })
}

/// A question to the calendar.
#[derive(Clone, Copy, Debug)]
enum Ask {
    /// The number of a date.
    Number(Month, Date),
    /// The date of a number.
    Date(Month, u64),
}

/// A date in the form of `host`.
fn word(Date(year, month, day): Date) -> u64 {
    10_000 * year + 100 * month + day
}

/// The date of a word.
fn date_of(word: u64) -> Date {
    Date(word / 10_000, word / 100 % 100, word % 100)
}

impl Ask {
    /// The second calendar's answer, a number or a date's word; none for 36.
    fn second(self) -> Option<u64> {
        match self {
            Ask::Number(settled, date) => calendar::number(settled, date),
            Ask::Date(settled, number) => calendar::date(settled, number).map(word),
        }
    }

    /// The library's refusal and answer.
    fn linked(self) -> (u64, u64) {
        match self {
            Ask::Number(settled, date) => (
                linked::day_refusal(settled, date),
                linked::day(settled, date),
            ),
            Ask::Date(settled, number) => (
                linked::date_refusal(settled, number),
                linked::date(settled, number),
            ),
        }
    }

    /// Demands that both give this answer.
    fn gives(self, answer: Option<u64>) {
        assert_eq!(self.second(), answer, "{self:?}, second calendar");
        assert_eq!(self.linked(), given(answer), "{self:?}, linked");
    }
}

/// Refusal and answer in the form of `host`.
fn given(answer: Option<u64>) -> (u64, u64) {
    answer.map_or((REFUSAL, 0), |answer| (0, answer))
}

/// A question with both.
fn compare(tally: &mut Tally, ask: Ask) -> Option<u64> {
    let answer = ask.second();
    assert_eq!(given(answer), ask.linked(), "{ask:?}");
    let refusal = given(answer).0;
    match ask {
        Ask::Number(..) => tally.add("number of a date", refusal),
        Ask::Date(..) => tally.add("date of a number", refusal),
    }
    match (ask, answer) {
        (Ask::Number(..), Some(number)) => tally.add("number found", number),
        (Ask::Date(_, number), Some(_)) => tally.add("number given", number),
        _ => {}
    }
    answer
}

/// Prints how often questions were answered and refused, and demands that each came at least so often.
fn demand_answers(tally: &Tally, least: u64) {
    for what in ["number of a date", "date of a number"] {
        tally.print_one(what);
        tally.demand(what, &[0, REFUSAL], least);
    }
}

/// The same for each day number.
fn demand_numbers(tally: &Tally, least: u64) {
    let numbers: Vec<u64> = (0..=MOST).collect();
    for what in ["number found", "number given"] {
        let counts = numbers.iter().map(|&number| tally.count(what, number));
        let seldom = counts.min().unwrap_or(0);
        let all = tally.all(what);
        println!("{what:34} {all:>8} compared  each of 0 to {MOST}: {seldom} or more");
        tally.demand(what, &numbers, least);
    }
}

/// Every date of the forty years, the days before and after each month, and numbers that are no date.
#[test]
fn every_weekday_agrees() {
    let mut tally = Tally::new();
    let mut compare = |date: Date| {
        let weekday = calendar::weekday(date);
        assert_eq!(weekday, linked::weekday(date), "{date}");
        tally.add("weekday", weekday);
    };
    calendar::dates().for_each(&mut compare);
    for Month(year, month) in calendar::months() {
        for day in [0, 29, 30, 31, 32] {
            compare(Date(year, month, day));
        }
        for [year, month, day] in (0..64).flat_map(|bit| far_fields([year, month, 28], bit)) {
            compare(Date(year, month, day));
        }
    }
    for [year, month, day] in ends() {
        compare(Date(year, month, day));
    }
    tally.print();
    tally.demand("weekday", &[0, 1, 2, 3, 4, 5, 6, 7], LEAST);
    assert_eq!(calendar::dates().count(), 14_610);
}

/// The dates that are compared for a settled month: those from a little before its last day to a little behind the last
/// one with a number.
fn dates_about(settled: Month) -> impl Iterator<Item = Date> {
    let last = calendar::last_day(settled).expect("a month");
    let earlier = calendar::dates().take_while(|&date| date < last).count();
    let mut behind = 0;
    calendar::dates()
        .skip(earlier.saturating_sub(AROUND))
        .take_while(move |&date| {
            let numbered = date < last || calendar::number(settled, date).is_some();
            behind += usize::from(!numbered);
            behind <= AROUND
        })
}

/// A number's date has the number; a date's number leads to the date itself where it is a working day or the settled
/// month's last day, else to an earlier one.
fn round_trips(tally: &mut Tally, ask: Ask) {
    match ask {
        Ask::Number(settled, date) => {
            let back = linked::date(settled, linked::day(settled, date));
            let first = calendar::working(date) || Some(date) == calendar::last_day(settled);
            assert_eq!(back == word(date), first, "{ask:?}");
            assert!(back <= word(date), "{ask:?}");
            tally.add("date, number, date: the same", u64::from(first));
        }
        Ask::Date(settled, number) => {
            let date = date_of(linked::date(settled, number));
            assert_eq!(linked::day_refusal(settled, date), 0, "{ask:?}");
            assert_eq!(linked::day(settled, date), number, "{ask:?}");
            tally.add("number, date, number: the same", 1);
        }
    }
}

#[test]
fn every_settled_month_agrees() {
    let mut tally = Tally::new();
    for settled in calendar::months() {
        let dates = dates_about(settled).map(|date| Ask::Number(settled, date));
        let numbers = (0..=MOST + 5).map(|number| Ask::Date(settled, number));
        for ask in dates.chain(numbers) {
            if compare(&mut tally, ask).is_some() {
                round_trips(&mut tally, ask);
            }
        }
    }
    demand_answers(&tally, LEAST);
    demand_numbers(&tally, LEAST);
    for (trip, same) in [
        ("date, number, date: the same", &[0, 1][..]),
        ("number, date, number: the same", &[1]),
    ] {
        tally.print_one(trip);
        tally.demand(trip, same, LEAST);
    }
    assert_eq!(tally.all("date of a number"), 480 * 406);
}

/// Some settled months with every date of the forty years.
#[test]
fn every_date_agrees() {
    let mut tally = Tally::new();
    let ends = [Month(2020, 1), Month(2059, 12)];
    for settled in calendar::months().step_by(23).chain(ends) {
        for date in calendar::dates() {
            compare(&mut tally, Ask::Number(settled, date));
        }
    }
    tally.print_one("number of a date");
    tally.demand("number of a date", &[0, REFUSAL], LEAST);
}

/// Both ends of a range, in words: the last question that is answered and the first that is refused.
type Boundary = (&'static str, Ask, Ask);

/// The first and the last date with a number, and the ends of the month after the settled one.
fn ends_of_dates(settled: Month) -> Vec<Boundary> {
    let number = |date| Ask::Number(settled, date);
    let last = calendar::last_day(settled).expect("a month");
    let before = Date(last.0, last.1, last.2 - 1);
    let mut found = vec![("the settled month's last day", number(last), number(before))];
    let numbered = |date: &Date| *date >= last && calendar::number(settled, *date).is_some();
    let end = calendar::dates().filter(numbered).last().expect("a date");
    let what = match calendar::next(end) {
        Date(2060, ..) => "the last date of 2059",
        _ => "the last date with number 400",
    };
    found.push((what, number(end), number(calendar::next(end))));
    let Date(year, month, first) = calendar::next(last);
    if let Some(Date(.., end)) = calendar::last_day(Month(year, month)) {
        let day = |day| number(Date(year, month, day));
        found.push(("a month's first day", day(first), day(0)));
        found.push(("a month's last day", day(end), day(end + 1)));
    }
    for day in [1, 15, 28] {
        let (december, thirteenth) = (Date(last.0, 12, day), Date(last.0, 13, day));
        if december > last {
            found.push(("a date's month 12", number(december), number(thirteenth)));
        }
        let (january, none) = (Date(last.0 + 1, 1, day), Date(last.0 + 1, 0, day));
        if calendar::exists(january) {
            found.push(("a date's month 1", number(january), number(none)));
        }
    }
    found
}

/// The largest number that has a date.
fn ends_of_numbers(settled: Month) -> Vec<Boundary> {
    let date = |number| Ask::Date(settled, number);
    let largest = (0..=MOST).rfind(|&number| calendar::date(settled, number).is_some());
    let largest = largest.expect("a number");
    let what = match largest {
        MOST => "number 400",
        _ => "the last number of 2059",
    };
    vec![(what, date(largest), date(largest + 1))]
}

/// Settled months beside the first and the last year, and beside January and December, for so many dates and numbers.
fn ends_of_settled(steps: RangeInclusive<u64>) -> Vec<Boundary> {
    let mut found = Vec::new();
    let mut push = |what, inside: Month, outside: Month, step: u64| {
        if let Some(date) = calendar::date(inside, step) {
            found.push((what, Ask::Date(inside, step), Ask::Date(outside, step)));
            let number = |settled| Ask::Number(settled, date);
            found.push((what, number(inside), number(outside)));
        }
    };
    for step in steps {
        for month in 1..=12 {
            let settled = |year| Month(year, month);
            push("the settled year 2020", settled(2020), settled(2019), step);
            push("the settled year 2059", settled(2059), settled(2060), step);
        }
        for year in calendar::YEARS {
            let settled = |month| Month(year, month);
            push("the settled month 1", settled(1), settled(0), step);
            push("the settled month 12", settled(12), settled(13), step);
        }
    }
    found
}

#[test]
fn both_sides_of_each_boundary_agree() {
    let mut tally = Tally::new();
    let mut boundaries = ends_of_settled(0..=20);
    for settled in calendar::months() {
        boundaries.extend(ends_of_dates(settled));
        boundaries.extend(ends_of_numbers(settled));
    }
    for (what, inside, outside) in boundaries {
        assert!(compare(&mut tally, inside).is_some(), "{what}: {inside:?}");
        assert!(
            compare(&mut tally, outside).is_none(),
            "{what}: {outside:?}"
        );
        tally.add(what, 0);
        tally.add(what, REFUSAL);
    }
    for (what, least) in [
        ("the settled month's last day", LEAST),
        ("the last date with number 400", LEAST),
        ("the last date of 2059", 18),
        ("a month's first day", LEAST),
        ("a month's last day", LEAST),
        ("a date's month 1", LEAST),
        ("a date's month 12", LEAST),
        ("number 400", LEAST),
        ("the last number of 2059", 18),
        ("the settled year 2020", LEAST),
        ("the settled year 2059", LEAST),
        ("the settled month 1", LEAST),
        ("the settled month 12", LEAST),
    ] {
        tally.print_one(what);
        tally.demand(what, &[0, REFUSAL], least);
    }
}

/// The ends in every field.
#[test]
fn every_end_agrees() {
    let mut tally = Tally::new();
    for [year, month, number] in ends() {
        compare(&mut tally, Ask::Date(Month(year, month), number));
    }
    for [year, month, date_year, date_month, day] in ends() {
        let date = Date(date_year, date_month, day);
        compare(&mut tally, Ask::Number(Month(year, month), date));
    }
    demand_answers(&tally, 12);
}

/// A question's fields with a power of two added to one of them.
fn far_fields<const FIELDS: usize>(
    fields: [u64; FIELDS],
    bit: u32,
) -> impl Iterator<Item = [u64; FIELDS]> {
    (0..FIELDS).map(move |field| {
        let mut fields = fields;
        fields[field] = fields[field].wrapping_add(1 << bit);
        fields
    })
}

/// Each power of two added to each field of questions that are answered.
#[test]
fn every_bit_of_a_field_counts() {
    let mut tally = Tally::new();
    for (Month(year, month), number) in calendar::months().zip((0..=MOST).cycle()) {
        let settled = Month(year, month);
        let Some(Date(y, m, d)) = calendar::date(settled, number) else {
            continue;
        };
        for bit in 0..64 {
            for [year, month, y, m, d] in far_fields([year, month, y, m, d], bit) {
                compare(&mut tally, Ask::Number(Month(year, month), Date(y, m, d)));
            }
            for [year, month, number] in far_fields([year, month, number], bit) {
                compare(&mut tally, Ask::Date(Month(year, month), number));
            }
        }
    }
    demand_answers(&tally, LEAST);
}

/// A field changed to an end, to a neighbour, in one bit, or to anything.
fn spoil(random: &mut Random, field: &mut u64) {
    *field = match random.below(6) {
        0 => field.wrapping_add(1),
        1 => field.wrapping_sub(1),
        2 => *field ^ 1 << random.below(64),
        3 => random.bits(64),
        _ => random.of(&ENDS),
    };
}

/// A question from the seed: mostly one that is answered, with a number as likely as any other.
fn ask(random: &mut Random) -> Ask {
    let mut settled = Month(2020 + random.below(40) as u64, 1 + random.below(12) as u64);
    let mut number = random.below(MOST as usize + 3) as u64;
    let spoiled = random.below(16);
    let date = calendar::date(settled, number).unwrap_or(Date(2059, 12, 31));
    match spoiled {
        0 => spoil(random, &mut settled.0),
        1 => spoil(random, &mut settled.1),
        _ => {}
    }
    if random.once_in(2) {
        if spoiled == 2 {
            spoil(random, &mut number);
        }
        return Ask::Date(settled, number);
    }
    let mut date = (0..random.below(4)).fold(date, |date, _| calendar::next(date));
    match spoiled {
        2 => spoil(random, &mut date.0),
        3 => spoil(random, &mut date.1),
        4 => spoil(random, &mut date.2),
        _ => {}
    }
    Ask::Number(settled, date)
}

#[test]
fn questions_from_a_seed_agree() {
    let (mut random, mut tally) = (Random::new(21), Tally::new());
    for _ in 0..600_000 {
        let ask = ask(&mut random);
        compare(&mut tally, ask);
    }
    demand_answers(&tally, LEAST);
    demand_numbers(&tally, LEAST);
}

/// Settled months, dates and numbers that do not exist or have no date.
#[test]
fn written_out_refusals() {
    let settled = Month(2022, 10);
    let dates = [
        (Month(2019, 12), Date(2020, 1, 2)),
        (Month(2060, 1), Date(2060, 1, 31)),
        (Month(2022, 0), Date(2022, 1, 3)),
        (Month(2022, 13), Date(2023, 2, 1)),
        (Month(u64::MAX, 10), Date(2022, 11, 2)),
        (Month(2022, u64::MAX), Date(2022, 11, 2)),
        (Month(2021, 1), Date(2021, 2, 29)),
        (Month(2021, 1), Date(2021, 4, 31)),
        (settled, Date(2022, 10, 30)),
        (settled, Date(2022, 13, 1)),
        (settled, Date(2023, 0, 1)),
        (settled, Date(2022, 11, 0)),
        (settled, Date(u64::MAX, 11, 2)),
        (settled, Date(2022, u64::MAX, 2)),
        (settled, Date(2022, 11, u64::MAX)),
        (Month(2020, 1), Date(2021, 9, 10)),
        (Month(2020, 1), Date(2019, 12, 31)),
        (Month(2059, 12), Date(2060, 1, 1)),
        (Month(2059, 12), Date(2059, 12, 30)),
    ];
    for (settled, date) in dates {
        Ask::Number(settled, date).gives(None);
    }
    let numbers = [
        (Month(2019, 12), 0),
        (Month(2019, 12), 1),
        (Month(2060, 1), 0),
        (Month(2022, 0), 1),
        (Month(2022, 13), 1),
        (Month(u64::MAX, 10), 1),
        (settled, 401),
        (settled, u64::MAX),
        (Month(2059, 11), 20),
        (Month(2059, 12), 1),
        (Month(2059, 12), 400),
    ];
    for (settled, number) in numbers {
        Ask::Date(settled, number).gives(None);
    }
}

/// Settled month, date, its number, and the first date with that number.
#[test]
fn written_out_numbers() {
    let cases = [
        (Month(2022, 10), Date(2022, 10, 31), 0, Date(2022, 10, 31)),
        (Month(2022, 10), Date(2022, 11, 1), 0, Date(2022, 10, 31)),
        (Month(2022, 10), Date(2022, 11, 2), 1, Date(2022, 11, 2)),
        (Month(2020, 11), Date(2020, 12, 4), 4, Date(2020, 12, 4)),
        (Month(2020, 11), Date(2020, 12, 5), 4, Date(2020, 12, 4)),
        (Month(2020, 11), Date(2020, 12, 30), 20, Date(2020, 12, 30)),
        (Month(2020, 11), Date(2021, 1, 3), 20, Date(2020, 12, 30)),
        (Month(2020, 1), Date(2021, 9, 9), 400, Date(2021, 9, 9)),
        (Month(2020, 1), Date(2020, 2, 29), 20, Date(2020, 2, 28)),
        (Month(2059, 11), Date(2059, 12, 30), 19, Date(2059, 12, 30)),
        (Month(2059, 11), Date(2059, 12, 31), 19, Date(2059, 12, 30)),
        (Month(2059, 12), Date(2059, 12, 31), 0, Date(2059, 12, 31)),
    ];
    for (settled, date, number, first) in cases {
        Ask::Number(settled, date).gives(Some(number));
        Ask::Date(settled, number).gives(Some(word(first)));
    }
}

/// Whether a date adds one to the number of the day before, by the library.
fn counts(date: Date) -> bool {
    let Date(year, month, day) = date;
    let settled = Month(year, month - 1);
    let before = Date(year, month, day - 1);
    assert_eq!(linked::day_refusal(settled, before), 0, "{before}");
    linked::day(settled, date) > linked::day(settled, before)
}

/// Demands that both take a date for a day off.
fn off(date: Date) {
    assert!(!calendar::working(date), "{date}, second calendar");
    assert!(!counts(date), "{date}, linked");
}

/// Demands that both take a date for a working day.
fn works(date: Date) {
    assert!(calendar::working(date), "{date}, second calendar");
    assert!(counts(date), "{date}, linked");
}

#[test]
fn the_last_wednesday_before_23_november() {
    for year in [2022, 2033, 2039, 2044, 2050] {
        off(Date(year, 11, 16));
        works(Date(year, 11, 23));
    }
    off(Date(2023, 11, 22));
    works(Date(2023, 11, 15));
}

/// Easter 2038 is as late as it can be. A rule without its exceptions has Easter 2049 a week too late.
#[test]
fn easter_of_2038_and_2049() {
    for easter in [Date(2038, 4, 25), Date(2049, 4, 18)] {
        let Date(year, month, day) = easter;
        assert_eq!(calendar::easter(year), easter);
        works(Date(year, month, day - 3));
        off(Date(year, month, day - 2));
        off(Date(year, month, day + 1));
        works(Date(year, month, day + 2));
    }
    for (month, day) in [(4, 16), (4, 19), (5, 27), (6, 7), (6, 17)] {
        off(Date(2049, month, day));
    }
    for (month, day) in [(4, 23), (4, 26), (6, 3), (6, 14), (6, 24)] {
        works(Date(2049, month, day));
    }
    for (month, day) in [(4, 23), (4, 26), (6, 3), (6, 14), (6, 24)] {
        off(Date(2038, month, day));
    }
}

/// 8 May is a holiday in 2020 and 2025 only, 8 August never.
#[test]
fn the_eighth_of_may_and_of_august() {
    for year in [2020, 2025] {
        off(Date(year, 5, 8));
    }
    for year in [2023, 2024, 2026, 2028, 2029, 2030, 2031, 2034, 2035] {
        works(Date(year, 5, 8));
    }
    for year in [2022, 2023, 2024, 2025, 2028, 2029, 2030, 2031, 2033] {
        works(Date(year, 8, 8));
    }
}

/// The numbers of a text: those of its lines that have nothing but numbers with commas between or behind them.
fn numbers(text: &str) -> Vec<u64> {
    let plain = |line: &&str| line.chars().all(|it| it.is_ascii_digit() || it == ',' || it == ' ');
    text.lines().filter(plain).flat_map(|line| line.split(',')).filter_map(|number| number.trim().parse().ok()).collect()
}

/// A file of the repository.
fn file(name: &str) -> String {
    let path = format!("{}/../{name}", env!("CARGO_MANIFEST_DIR"));
    fs::read_to_string(&path).unwrap_or_else(|error| panic!("{path}: {error}"))
}

/// Demands that numbers are those of the second calendar's table.
fn is_table(tally: &mut Tally, name: &str, numbers: &[u64]) {
    let table = calendar::table();
    assert_eq!(numbers.len(), table.len(), "{name}: numbers");
    for (month, (number, other)) in calendar::months().zip(table.iter().zip(numbers)) {
        assert_eq!(number, other, "{name}: {month}");
        tally.add("entry of a table", 0);
    }
}

/// The constant table, and what its generator prints.
#[test]
fn the_tables_are_the_second_calendars() {
    let mut tally = Tally::new();
    let name = "crates/calendar/src/table.rt";
    is_table(&mut tally, name, &numbers(&file(name)));
    let name = "crates/calendar_table/stdout";
    let printed = file(name);
    is_table(&mut tally, name, &numbers(&printed));
    assert_eq!(printed.lines().count(), 480, "{name}: lines");
    tally.print();
}
