//! `desk page`: the month as one page for a browser, with no outside parts.

use crate::arguments::Wanted;
use crate::calendar::Date;
use crate::calls::{name_in, yes, Call, OPEN, SERIES, STATUSES};
use crate::deltas;
use crate::deviation;
use crate::guard;
use crate::library::{Point, Replay, Version, GROUPS};
use crate::lists::shown;
use crate::month::{self, Ran};
use crate::output::Failure;
use crate::refusals::{Refusal, Refusals, TOLD};
use crate::report::{self, Reports};
use crate::schedules;
use crate::selections;
use crate::sheet::json_word;
use crate::summary::{changes, grouped, headline};
use crate::ACCEPTED;

const PAGE: &str = include_str!("page.html");

/// Text between tags.
pub fn escaped(text: &str) -> String {
    text.replace('&', "&amp;")
        .replace('<', "&lt;")
        .replace('>', "&gt;")
        .replace('"', "&quot;")
}

/// A cell with a number, by which its column is sorted.
pub fn number(number: i64) -> String {
    format!("<td data-n=\"{number}\">{}</td>", grouped(number))
}

/// A cell with a word.
pub fn word(word: &str) -> String {
    format!("<td class=\"word\">{}</td>", escaped(word))
}

/// The cells of a row's sums and their difference.
fn sums(replay: &Replay, row: u64) -> String {
    number(replay.sum(1, row)) + &number(replay.sum(2, row)) + &number(replay.difference(row))
}

/// The rows of the deltas: T, then the areas, each with its group in both runs. A group of run 2 that is another than run 1's is marked.
fn delta_rows(replay: &Replay) -> String {
    let row = |delta: u64| {
        let [first, second] = [1, 2].map(|run| replay.delta_group(run, delta));
        let mark = if first == second {
            ""
        } else {
            " class=\"moved\""
        };
        format!(
            "<tr><td class=\"word\" data-n=\"{delta}\">{}</td>{}<td{mark} data-n=\"{second}\">{second}</td>{}</tr>\n",
            deltas::name(delta),
            number(first as i64),
            sums(replay, deltas::row(delta))
        )
    };
    deltas::all()
        .filter(|delta| deltas::is_shown(replay, *delta))
        .map(row)
        .collect()
}

/// The cells of a day: its number and its date.
fn day(day: u64, date: Option<Date>) -> String {
    number(day as i64) + &word(&shown(date))
}

/// A version's number, as it is.
fn version_cell(version: &Version) -> String {
    format!("<td data-n=\"{0}\">{0}</td>", version.version)
}

fn version_row(ran: &Ran, point: &Point, version: Option<&Version>) -> String {
    let [number_of, area, partner] =
        [point.number, point.area, point.partner].map(|n| number(n as i64));
    let since = day(point.since, ran.since_date(point));
    let kind = word(name_in(&SERIES, point.kind));
    let told = version.map_or("<td></td>".repeat(5), |version| {
        let whether = [
            point.selects(1, version),
            point.selects(2, version),
            version.is_settled(),
        ];
        version_cell(version)
            + &word(name_in(&STATUSES, version.status))
            + &whether.map(|holds| word(yes(holds))).concat()
    });
    format!("<tr>{number_of}{kind}{area}{partner}{since}{told}</tr>\n")
}

fn points(ran: &Ran) -> String {
    let of = |point: &Point| -> String {
        let mut versions = ran.replay.versions_of(point.number).peekable();
        if versions.peek().is_none() {
            return version_row(ran, point, None);
        }
        versions
            .map(|version| version_row(ran, point, Some(version)))
            .collect()
    };
    ran.replay.points.iter().map(of).collect()
}

/// The rows of what each run selects, a row a point.
fn selected(replay: &Replay) -> String {
    let cells = |point: &Point, run: u64| {
        let selected = point.selected[run as usize - 1];
        selected.map_or("<td></td><td></td>".to_string(), |version| {
            version_cell(&version) + &word(&selections::status(run, &version))
        })
    };
    let row = |point: &Point| {
        let settled = selections::settled(point);
        let mood = if settled == "both" { " good" } else { "" };
        format!(
            "<tr>{}{}<td class=\"word{mood}\">{settled}</td>{}{}<td class=\"word long\">{}</td></tr>\n",
            number(point.number as i64),
            word(&selections::series(point)),
            cells(point, 1),
            cells(point, 2),
            selections::listed(&selections::others(replay, point))
        )
    };
    replay.points.iter().map(row).collect()
}

/// Whether each run is closed and issued, when, and how much of what it selects is settled: a paragraph a run.
fn shares(ran: &Ran) -> String {
    let faint = |note: String| format!("<br><span class=\"faint\">{}</span>", escaped(&note));
    let line = |run: u64| {
        let share = escaped(&selections::share(&ran.replay, run));
        let note = selections::note(ran, run).map_or(String::new(), faint);
        format!("<p>{share}{note}</p>\n")
    };
    (1..=2).map(line).collect()
}

fn log(ran: &Ran) -> String {
    let cells = |(at, row): (usize, &crate::library::LogRow)| {
        let day = day(row.day, ran.log_date(row));
        let [at, point, run] = [at as u64 + 1, row.point, row.run].map(|n| number(n as i64));
        format!(
            "<tr>{at}{day}{point}{run}<td data-n=\"{0}\">{0}</td></tr>\n",
            row.version
        )
    };
    ran.replay.log.iter().enumerate().map(cells).collect()
}

fn refused(ran: &Ran) -> String {
    let refusals = Refusals::of(ran, TOLD);
    if refusals.told.is_empty() {
        return String::new();
    }
    let item = |refusal: &Refusal| {
        let mend = format!(
            "<br><span class=\"faint\">to mend it: {}</span>",
            escaped(&refusal.mend)
        );
        format!("<li>{}{mend}</li>\n", escaped(&refusal.line()))
    };
    let lines = |lines: Vec<String>| -> String {
        let lines = lines.iter();
        lines
            .map(|line| format!("<p>{}</p>\n", escaped(line)))
            .collect()
    };
    let first = lines(refusals.sources());
    let items: String = refusals.told.iter().map(item).collect();
    let more = lines(refusals.more(&ran.month.source));
    format!("<h2 class=\"bad\">Refused calls</h2>{first}<div class=\"scroll short\"><ol class=\"calls\" id=\"refused\">\n{items}</ol></div>{more}")
}

/// A part with an item a line; nothing where there is none.
fn items(title: &str, id: &str, lines: &[String]) -> String {
    if lines.is_empty() {
        return String::new();
    }
    let items: String = lines
        .iter()
        .map(|line| format!("<li>{}</li>\n", escaped(line)))
        .collect();
    format!("<h2>{title}</h2><div class=\"scroll short\"><ol class=\"calls\" id=\"{id}\">\n{items}</ol></div>")
}

fn changed(ran: &Ran) -> String {
    let changes = changes(&ran.replay.log);
    let lines: Vec<String> = changes.iter().map(|change| change.line(ran)).collect();
    items("Selections that changed", "changed", &lines)
}

fn moved(ran: &Ran) -> String {
    let title = "Deltas with another group in run 2";
    items(title, "moved", &deltas::moved(ran))
}

/// Bytes in letters, six bits each.
fn base64(bytes: &[u8]) -> String {
    const LETTERS: &[u8; 64] = b"ABCDEFGHIJKLMNOPQRSTUVWXYZabcdefghijklmnopqrstuvwxyz0123456789+/";
    let mut text = String::with_capacity(bytes.len() / 3 * 4 + 4);
    for part in bytes.chunks(3) {
        let group = part
            .iter()
            .fold(0u32, |group, byte| group << 8 | u32::from(*byte))
            << (8 * (3 - part.len()));
        for at in 0..4 {
            let letter = LETTERS[(group >> (18 - 6 * at)) as usize & 63];
            text.push(if at <= part.len() {
                letter as char
            } else {
                '='
            });
        }
    }
    text
}

/// Figures in bytes, for the page's script: 2v or -2v - 1, seven bits a byte, lowest first.
fn packed(figures: &[i64]) -> Vec<u8> {
    let mut bytes = Vec::with_capacity(4 * figures.len());
    for figure in figures {
        let mut left = (figure << 1 ^ figure >> 63) as u64;
        while left >= 128 {
            bytes.push(left as u8 | 128);
            left >>= 7;
        }
        bytes.push(left as u8);
    }
    bytes
}

/// Figures as a word of the script's data.
fn letters(figures: &[i64]) -> String {
    format!("\"{}\"", base64(&packed(figures)))
}

/// A group's schedule for the script; nothing where there is none.
fn schedule(reports: Option<&Reports>, group: u64) -> String {
    let energies = reports.and_then(|reports| reports.schedules.of(group));
    energies.map_or("null".to_string(), |energies| {
        let figures: Vec<i64> = energies.iter().map(|word| *word as i64).collect();
        letters(&figures)
    })
}

/// The groups that have a figure other than 0, with their rows of the table and their figures for the script.
fn groups(replay: &Replay, reports: Option<&Reports>) -> (String, String) {
    let (mut rows, mut data) = (String::new(), Vec::new());
    for group in (1..=GROUPS).filter(|group| replay.has_figure(*group)) {
        let [first, second] = [1, 2].map(|run: u64| -> Vec<i64> {
            (1..=replay.quarters)
                .map(|quarter| replay.figure(run, group, quarter))
                .collect()
        });
        rows.push_str(&format!(
            "<tr data-group=\"{group}\">{}{}</tr>\n",
            number(group as i64),
            sums(replay, group - 1)
        ));
        let other = if first == second {
            "null".to_string()
        } else {
            letters(&second)
        };
        data.push(format!(
            "{{\"group\":{group},\"run_1\":{},\"run_2\":{other},\"schedule\":{}}}",
            letters(&first),
            schedule(reports, group)
        ));
    }
    (rows, format!("[{}]", data.join(",\n")))
}

const DEADLINES: [&str; 3] = ["first", "clearing", "correction"];

/// The opening that was accepted.
fn opening(ran: &Ran) -> Option<&Call> {
    ran.accepted().find(|call| call.kind == OPEN)
}

/// The deadlines in words.
fn deadlines_told(ran: &Ran) -> String {
    opening(ran).map_or("F, C and K".to_string(), |call| {
        let [first, clearing, correction] = DEADLINES.map(|name| call.day(name, ran.month.settled));
        format!("F, day {first}; C, day {clearing}; K, day {correction}")
    })
}

/// What the script draws.
fn data(ran: &Ran, figures: &str, reports: Option<&Reports>) -> String {
    let replay = &ran.replay;
    let log: Vec<String> = replay
        .log
        .iter()
        .map(|row| format!("[{},{},{},{}]", row.day, row.point, row.run, row.version))
        .collect();
    let days = opening(ran).map_or(String::new(), |call| {
        DEADLINES.map(|name| call.field(name).to_string()).join(",")
    });
    let deviations = reports.map_or("null".to_string(), |reports| {
        deviation::data(replay, reports)
    });
    format!(
        "{{\"name\":{},\"quarters\":{},\"day\":{},\"deadlines\":[{days}],\"log\":[{}],\"groups\":{figures},\"reports\":{deviations}}}",
        json_word(&ran.month.name),
        replay.quarters,
        replay.day,
        log.join(",")
    )
}

/// The whole page.
fn page(ran: &Ran, reports: Option<&Reports>) -> String {
    let replay = &ran.replay;
    let (rows, figures) = groups(replay, reports);
    let damage = ran.damage().map_or(String::new(), |damage| {
        format!("<p class=\"bad\">{}</p>", escaped(&damage))
    });
    let mood = if ran.status() == ACCEPTED {
        "good"
    } else {
        "bad"
    };
    let key = reports.map_or("", |_| "<i style=\"background:var(--good)\"></i>schedule");
    let part = reports.map(|reports| deviation::part(replay, reports));
    let texts = [
        ("title", escaped(&format!("Month of {}", ran.month.name))),
        ("mood", mood.to_string()),
        ("headline", escaped(&headline(ran))),
        ("damage", damage),
        ("refused", refused(ran)),
        ("changes", changed(ran)),
        ("moved", moved(ran)),
        ("groups", rows),
        ("key", key.to_string()),
        ("deviation", part.unwrap_or_default()),
        ("deltas", delta_rows(replay)),
        ("shares", shares(ran)),
        ("selected", selected(replay)),
        ("points", points(ran)),
        ("deadlines", deadlines_told(ran)),
        ("log", log(ran)),
        ("data", data(ran, &figures, reports)),
    ];
    filled(PAGE, &texts)
}

/// A page, or a part of one, with a text in the place of each `{{name}}`; what is put in is not looked at again.
pub fn filled(form: &str, texts: &[(&str, String)]) -> String {
    let mut parts = form.split("{{");
    let mut page = parts.next().unwrap_or("").to_string();
    for part in parts {
        let (name, rest) = part.split_once("}}").unwrap_or((part, ""));
        let text = texts.iter().find(|(other, _)| *other == name);
        page.push_str(text.map_or("", |(_, text)| text));
        page.push_str(rest);
    }
    page
}

/// `desk page`.
pub fn write(wanted: &Wanted) -> Result<i32, Failure> {
    let mut ran = month::run(wanted)?;
    let mut series = ran.month.series.clone();
    let reports = match wanted.schedules.as_deref() {
        // There is nothing to report on where the desk is not open.
        Some(name) if ran.replay.quarters == 0 => {
            series.extend(schedules::series_of(name)?);
            None
        }
        Some(name) => Some(report::of(&mut ran, name)?),
        None => None,
    };
    series.extend(
        reports
            .iter()
            .flat_map(|reports| reports.schedules.series.clone()),
    );
    let page = page(&ran, reports.as_ref());
    ran.warn();
    let status = reports.map_or(ran.status(), |reports| reports.judged(&ran));
    guard::deliver(wanted, &series, page.as_bytes())?;
    Ok(status)
}
