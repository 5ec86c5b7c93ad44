//! The help, and the man page made from it. The words stand in `command/help.txt`, where `./desk` finds them before the program is built.

use crate::library;

/// Below each line `== NAME` what is said of it: of `desk` itself, of each command as its help shows it, of the exit status.
const TEXT: &str = include_str!("../help.txt");

/// A command's help: how it is called, what it does, more on that, an example.
struct Help {
    name: &'static str,
    usage: &'static str,
    short: &'static str,
    body: &'static str,
    example: &'static str,
}

fn parts() -> impl Iterator<Item = (&'static str, &'static str)> {
    TEXT.split("== ").filter_map(|part| part.split_once('\n'))
}

fn part(name: &str) -> &'static str {
    parts()
        .find(|(found, _)| *found == name)
        .map_or("", |(_, text)| text)
}

/// What the program is for, and what its help says below the commands.
fn about() -> (&'static str, &'static str) {
    part("desk").split_once("\n\n").unwrap_or_default()
}

fn helps() -> impl Iterator<Item = Help> {
    parts().filter_map(|(name, text)| {
        let (usage, rest) = text.split_once("\n\n")?;
        let (short, rest) = rest.split_once(".\n\n")?;
        let (body, example) = rest.trim_end().rsplit_once("\n\n")?;
        Some(Help {
            name,
            usage,
            short,
            body,
            example,
        })
    })
}

pub fn version() -> String {
    format!(
        "desk {}, library {}\n",
        env!("CARGO_PKG_VERSION"),
        library::version()
    )
}

/// `desk --help`.
pub fn overview() -> String {
    let (purpose, more) = about();
    let commands: String = helps()
        .map(|help| format!("    desk {:<10}{}\n", help.name, help.short))
        .collect();
    format!("{purpose}\n\n{commands}\n{more}\n{}", part("status"))
}

/// `desk COMMAND --help`.
pub fn on(name: &str) -> String {
    format!("{}\n{}", part(name), part("status"))
}

/// A text for the man page.
fn escaped(text: &str) -> String {
    let lines: Vec<String> = text
        .lines()
        .map(|line| line.replace('\\', "\\e").replace('-', "\\-"))
        .collect();
    lines
        .iter()
        .map(|line| {
            if line.starts_with(['.', '\'']) {
                format!("\\&{line}\n")
            } else {
                format!("{line}\n")
            }
        })
        .collect()
}

/// `desk --man`.
pub fn manual() -> String {
    let mut page = format!(
        ".TH DESK 1 \"\" \"desk {}\"\n.SH NAME\n{}\n.SH SYNOPSIS\n.nf\n",
        env!("CARGO_PKG_VERSION"),
        about().0.replacen(':', " \\-", 1)
    );
    for help in helps() {
        page.push_str(&escaped(help.usage));
    }
    page.push_str(".fi\n.SH COMMANDS\n");
    for help in helps() {
        page.push_str(&format!(
            ".SS desk {}\n{}.nf\n.sp\n{}.sp\n{}.fi\n",
            help.name,
            escaped(help.short),
            escaped(help.body),
            escaped(help.example)
        ));
    }
    page.push_str(&format!(".SH EXIT STATUS\n{}", escaped(part("status"))));
    page
}
