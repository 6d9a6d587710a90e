//! The words on the command line: what they may be, and what they ask for.

use crate::answer::Status;
use crate::decode;
use crate::form::Form;
use crate::place::Out;
use crate::run::processors;
use crate::settle;
use crate::signals::MOST_FILES;
use crate::source::Source;
use crate::{fail, print, shown};
use clap::error::ErrorKind;
use clap::{builder::PossibleValuesParser, value_parser, Arg, ArgAction, ArgMatches, Command};
use std::ffi::OsString;
use std::path::Path;
use tillsparrow::Colour;

/// What is asked for.
pub enum Asked {
    Decode(decode::Wish),
    Settle(settle::Wish),
    Inspect { sources: Vec<Source>, json: bool },
    Note { sources: Vec<Source>, raw: bool },
    Check { sources: Vec<Source>, jobs: usize },
    Completion(Shell),
}

/// A shell whose completion is at hand.
#[derive(Clone, Copy)]
pub enum Shell {
    Bash,
    Zsh,
    Fish,
}

impl Shell {
    pub fn text(self) -> &'static str {
        match self {
            Shell::Bash => include_str!("../completion/tillsparrow.bash"),
            Shell::Zsh => include_str!("../completion/_tillsparrow"),
            Shell::Fish => include_str!("../completion/tillsparrow.fish"),
        }
    }
}

/// Nothing is done, and this is why.
pub enum Ending {
    /// Help or the version was asked for.
    Told(String),
    /// The words are wrong.
    Wrong(String),
}

impl Ending {
    pub fn end(self) -> Status {
        match self {
            Ending::Told(text) => print(&text),
            Ending::Wrong(line) => fail(&shown::escaped(&line)),
        }
    }
}

// ---- what may be said

pub fn command() -> Command {
    Command::new("tillsparrow")
        .version(env!("CARGO_PKG_VERSION"))
        .about("Reads baseline JPEG files with a proved decoder. What cannot be read by the rules is refused by number.")
        .after_help(
            "With no argument, or with --settle alone, it is a filter from standard input to standard output.\n\n\
             Examples:\n  \
             tillsparrow decode tray.jpg                    writes tray.png\n  \
             tillsparrow decode -o pictures/ season/*.jpg   writes a PNG file for each\n  \
             tillsparrow check season/*.jpg                 says which files are accepted\n\n\
             Exit status: 0 where all went well, 1 where a file was refused, 2 for anything else.",
        )
        .subcommand_required(true)
        .subcommands([decode_command(), settle_command(), inspect_command(), note_command(), check_command(), completion_command()])
}

fn decode_command() -> Command {
    Command::new("decode")
        .about("Writes the picture of each file")
        .args([files(), out("The picture's file (.png .ppm .pgm .pnm), a folder, or - for standard output"), form()])
        .args([jobs(), flag("as-coded", "Three channels as they are coded, and not as red, green and blue"), force()])
        .after_help(
            "A picture of two or four channels is written as one in grey, its channels side by side, and a line says so.\n\n\
             Examples:\n  \
             tillsparrow decode tray.jpg                    writes tray.png beside it\n  \
             tillsparrow decode tray.jpg -o tray.ppm        writes a PPM file\n  \
             tillsparrow decode -j 4 -o pictures/ *.jpg     writes pictures/NAME.png, four at a time\n  \
             tillsparrow decode - < tray.jpg | pnmtops      from standard input to standard output, as PPM or PGM",
        )
}

fn settle_command() -> Command {
    Command::new("settle")
        .about("Writes each file in its one settled form: files with one head and one picture become equal")
        .args([files(), out("The settled file, a folder, or - for standard output"), jobs(), force()])
        .after_help(
            "Examples:\n  \
             tillsparrow settle tray.jpg                    writes tray.settled.jpg beside it\n  \
             tillsparrow settle -o settled/ *.jpg           writes settled/NAME.jpg for each",
        )
}

fn inspect_command() -> Command {
    Command::new("inspect")
        .about("Says what each file holds: size, channels, sampling, notes, memory needed")
        .args([
            files(),
            flag("json", "One JSON object a line for each file, with its whole record"),
        ])
        .after_help(
            "The sampling, as 2x2,1x2,1x2, has the blocks of each channel in an MCU, across x down.\n\n\
             Examples:\n  \
             tillsparrow inspect tray.jpg\n  \
             tillsparrow inspect --json *.jpg > season.json",
        )
}

fn note_command() -> Command {
    Command::new("note")
        .about("Prints the notes in each file, a line each")
        .args([files(), flag("raw", "The bytes as they are, a newline behind each note")])
        .after_help(
            "Examples:\n  \
             tillsparrow note tray.jpg\n  \
             tillsparrow note --raw tray.jpg > notes.txt",
        )
}

fn check_command() -> Command {
    Command::new("check")
        .about("Says of each file whether it is accepted")
        .args([files(), jobs()])
        .after_help(
            "Examples:\n  \
         tillsparrow check tray.jpg\n  \
         tillsparrow check season/*.jpg 2> refused.txt",
        )
}

fn completion_command() -> Command {
    let shell =
        Arg::new("SHELL").required(true).value_parser(["bash", "zsh", "fish"]).help("The shell");
    Command::new("completion").about("Prints the completion for a shell").arg(shell).after_help(
        "Examples:\n  \
         tillsparrow completion bash > ~/.local/share/bash-completion/completions/tillsparrow\n  \
         tillsparrow completion fish > ~/.config/fish/completions/tillsparrow.fish",
    )
}

fn files() -> Arg {
    Arg::new("FILE")
        .required(true)
        .num_args(1..)
        .value_parser(value_parser!(OsString))
        .help("JPEG files; - is standard input")
}

fn out(help: &'static str) -> Arg {
    Arg::new("output")
        .short('o')
        .long("output")
        .value_name("OUT")
        .value_parser(value_parser!(OsString))
        .help(help)
}

fn form() -> Arg {
    let names = PossibleValuesParser::new(Form::ALL.map(Form::name));
    Arg::new("format")
        .short('f')
        .long("format")
        .value_name("FORM")
        .value_parser(names)
        .ignore_case(true)
        .help("The form of the picture")
}

fn jobs() -> Arg {
    Arg::new("jobs")
        .short('j')
        .long("jobs")
        .value_name("N")
        .value_parser(value_parser!(u64).range(1..=MOST_FILES as u64))
        .help("Files at a time [default: one for each processor, at most 8]")
}

fn force() -> Arg {
    flag("force", "Replace files that are there already")
}

fn flag(name: &'static str, help: &'static str) -> Arg {
    Arg::new(name).long(name).action(ArgAction::SetTrue).help(help)
}

// ---- what was said

pub fn parse(words: Vec<OsString>) -> Result<Asked, Ending> {
    let matches =
        command().try_get_matches_from(&words).map_err(|error| ending(&error, words.get(1)))?;
    let (name, matches) = matches.subcommand().expect("a subcommand is required");
    match name {
        "decode" => decode_wish(matches).map(Asked::Decode).map_err(Ending::Wrong),
        "settle" => settle_wish(matches).map(Asked::Settle).map_err(Ending::Wrong),
        "inspect" => {
            Ok(Asked::Inspect { sources: sources(matches)?, json: matches.get_flag("json") })
        }
        "note" => Ok(Asked::Note { sources: sources(matches)?, raw: matches.get_flag("raw") }),
        "check" => Ok(Asked::Check { sources: sources(matches)?, jobs: jobs_of(matches) }),
        _ => Ok(Asked::Completion(match matches.get_one::<String>("SHELL").map(String::as_str) {
            Some("zsh") => Shell::Zsh,
            Some("fish") => Shell::Fish,
            _ => Shell::Bash,
        })),
    }
}

impl From<String> for Ending {
    fn from(line: String) -> Ending {
        Ending::Wrong(line)
    }
}

fn sources(matches: &ArgMatches) -> Result<Vec<Source>, String> {
    let words = matches.get_many::<OsString>("FILE").unwrap_or_default();
    let sources: Vec<Source> = words.cloned().map(Source::from).collect();
    match sources.iter().filter(|source| matches!(source, Source::Standard)).count() {
        0 | 1 => Ok(sources),
        _ => Err("standard input can be read once: give - once".to_string()),
    }
}

fn jobs_of(matches: &ArgMatches) -> usize {
    matches.get_one::<u64>("jobs").map_or_else(processors, |&jobs| jobs as usize)
}

fn out_of(matches: &ArgMatches, files: usize) -> Result<Out, String> {
    Out::new(matches.get_one::<OsString>("output").cloned(), files)
}

fn settle_wish(matches: &ArgMatches) -> Result<settle::Wish, String> {
    let sources = sources(matches)?;
    let out = out_of(matches, sources.len())?;
    Ok(settle::Wish { sources, out, jobs: jobs_of(matches), force: matches.get_flag("force") })
}

fn decode_wish(matches: &ArgMatches) -> Result<decode::Wish, String> {
    let sources = sources(matches)?;
    let out = out_of(matches, sources.len())?;
    let asked = matches.get_one::<String>("format").and_then(|name| Form::of_name(name));
    let form = match &out {
        Out::File(path) => Some(form_of(path, asked)?),
        _ => asked,
    };
    let colour = if matches.get_flag("as-coded") { Colour::AsCoded } else { Colour::RedGreenBlue };
    Ok(decode::Wish {
        sources,
        out,
        form,
        colour,
        jobs: jobs_of(matches),
        force: matches.get_flag("force"),
    })
}

/// The form of a single output, by its ending and by -f.
fn form_of(path: &Path, asked: Option<Form>) -> Result<Form, String> {
    let name = shown::name(path);
    match (Form::of_ending(path), asked) {
        (Some(ending), Some(asked)) => ending.and(asked).ok_or_else(|| {
            format!(
                "{name} ends as {} and -f says {}: take one of them",
                ending.name(),
                asked.name()
            )
        }),
        (Some(form), None) | (None, Some(form)) => Ok(form),
        (None, None) => Err(format!(
            "the ending of {name} says no form: end it with .png, .ppm, .pgm or .pnm, with / to have a folder made, or take -f"
        )),
    }
}

/// clap's words on one line, and where to read on.
fn ending(error: &clap::Error, first: Option<&OsString>) -> Ending {
    let text = error.to_string();
    if matches!(error.kind(), ErrorKind::DisplayHelp | ErrorKind::DisplayVersion) {
        return Ending::Told(text);
    }
    let known = first
        .and_then(|word| word.to_str())
        .filter(|word| command().find_subcommand(word).is_some());
    let help = match (known, first) {
        (Some(name), _) => format!("see tillsparrow {name} --help"),
        (None, Some(word)) if Path::new(word).exists() => {
            format!("to decode it, say: tillsparrow decode {}", shown::name(Path::new(word)))
        }
        _ => "see tillsparrow --help".to_string(),
    };
    Ending::Wrong(format!("{}: {help}", one_line(&text)))
}

/// The message of an error, without the usage that follows it.
fn one_line(text: &str) -> String {
    let text = text.strip_prefix("error: ").unwrap_or(text);
    let ends = ["Usage:", "For more information", "If you believe"];
    let is_message = |part: &&str| !ends.iter().any(|end| part.starts_with(end));
    let parts = text.lines().map(str::trim).take_while(is_message).filter(|part| !part.is_empty());
    let mut line = String::new();
    for part in parts {
        let joint = match line.ends_with(':') || part.starts_with('[') {
            _ if line.is_empty() => "",
            true => " ",
            false => "; ",
        };
        line.extend([joint, part]);
    }
    // As every line of this program begins.
    line.get(..1).map(str::to_lowercase).unwrap_or_default() + line.get(1..).unwrap_or_default()
}

#[cfg(test)]
mod tests {
    use super::*;
    use std::collections::HashSet;

    fn asked(words: &[&str]) -> Result<Asked, Ending> {
        parse(["tillsparrow"].iter().chain(words).map(OsString::from).collect())
    }

    fn wrong(words: &[&str]) -> String {
        match asked(words) {
            Err(Ending::Wrong(line)) => line,
            _ => panic!("{words:?} are taken"),
        }
    }

    fn decoded(words: &[&str]) -> decode::Wish {
        match asked(&[&["decode"], words].concat()) {
            Ok(Asked::Decode(wish)) => wish,
            Err(Ending::Wrong(line)) => panic!("{line}"),
            _ => panic!("{words:?} are taken for something else"),
        }
    }

    #[test]
    fn the_definition_is_sound() {
        command().debug_assert();
    }

    #[test]
    fn words_come_in_any_order() {
        let wish = decoded(&["a.jpg", "-o", "x.PNG", "--as-coded", "--force", "-j", "3"]);
        assert_eq!(
            (wish.form, wish.jobs, wish.force, wish.sources.len()),
            (Some(Form::Png), 3, true, 1)
        );
        assert_eq!((wish.colour, wish.out), (Colour::AsCoded, Out::File("x.PNG".into())));
        assert_eq!(decoded(&["-f", "PPM", "--", "-n.jpg", "b.jpg"]).form, Some(Form::Ppm));
        assert_eq!(decoded(&["-", "-o", "-"]).form, None);
    }

    #[test]
    fn wrong_words_are_one_line_that_says_what_to_do() {
        let cases: [&[&str]; 14] = [
            &["decode"],
            &["decode", "a.jpg", "-o", "a"],
            &["decode", "a.jpg", "-o", "a.gif"],
            &["decode", "a.jpg", "-o", "a.png", "-f", "ppm"],
            &["decode", "a.jpg", "-f", "bmp"],
            &["decode", "a.jpg", "b.jpg", "-o", "x.png"],
            &["decode", "a.jpg", "b.jpg", "-o", "-"],
            &["decode", "a.jpg", "-j", "0"],
            &["decode", "-", "-"],
            &["decode", "a.jpg", "--raw"],
            &["settle", "a.jpg", "-f", "png"],
            &["completion", "csh"],
            &["bogus"],
            &["Cargo.toml"],
        ];
        for words in cases {
            let line = wrong(words);
            assert!(!line.contains('\n') && line.len() > 20, "{line}");
        }
        assert!(wrong(&["Cargo.toml"]).contains("tillsparrow decode Cargo.toml"));
        assert!(wrong(&["settle"]).contains("see tillsparrow settle --help"));
        assert!(wrong(&["settle", "a.jpg", "--forec"]).contains("; Did you mean '--force'?: see"));
    }

    #[test]
    fn help_and_version_are_told() {
        for words in [
            &["--help"][..],
            &["-h"],
            &["help"],
            &["help", "decode"],
            &["note", "--help"],
            &["check", "-h"],
        ] {
            assert!(
                matches!(asked(words), Err(Ending::Told(text)) if text.contains("Examples:") && text.contains("Usage:"))
            );
        }
        let version = format!("tillsparrow {}\n", env!("CARGO_PKG_VERSION"));
        assert!(matches!(asked(&["--version"]), Err(Ending::Told(text)) if text == version));
    }

    /// The words in a text that begin with two dashes, and end where no letter or dash follows.
    fn long_words(text: &str) -> HashSet<String> {
        let is_part = |letter: char| letter.is_ascii_lowercase() || letter == '-';
        let words =
            text.split(|letter: char| !is_part(letter)).filter_map(|word| word.strip_prefix("--"));
        words.filter(|word| !word.is_empty()).map(str::to_string).collect()
    }

    /// The man page, with an option written as the others write it, and the completions.
    fn pages() -> [String; 4] {
        let page = include_str!("../tillsparrow.1").replace("Fl -", "--").replace("Fl ", "-");
        let fish =
            Shell::Fish.text().replace("set -l ", "").replace("-l ", "--").replace("-s ", "-");
        [page, Shell::Bash.text().to_string(), Shell::Zsh.text().to_string(), fish]
    }

    /// What the command takes is named in the man page and in each completion, and nothing else is, so that
    /// they cannot drift apart.
    #[test]
    fn the_man_page_and_the_completions_name_what_is_taken() {
        let mut taken: HashSet<String> = ["help", "version", "settle"].map(String::from).into();
        for subcommand in command().get_subcommands() {
            let is_named = |page: &String| {
                page.split(|letter: char| !letter.is_ascii_lowercase())
                    .any(|word| word == subcommand.get_name())
            };
            assert!(pages().iter().all(is_named), "{}", subcommand.get_name());
            for argument in subcommand.get_arguments() {
                taken.extend(argument.get_long().map(str::to_string));
                if let Some(word) = argument.get_short().map(|short| format!("-{short}")) {
                    assert!(pages().iter().all(|page| page.contains(&word)), "{word}");
                }
                for value in argument.get_possible_values() {
                    assert!(
                        pages().iter().all(|page| page.contains(value.get_name())),
                        "{}",
                        value.get_name()
                    );
                }
            }
        }
        for page in pages() {
            assert_eq!(long_words(&page), taken, "{page}");
        }
    }

    /// Each subcommand has its own options in the synopsis of the man page and in the completions of bash and fish.
    #[test]
    fn each_subcommand_has_its_options() {
        let [page, bash, _, fish] = pages();
        for subcommand in command().get_subcommands() {
            let name = subcommand.get_name();
            let synopsis = page
                .split(&format!(".Nm tillsparrow Cm {name}\n"))
                .nth(1)
                .unwrap_or_else(|| panic!("{name} in the synopsis"));
            let synopsis = synopsis.split(".Nm").next().unwrap_or_default();
            let line = bash
                .lines()
                .find(|line| line.trim().starts_with(&format!("{name}) ")))
                .unwrap_or_else(|| panic!("{name} for bash"));
            for argument in subcommand.get_arguments() {
                let long = match argument.get_long() {
                    Some(long) => long,
                    None => continue,
                };
                let word = argument
                    .get_short()
                    .map_or_else(|| format!("--{long}"), |short| format!("-{short} "));
                assert!(synopsis.contains(&word), "{word} in the synopsis of {name}");
                assert!(long_words(line).contains(long), "--{long} of {name} for bash");
                let is_its = |line: &&str| line.contains(name) && long_words(line).contains(long);
                assert!(fish.lines().any(|line| is_its(&line)), "--{long} of {name} for fish");
            }
        }
    }
}
