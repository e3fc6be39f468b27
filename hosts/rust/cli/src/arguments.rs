//! The arguments.

use std::ffi::{OsStr, OsString};
use std::path::PathBuf;

use station::ModelNumber;

use crate::aside::Aside;
use crate::check::Form;
use crate::list::List;
use crate::problem::Problem;
use crate::words::path_name;
use crate::{find, fractional, help};

/// What is to be done, and whether to say nothing of what goes well.
pub struct Asked {
    pub command: Command,
    pub quiet: bool,
}

/// What is to be done.
#[derive(Debug)]
pub enum Command {
    /// Show a text: help, or the version.
    Show(&'static str),
    /// Cut an entry to the lines of known kinds.
    Cut { file: PathBuf, out: PathBuf, force: bool },
    /// Check files and folders.
    Check { files: Vec<PathBuf>, form: Form, all: bool },
    /// Show the lines of some atoms.
    Find { file: PathBuf, serials: Vec<u32> },
    /// Show the crystal frame of an entry.
    Cell { file: PathBuf },
    /// Tell the fractional places of some atoms, or of three coordinates.
    Fractional { file: PathBuf, of: fractional::Of },
    /// List the fragments of an entry.
    Fragments { file: PathBuf, aside: Aside },
    /// Save an entry without some fragments.
    Save { file: PathBuf, aside: Aside, out: PathBuf, tray: Option<PathBuf>, force: bool },
    /// Draw an entry.
    Draw { file: PathBuf, aside: Aside, model: Option<ModelNumber>, svg: PathBuf, force: bool },
}

/// The options of a command as they were given.
#[derive(Default)]
struct Given {
    files: Vec<PathBuf>,
    help: bool,
    report: bool,
    json: bool,
    all: bool,
    force: bool,
    quiet: bool,
    xyz: bool,
    aside: Option<OsString>,
    keep: Option<OsString>,
    out: Option<OsString>,
    tray: Option<OsString>,
    svg: Option<OsString>,
    model: Option<OsString>,
}

fn usage<T>(words: impl Into<String>) -> Result<T, Problem> {
    Err(Problem::Usage(words.into()))
}

/// The help of a command, and the options that it allows.
fn about(command: &OsStr) -> Option<(&'static str, &'static [&'static str])> {
    match command.to_str()? {
        "cut" => Some((help::CUT, &["--out", "--force", "-q"])),
        "check" => Some((help::CHECK, &["--all", "--json", "--report", "-q"])),
        "find" => Some((help::FIND, &[])),
        "cell" => Some((help::CELL, &[])),
        "fractional" => Some((help::FRACTIONAL, &["--xyz"])),
        "fragments" => Some((help::FRAGMENTS, &["--aside", "--keep"])),
        "save" => Some((help::SAVE, &["--aside", "--keep", "--out", "--tray", "--force", "-q"])),
        "draw" => Some((help::DRAW, &["--aside", "--keep", "--model", "--svg", "--force", "-q"])),
        _ => None,
    }
}

/// Reads the arguments.
pub fn parse(mut arguments: impl Iterator<Item = OsString>) -> Result<Asked, Problem> {
    let Some(command) = arguments.next() else {
        return usage("what is to be done?");
    };
    let show = |text| Ok(Asked { command: Command::Show(text), quiet: false });
    match command.to_str() {
        Some("help" | "--help" | "-h") => {
            let about = arguments.next().and_then(|command| about(&command));
            return show(about.map_or(help::ALL, |(help, _)| help));
        }
        Some("--version") => return show(help::VERSION),
        _ => {}
    }
    let Some((help, allowed)) = about(&command) else {
        return usage(format!("{}: no such command", command.to_string_lossy()));
    };
    let given = given(arguments, allowed)?;
    if given.help {
        return show(help);
    }
    let quiet = given.quiet;
    Ok(Asked { command: asked(&command, given)?, quiet })
}

/// What a command is asked to do.
fn asked(command: &OsStr, given: Given) -> Result<Command, Problem> {
    match command.to_str() {
        Some("cut") => {
            let (file, out) = (given.one_file("cut")?, needed(given.out, "cut needs --out FILE")?);
            Ok(Command::Cut { file, out, force: given.force })
        }
        Some("check") if given.files.is_empty() => usage("check needs one or more files, or - for standard input"),
        Some("check") => {
            let (form, all) = (given.form()?, given.all);
            Ok(Command::Check { files: given.files, form, all })
        }
        Some("find") => {
            let (file, words) = given.file_and_words("find needs a file and one or more serials")?;
            let serials = words.iter().map(|word| find::serial(word)).collect::<Result<_, _>>();
            Ok(Command::Find { file, serials: serials.or_else(usage)? })
        }
        Some("cell") => Ok(Command::Cell { file: given.one_file("cell")? }),
        Some("fractional") => {
            let (file, words) = given.file_and_words("fractional needs a file and serials, or a file and x, y, z")?;
            Ok(Command::Fractional { file, of: fractional::Of::parse(&words, given.xyz).or_else(usage)? })
        }
        Some("fragments") => {
            let (file, aside) = (given.one_file("fragments")?, given.aside()?);
            Ok(Command::Fragments { file, aside })
        }
        Some("save") => {
            let (file, aside) = (given.one_file("save")?, given.aside()?);
            let out = needed(given.out, "save needs --out FILE")?;
            let tray = given.tray.map(PathBuf::from);
            if !aside.is_empty() && tray.is_none() {
                return usage("save needs --tray FILE, so that what is set aside is not lost");
            }
            Ok(Command::Save { file, aside, out, tray, force: given.force })
        }
        _ => {
            let (file, aside, model) = (given.one_file("draw")?, given.aside()?, given.model()?);
            let svg = needed(given.svg, "draw needs --svg FILE")?;
            Ok(Command::Draw { file, aside, model, svg, force: given.force })
        }
    }
}

fn needed(path: Option<OsString>, words: &str) -> Result<PathBuf, Problem> {
    path.filter(|path| !path.is_empty()).map(PathBuf::from).ok_or_else(|| Problem::Usage(words.to_owned()))
}

/// Sorts the arguments of a command that allows these options.
fn given(mut arguments: impl Iterator<Item = OsString>, allowed: &[&str]) -> Result<Given, Problem> {
    let mut given = Given::default();
    let mut only_files = false;
    while let Some(argument) = arguments.next() {
        let coordinate = allowed.contains(&"--xyz") && is_below_zero(&argument);
        if only_files || coordinate || argument == OsStr::new("-") || !argument.as_encoded_bytes().starts_with(b"-") {
            given.files.push(argument.into());
            continue;
        }
        let (name, attached) = parts(&argument);
        let name = name.to_str().unwrap_or_default();
        match name {
            "--" => only_files = true,
            "--help" | "-h" => {
                // What else was given does not matter then.
                given.help = true;
                break;
            }
            _ if !allowed.contains(&name) => {
                return usage(format!("{}: no such option here", argument.to_string_lossy()));
            }
            "--all" | "--json" | "--report" | "--force" | "--xyz" | "-q" if attached.is_some() => {
                return usage(format!("{name} takes no value"));
            }
            "--all" => given.all = true,
            "--json" => given.json = true,
            "--report" => given.report = true,
            "-q" => given.quiet = true,
            "--force" => given.force = true,
            "--xyz" => given.xyz = true,
            _ => {
                let Some(value) = attached.or_else(|| arguments.next()) else {
                    return usage(format!("{name} needs a value"));
                };
                let place = match name {
                    "--aside" => &mut given.aside,
                    "--keep" => &mut given.keep,
                    "--out" => &mut given.out,
                    "--tray" => &mut given.tray,
                    "--model" => &mut given.model,
                    _ => &mut given.svg,
                };
                if place.replace(value).is_some() {
                    return usage(format!("{name} is given twice"));
                }
            }
        }
    }
    Ok(given)
}

/// The name of an option, and the value behind its `=`, which may be any bytes.
fn parts(argument: &OsStr) -> (&OsStr, Option<OsString>) {
    let bytes = argument.as_encoded_bytes();
    let Some(at) = bytes.iter().position(|&byte| byte == b'=') else {
        return (argument, None);
    };
    // SAFETY: the bytes are those of an argument, parted beside a character of ASCII.
    let part = |bytes| unsafe { OsStr::from_encoded_bytes_unchecked(bytes) };
    (part(&bytes[..at]), Some(part(&bytes[at + 1..]).to_owned()))
}

/// Whether an argument is a number with a minus rather than an option.
fn is_below_zero(argument: &OsStr) -> bool {
    matches!(argument.as_encoded_bytes(), [b'-', b'0'..=b'9' | b'.', ..])
}

impl Given {
    fn one_file(&self, command: &str) -> Result<PathBuf, Problem> {
        match &self.files[..] {
            [file] => Ok(file.clone()),
            _ => usage(format!("{command} needs one file")),
        }
    }

    fn form(&self) -> Result<Form, Problem> {
        match (self.json, self.report) {
            (true, true) => usage("--json and --report are two forms of one answer; give one of them"),
            (false, true) if self.all => usage("the listing of --report has no room for what --all finds; --json has"),
            (true, false) => Ok(Form::Json),
            (false, true) => Ok(Form::Report),
            (false, false) => Ok(Form::Words),
        }
    }

    /// The file, and one or more words behind it.
    fn file_and_words(&self, needed: &str) -> Result<(PathBuf, Vec<String>), Problem> {
        match &self.files[..] {
            [file, words @ ..] if !words.is_empty() => {
                Ok((file.clone(), words.iter().map(|word| path_name(word)).collect()))
            }
            _ => usage(needed),
        }
    }

    fn model(&self) -> Result<Option<ModelNumber>, Problem> {
        let Some(word) = self.model.as_ref().map(|word| word.to_string_lossy()) else {
            return Ok(None);
        };
        let digits = word.bytes().all(|byte| byte.is_ascii_digit());
        match word.parse() {
            Ok(number @ 1..=9_999) if digits => Ok(Some(ModelNumber(number))),
            _ => usage(format!("--model {word}: models have numbers from 1 to 9999")),
        }
    }

    fn aside(&self) -> Result<Aside, Problem> {
        let list = |option: &str, given: &Option<OsString>| {
            let Some(list) = given.as_ref().map(|list| list.to_string_lossy()) else {
                return Ok(None);
            };
            List::parse(&list).map(Some).or_else(|words| usage(format!("{option} {list}: {words}")))
        };
        Ok(Aside { aside: list("--aside", &self.aside)?, keep: list("--keep", &self.keep)? })
    }
}
