//! `seqapti`: looks at a store's manifest, says whether it would open, and makes one of the original's JSON manifest.
mod check;
mod explain;
mod frames;
mod help;
mod history;
mod import;
mod inspect;
mod json;
mod line;
mod on_disk;
mod original;
mod output;
mod page;
mod picture;
mod source;
mod value;

use std::ffi::OsString;
use std::io::{self, Write};
use std::path::{Path, PathBuf};
use std::process::ExitCode;

/// What a command has to say on standard output, and its exit status: 0, or 1 where something was refused.
pub struct Done {
    pub output: String,
    pub status: u8,
}

/// Why a command could not be carried out: said on standard error, with exit status 2.
pub struct Failed(pub String);

const FAILED: u8 = 2;

fn main() -> ExitCode {
    let arguments: Vec<OsString> = std::env::args_os().skip(1).collect();
    let done = run(&arguments).and_then(|done| match write(&done.output) {
        Ok(()) => Ok(done.status),
        Err(e) => Err(Failed(format!("cannot write to standard output: {e}"))),
    });
    done.unwrap_or_else(|Failed(why)| {
        // Where standard error is closed too there is nobody left to tell.
        let _ = writeln!(io::stderr(), "seqapti: {why}");
        FAILED
    })
    .into()
}

fn write(output: &str) -> io::Result<()> {
    let mut out = io::stdout().lock();
    out.write_all(output.as_bytes())?;
    out.flush()
}

fn run(arguments: &[OsString]) -> Result<Done, Failed> {
    let words = Words::of(arguments)?;
    if words.help {
        let command = words.paths.first().and_then(|c| c.to_str());
        return Ok(Done { output: help::of(command).into(), status: 0 });
    }
    let (command, paths) = match words.paths.split_first() {
        None => return Err(Failed(help::of(None).into())),
        Some((command, paths)) => (command.to_str().unwrap_or_default(), paths),
    };
    match (command, paths) {
        ("inspect", [path]) if !words.drop_torn => inspect::run(path, words.form()?),
        ("check", [path]) if words.html.is_none() && !words.drop_torn => check::run(path, words.json),
        ("import", [from, to]) if words.html.is_none() => import::run(from, to, words.drop_torn, words.json),
        ("inspect" | "check" | "import", _) => Err(Failed(format!("bad usage\n{}", help::of(Some(command))))),
        _ => Err(Failed(format!("no command `{command}`\n{}", help::of(None)))),
    }
}

/// The command line's words: options apart from the rest.
#[derive(Default)]
struct Words {
    paths: Vec<PathBuf>,
    json: bool,
    drop_torn: bool,
    help: bool,
    html: Option<PathBuf>,
}

impl Words {
    fn of(arguments: &[OsString]) -> Result<Words, Failed> {
        let mut words = Words::default();
        let mut rest = arguments.iter();
        while let Some(argument) = rest.next() {
            match argument.to_str() {
                Some("--json") => words.json = true,
                Some("--drop-torn") => words.drop_torn = true,
                Some("--help" | "-h") => words.help = true,
                Some("--html") => match rest.next() {
                    Some(file) => words.html = Some(file.into()),
                    None => return Err(Failed("--html needs a file's name".into())),
                },
                // What follows is no option, whatever it looks like.
                Some("--") => words.paths.extend(rest.by_ref().map(PathBuf::from)),
                Some(option) if option.starts_with('-') && option.len() > 1 => {
                    return Err(Failed(format!("no option `{option}`; `seqapti --help` names those there are")));
                }
                _ => words.paths.push(argument.into()),
            }
        }
        Ok(words)
    }

    fn form(&self) -> Result<inspect::Form<'_>, Failed> {
        match (self.json, self.html.as_deref()) {
            (false, None) => Ok(inspect::Form::Words),
            (true, None) => Ok(inspect::Form::Json),
            (false, Some(file)) => Ok(inspect::Form::Html(file)),
            (true, Some(_)) => Err(Failed("--json and --html do not go together".into())),
        }
    }
}

/// The file's name with something behind it.
pub fn beside(path: &Path, ending: &str) -> PathBuf {
    let mut name = path.as_os_str().to_os_string();
    name.push(ending);
    name.into()
}
