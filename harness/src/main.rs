//! The commands of the harness.

#![deny(unsafe_code)]

use std::fs;
use std::process::ExitCode;
use std::time::Duration;

use harness::campaign::Campaign;
use harness::{bench, cases, marks, named_sheets, recording::Recording, text};

const USAGE: &str = "\
usage:
  harness record TEXT RECORDING
      write the recording that a plain text describes
  harness show RECORDING
      print a recording as plain text
  harness campaign [--seed N] [--seconds S] [--only CASE]
      compare the finders on random inputs; the same seed gives the same cases, and --only makes
      one of them again
  harness bench
      time the finders on the same inputs
  harness purse
      time the rounds that a drill of a sheet has, over short lists and long ones
  harness pairs
      time a pair of zones without a time in common
  harness cases [--write-input PATH] [--write-output PATH]
      the executed cases: their input, and the output that is expected of them (printed where no
      path is given)
  harness marks PROGRAM
      run the program `marks` on files at the edges of what it accepts
  harness lesson PROGRAM
      run the program `lesson` on named sheets of drills, whose numbers and rounds are known

Built with --features proved, campaign, bench, purse, pairs and lesson also call the proved library.
";

fn main() -> ExitCode {
    let arguments: Vec<String> = std::env::args().skip(1).collect();
    let words: Vec<&str> = arguments.iter().map(String::as_str).collect();
    match command(&words).and_then(run) {
        Ok(()) => ExitCode::SUCCESS,
        Err(message) => {
            eprintln!("harness: {message}");
            ExitCode::FAILURE
        }
    }
}

enum Command<'a> {
    Record {
        from: &'a str,
        to: &'a str,
    },
    Show {
        from: &'a str,
    },
    Campaign(Campaign),
    Bench,
    Purse,
    Pairs,
    Cases {
        input: Option<&'a str>,
        output: Option<&'a str>,
    },
    Marks {
        program: &'a str,
    },
    Lesson {
        program: &'a str,
    },
    Help,
}

/// The command that is asked for, or what is wrong with it, and the usage.
fn command<'a>(words: &[&'a str]) -> Result<Command<'a>, String> {
    let [name, rest @ ..] = words else {
        return Err(format!("a command is missing\n{USAGE}"));
    };
    let command = match *name {
        "record" => {
            exactly(["TEXT", "RECORDING"], rest).map(|[from, to]| Command::Record { from, to })
        }
        "show" => exactly(["RECORDING"], rest).map(|[from]| Command::Show { from }),
        "campaign" => campaign_options(rest),
        "bench" => exactly([], rest).map(|[]| Command::Bench),
        "purse" => exactly([], rest).map(|[]| Command::Purse),
        "pairs" => exactly([], rest).map(|[]| Command::Pairs),
        "cases" => cases_options(rest),
        "marks" => exactly(["PROGRAM"], rest).map(|[program]| Command::Marks { program }),
        "lesson" => exactly(["PROGRAM"], rest).map(|[program]| Command::Lesson { program }),
        "help" | "--help" | "-h" => return Ok(Command::Help),
        _ => return Err(format!("`{name}` is no command\n{USAGE}")),
    };
    command.map_err(|wrong| format!("{name}: {wrong}\nusage: {}", usage(name)))
}

/// The line of the usage that shows a command.
fn usage(name: &str) -> &'static str {
    let shows = |line: &&str| line.split(' ').take(2).eq(["harness", name]);
    let mut lines = USAGE.lines().map(str::trim_start);
    lines.find(shows).expect("every command has its line")
}

/// As many arguments as there are names.
fn exactly<'a, const N: usize>(
    names: [&str; N],
    given: &[&'a str],
) -> Result<[&'a str; N], String> {
    if let Some(extra) = given.get(N) {
        return Err(format!("`{extra}` is one argument too many"));
    }
    let arguments = given.try_into();
    arguments.map_err(|_| format!("missing {}", names[given.len()..].join(" and ")))
}

fn campaign_options<'a>(options: &[&str]) -> Result<Command<'a>, String> {
    let mut campaign = Campaign {
        seed: 1,
        time: Duration::from_secs(20),
        only: None,
    };
    for option in options.chunks(2) {
        match option[0] {
            "--seed" => campaign.seed = number(option)?,
            "--seconds" => campaign.time = Duration::from_secs(number(option)?),
            "--only" => campaign.only = Some(number(option)?),
            other => return Err(format!("`{other}` is no option")),
        }
    }
    Ok(Command::Campaign(campaign))
}

fn cases_options<'a>(options: &[&'a str]) -> Result<Command<'a>, String> {
    let (mut input, mut output) = (None, None);
    for option in options.chunks(2) {
        match option[0] {
            "--write-input" => input = Some(value(option)?),
            "--write-output" => output = Some(value(option)?),
            other => return Err(format!("`{other}` is no option")),
        }
    }
    Ok(Command::Cases { input, output })
}

/// The value of an option, which stands after its name.
fn value<'a>(option: &[&'a str]) -> Result<&'a str, String> {
    let value = option.get(1).copied();
    value.ok_or_else(|| format!("a value is missing after `{}`", option[0]))
}

fn number(option: &[&str]) -> Result<u64, String> {
    let value = value(option)?;
    let number = value.parse();
    number.map_err(|_| format!("`{value}` after `{}` is no whole number", option[0]))
}

fn run(command: Command) -> Result<(), String> {
    match command {
        Command::Record { from, to } => record(from, to)?,
        Command::Show { from } => show(from)?,
        Command::Campaign(campaign) => println!("{}", campaign.run()?),
        Command::Bench => bench::run()?,
        Command::Purse => bench::purse()?,
        Command::Pairs => bench::pairs()?,
        Command::Cases { input, output } => write_cases(input, output)?,
        Command::Marks { program } => println!("{}", marks::run(program)?),
        Command::Lesson { program } => println!("{}", named_sheets::run(program)?),
        Command::Help => print!("{USAGE}"),
    }
    Ok(())
}

fn record(from: &str, to: &str) -> Result<(), String> {
    let words = String::from_utf8(read(from)?).map_err(|_| format!("{from}: not plain text"))?;
    let written = text::to_bytes(&words).map_err(|mistake| format!("{from}: {mistake}"))?;
    if let Some(complaint) = written.complaint() {
        eprintln!("warning: {from}: {complaint}");
    }
    write(to, &written.bytes)
}

fn show(from: &str) -> Result<(), String> {
    let bytes = read(from)?;
    print!(
        "{}",
        text::from_bytes(&bytes).map_err(|why| format!("{from}: {why}"))?
    );
    if let Err(fault) = Recording::read(&bytes) {
        eprintln!("warning: {from}: record {}: {fault}", fault.record);
    }
    Ok(())
}

fn write_cases(input: Option<&str>, output: Option<&str>) -> Result<(), String> {
    let cases = cases::all();
    let expected = cases::output(&cases)?;
    if let Some(path) = input {
        write(path, &cases::input(&cases))?;
    }
    match output {
        Some(path) => write(path, expected.as_bytes())?,
        None if input.is_none() => print!("{expected}"),
        None => (),
    }
    Ok(())
}

fn read(path: &str) -> Result<Vec<u8>, String> {
    fs::read(path).map_err(|error| format!("{path}: {error}"))
}

fn write(path: &str, bytes: &[u8]) -> Result<(), String> {
    fs::write(path, bytes).map_err(|error| format!("{path}: {error}"))
}

#[cfg(test)]
mod tests {
    use super::*;

    fn complaint(words: &[&str]) -> String {
        command(words).err().expect("a complaint")
    }

    #[test]
    fn what_is_missing_is_named() {
        let record = "\nusage: harness record TEXT RECORDING";
        let both = format!("record: missing TEXT and RECORDING{record}");
        assert_eq!(complaint(&["record"]), both);
        let one = format!("record: missing RECORDING{record}");
        assert_eq!(complaint(&["record", "drive.txt"]), one);
        let show = "show: missing RECORDING\nusage: harness show RECORDING";
        assert_eq!(complaint(&["show"]), show);
        let lesson = "lesson: missing PROGRAM\nusage: harness lesson PROGRAM";
        assert_eq!(complaint(&["lesson"]), lesson);
    }

    #[test]
    fn what_is_too_much_is_named() {
        let show = complaint(&["show", "a.rec", "b.rec"]);
        assert!(show.starts_with("show: `b.rec` is one argument too many\nusage: harness show"));
        let bench = "bench: `--fast` is one argument too many\nusage: harness bench";
        assert_eq!(complaint(&["bench", "--fast"]), bench);
    }

    #[test]
    fn wrong_options_are_named() {
        let usage = "usage: harness campaign [--seed N] [--seconds S] [--only CASE]";
        for (options, wrong) in [
            (&["--speed"][..], "`--speed` is no option"),
            (&["60"], "`60` is no option"),
            (&["--seed"], "a value is missing after `--seed`"),
            (
                &["--seed", "1.5"],
                "`1.5` after `--seed` is no whole number",
            ),
        ] {
            let words = [&["campaign"], options].concat();
            assert_eq!(complaint(&words), format!("campaign: {wrong}\n{usage}"));
        }
        let cases = "cases: a value is missing after `--write-input`\n\
            usage: harness cases [--write-input PATH] [--write-output PATH]";
        assert_eq!(complaint(&["cases", "--write-input"]), cases);
    }

    #[test]
    fn other_words_are_no_command() {
        let all = |first: &str| format!("{first}\n{USAGE}");
        assert_eq!(complaint(&[]), all("a command is missing"));
        assert_eq!(complaint(&["rec"]), all("`rec` is no command"));
    }

    #[test]
    fn options_are_read() {
        let words = ["campaign", "--only", "7", "--seconds", "60", "--seed", "3"];
        let Ok(Command::Campaign(campaign)) = command(&words) else {
            panic!("a campaign");
        };
        assert_eq!((campaign.seed, campaign.only), (3, Some(7)));
        assert_eq!(campaign.time, Duration::from_secs(60));
        let cases = command(&["cases", "--write-output", "out.txt"]);
        let (input, output) = (None, Some("out.txt"));
        assert!(
            matches!(cases, Ok(Command::Cases { input: i, output: o }) if (i, o) == (input, output))
        );
    }
}
