//! Parses lists of words with the real clap. A line of standard input is a list of words, each an `x` and its bytes in
//! hexadecimal; a line of standard output has the fields of the list, or `refused`.

use clap::{value_parser, Arg, ArgAction, Command};
use std::ffi::OsString;
use std::io::{self, BufRead, Write};
use std::os::unix::ffi::{OsStrExt, OsStringExt};

fn flag(name: &'static str) -> Arg {
    Arg::new(name).long(name).action(ArgAction::SetTrue)
}

fn option(name: &'static str) -> Arg {
    Arg::new(name).long(name).action(ArgAction::Set)
}

fn command() -> Command {
    Command::new("units")
        .no_binary_name(true)
        .disable_help_flag(true)
        .disable_version_flag(true)
        .arg(option("digits").short('d').value_parser(value_parser!(u8).range(1..=36)))
        .arg(flag("exact"))
        .arg(flag("one-line").short('1'))
        .arg(flag("compact"))
        .arg(flag("terse").short('t'))
        .arg(flag("quiet").short('q'))
        .arg(flag("strict").short('s'))
        .arg(flag("round").short('r'))
        .arg(flag("verbose").short('v'))
        .arg(flag("check").short('c'))
        .arg(option("column").value_parser(value_parser!(u16).range(1..)))
        .arg(flag("header"))
        .arg(option("file").short('f'))
        .arg(option("locale").short('l'))
        .arg(option("trial").value_parser(value_parser!(u16).range(1..=20000)))
        .arg(Arg::new("from").action(ArgAction::Set))
        .arg(Arg::new("to").action(ArgAction::Set))
}

fn bytes_of(word: &str) -> Vec<u8> {
    let digits = word[1..].as_bytes();
    digits
        .chunks(2)
        .map(|pair| u8::from_str_radix(std::str::from_utf8(pair).unwrap(), 16).unwrap())
        .collect()
}

fn text(bytes: &[u8]) -> String {
    let digits: String = bytes.iter().map(|b| format!("{b:02x}")).collect();
    format!("x{digits}")
}

fn fields(words: Vec<OsString>) -> String {
    let Ok(matches) = command().try_get_matches_from(words) else {
        return "refused".to_string();
    };
    let mut fields = Vec::new();
    for name in [
        "exact", "one-line", "compact", "terse", "quiet", "strict", "round", "verbose", "check",
        "header",
    ] {
        if matches.get_flag(name) {
            fields.push(name.to_string());
        }
    }
    for name in ["file", "locale", "from", "to"] {
        if let Some(value) = matches.get_one::<String>(name) {
            fields.push(format!("{name}={}", text(OsString::from(value).as_bytes())));
        }
    }
    if let Some(digits) = matches.get_one::<u8>("digits") {
        fields.push(format!("digits={digits}"));
    }
    for name in ["trial", "column"] {
        if let Some(number) = matches.get_one::<u16>(name) {
            fields.push(format!("{name}={number}"));
        }
    }
    fields.join(" ")
}

fn main() {
    let mut out = io::BufWriter::new(io::stdout().lock());
    for line in io::stdin().lock().lines() {
        let line = line.unwrap();
        let words = line.split_whitespace().map(|word| OsString::from_vec(bytes_of(word)));
        writeln!(out, "{}", fields(words.collect())).unwrap();
    }
}
