//! The man page, of what the command line says of itself.

use crate::cli::STATUSES;
use crate::numbers::advice;
use clap::{Arg, Command};
use fungalcove::Refusal;
use std::io::{self, Write};

pub fn print(out: &mut impl Write, command: &Command) -> io::Result<()> {
    let (name, about) = (command.get_name(), said(command.get_about()));
    writeln!(out, ".TH FUNGAL 1 \"\" \"fungal {}\"", command.get_version().unwrap_or(""))?;
    writeln!(out, ".SH NAME\n{} \\- {}", name, escaped(&about))?;
    writeln!(out, ".SH SYNOPSIS\n.B {}\n.I COMMAND\n.RI [ ARGUMENTS ]", name)?;
    section(out, "DESCRIPTION", &said(command.get_long_about()))?;
    writeln!(out, ".SH COMMANDS")?;
    for command in command.get_subcommands() {
        subcommand(out, command)?;
    }
    writeln!(out, ".SH NUMBERS")?;
    for (number, words) in Refusal::table() {
        tagged(out, &number.to_string(), &format!("{}: {}", words, advice(number)))?;
    }
    section(out, "EXIT STATUS", STATUSES)
}

fn subcommand(out: &mut impl Write, command: &Command) -> io::Result<()> {
    let usage: Vec<String> = command.get_arguments().map(usage).collect();
    writeln!(out, ".SS \"fungal {} {}\"", command.get_name(), escaped(&usage.join(" ")).replace('"', "\\(dq"))?;
    text(out, &said(command.get_long_about()))?;
    for argument in command.get_arguments() {
        tagged(out, &usage_of(argument), &said(argument.get_help()))?;
    }
    Ok(())
}

/// As in `[--admit VERSION]` or `FILE..`.
fn usage(argument: &Arg) -> String {
    if argument.is_required_set() {
        usage_of(argument)
    } else {
        format!("[{}]", usage_of(argument))
    }
}

fn usage_of(argument: &Arg) -> String {
    let many = argument.get_num_args().map_or(false, |range| range.max_values() > 1);
    let takes_value = argument.get_action().takes_values();
    let value = argument.get_value_names().filter(|_| takes_value).map(|names| names[0].to_string());
    let short = argument.get_short().map(|short| format!("-{},", short));
    let long = argument.get_long().map(|long| format!("--{}", long));
    let words: Vec<String> = [short, long, value].into_iter().flatten().collect();
    words.join(" ") + if many { ".." } else { "" }
}

fn said(text: Option<&clap::builder::StyledStr>) -> String {
    text.map_or(String::new(), |text| text.to_string())
}

fn section(out: &mut impl Write, heading: &str, words: &str) -> io::Result<()> {
    writeln!(out, ".SH {}", heading)?;
    text(out, words)
}

fn tagged(out: &mut impl Write, tag: &str, words: &str) -> io::Result<()> {
    writeln!(out, ".TP\n.B \"{}\"\n{}", escaped(tag), escaped(words))
}

/// Paragraphs; lines that start with blanks, as examples do, stay as they are.
fn text(out: &mut impl Write, words: &str) -> io::Result<()> {
    for paragraph in words.split("\n\n") {
        writeln!(out, ".PP")?;
        for line in paragraph.lines() {
            match line.strip_prefix("  ") {
                Some(example) => writeln!(out, ".RS\n.nf\n{}\n.fi\n.RE", escaped(example))?,
                None => writeln!(out, "{}", escaped(line))?,
            }
        }
    }
    Ok(())
}

/// Backslashes and hyphens as characters; a dot or an apostrophe at a line's start is no request.
fn escaped(words: &str) -> String {
    let words = words.replace('\\', "\\e").replace('-', "\\-");
    if words.starts_with(['.', '\'']) {
        format!("\\&{}", words)
    } else {
        words
    }
}
