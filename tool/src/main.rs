//! fungal: what people ask of NetCDF-3 files. Every answer about a file comes from the proved library, by the crate `fungalcove`.

#![forbid(unsafe_code)]

mod brief;
mod cdl;
mod check;
mod cli;
mod compare;
mod convert;
mod explain;
mod failure;
mod folders;
mod held;
mod help;
mod input;
mod json;
mod lonely;
mod man;
mod numbers;
mod partial;
mod plot;
mod progress;
mod show;
mod stat;
mod suspect;
mod values;

use clap::ArgMatches;
use failure::{Failure, Status};
use std::process::ExitCode;

fn main() -> ExitCode {
    let ended = match cli::command().get_matches().subcommand() {
        Some((name, asked)) => run(name, asked),
        None => Ok(Status::Failed),
    };
    match ended {
        Ok(status) => status.into(),
        Err(failure) => {
            failure.report();
            failure.status().into()
        }
    }
}

fn run(name: &str, asked: &ArgMatches) -> Result<Status, Failure> {
    match name {
        "check" => check::run(asked),
        "show" => show::run(asked),
        "explain" => explain::run(asked),
        "widen" => convert::widen(asked),
        "narrow" => convert::narrow(asked),
        "compare" => compare::run(asked),
        "suspect" => suspect::run(asked),
        _ => help::run(asked),
    }
}
