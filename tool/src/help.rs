//! `fungal help`: a command, the numbers, or the man page.

use crate::failure::{Failure, Status};
use crate::{cli, man, numbers};
use clap::ArgMatches;
use std::io;

pub fn run(asked: &ArgMatches) -> Result<Status, Failure> {
    let mut out = io::stdout().lock();
    let mut command = cli::command();
    match asked.get_one::<String>("topic").map(String::as_str) {
        None => command.print_long_help()?,
        Some("numbers") => numbers::print(&mut out)?,
        Some("man") => man::print(&mut out, &command)?,
        Some(name) => match command.find_subcommand_mut(name) {
            Some(found) => found.clone().bin_name(format!("fungal {}", name)).print_long_help()?,
            None => {
                let words = format!(
                    "`{}` is no command; `fungal help` lists them, and `fungal help numbers` the numbers",
                    name
                );
                return Err(Failure::Said(words));
            }
        },
    }
    Ok(Status::Good)
}
