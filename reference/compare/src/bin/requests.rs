//! Compares join, insert, grant, revoke, leave, view and open.

use std::process::ExitCode;

use fenstubble_compare::{command, requests};

fn main() -> ExitCode {
    command::run("requests", 200_000, requests::run)
}
