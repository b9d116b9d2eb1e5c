//! Writes the file of cases, or has it done again.
//!
//! `cases > cases.txt` writes it; `cases --check FILE` has this program do
//! every case of a file again and, where an archive is linked, the archive too.
//! The format, in short: one case a line, `#` lines apart; kind letter, lists
//! (count, then figures), expected number, figure (three for a question), and a
//! checksum of the words at exit. The whole of it stands in `src/cases.rs`.

use second::cases;
use second::clerk::Plain;
use std::process::ExitCode;

fn main() -> ExitCode {
    let given: Vec<String> = std::env::args().skip(1).collect();
    match given.as_slice() {
        [] => {
            print!("{}", cases::write());
            ExitCode::SUCCESS
        }
        [option, path] if option == "--check" => check(path),
        _ => {
            eprintln!("usage: cases > FILE, or cases --check FILE");
            ExitCode::from(2)
        }
    }
}

fn check(path: &str) -> ExitCode {
    let file = match std::fs::read_to_string(path) {
        Ok(file) => file,
        Err(why) => {
            eprintln!("{path}: {why}");
            return ExitCode::from(2);
        }
    };
    let clerks: &[(&str, &dyn second::clerk::Clerk)] = &[
        ("this program", &Plain),
        #[cfg(interface)]
        ("the archive", &second::interface::Interface),
    ];
    for (name, clerk) in clerks {
        match cases::check(*clerk, &file) {
            Ok(done) => println!("{name}: {done} cases as on file"),
            Err(what) => {
                println!("{name}: {what}");
                return ExitCode::from(1);
            }
        }
    }
    ExitCode::SUCCESS
}
