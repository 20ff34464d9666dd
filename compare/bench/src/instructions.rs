//! Instructions of one answer, counted by callgrind.

use std::process::Command;

/// Two runs differ in nothing but how many answers they give, so their
/// difference has nothing else in it: neither what the program does before nor
/// what a first answer alone has to do.
const FEW: u64 = 1;
const MORE: u64 = 3;

/// callgrind counts every repetition of a string instruction, so a C library
/// that clears memory with one would seem to need an instruction for each byte.
/// This has it use vectors; other C libraries don't know the name.
const PLAIN_CLEARING: (&str, &str) = (
    "GLIBC_TUNABLES",
    "glibc.cpu.x86_rep_stosb_threshold=1000000000",
);

/// Instructions of one answer of this implementation to this workload, which is
/// named as for `--only`. None where there is no valgrind.
pub fn of_one(workload: &str, name: &str) -> Option<u64> {
    let few = collected(workload, name, FEW)?;
    let more = collected(workload, name, MORE)?;
    Some(more.checked_sub(few)? / (MORE - FEW))
}

fn collected(workload: &str, name: &str, times: u64) -> Option<u64> {
    let output = Command::new("valgrind")
        .args(["--tool=callgrind", "--callgrind-out-file=/dev/null"])
        .arg(std::env::current_exe().ok()?)
        .env(PLAIN_CLEARING.0, PLAIN_CLEARING.1)
        .args(["--only", workload, name, &times.to_string()])
        .output()
        .ok()?;
    let said = String::from_utf8_lossy(&output.stderr);
    let line = said.lines().find(|line| line.contains("Collected"))?;
    let (_, number) = line.rsplit_once(':')?;
    number.trim().parse().ok()
}
