//! Vertex surfaces of many triangulations, in as many threads as there are processors: a line `SIGNATURE SURFACES` each.
//!
//!     cargo run --release --example census -- FILE_OF_SIGNATURES
use std::io::{self, Write};
use std::{env, fs, thread};
use trinorm::{run, Status};

fn line_of(signature: &str) -> String {
    match run(&["surfaces"], format!("sig {signature}\n").as_bytes()) {
        Ok(answer) if answer.status == Status::Done => {
            let surfaces = answer
                .text
                .split(|it| *it == b'\n')
                .filter(|it| it.starts_with(b"vec"));
            format!("{signature} {}", surfaces.count())
        }
        Ok(answer) => format!(
            "{signature} {}",
            String::from_utf8_lossy(&answer.text).trim_end()
        ),
        Err(fault) => format!("{signature} {fault}"),
    }
}

fn main() -> io::Result<()> {
    let path = env::args().nth(1).expect("a file of signatures");
    let file = fs::read_to_string(path)?;
    let signatures: Vec<&str> = file
        .lines()
        .filter_map(|it| it.split_whitespace().next())
        .filter(|it| !it.starts_with('#'))
        .collect();
    let jobs = thread::available_parallelism()?.get();
    let share = ((signatures.len() + jobs - 1) / jobs).max(1);
    thread::scope(|scope| {
        let parts: Vec<_> = signatures
            .chunks(share)
            .map(|part| scope.spawn(|| part.iter().map(|it| line_of(it)).collect::<Vec<_>>()))
            .collect();
        let mut out = io::stdout().lock();
        for part in parts {
            for line in part.join().expect("a thread ends") {
                writeln!(out, "{line}")?;
            }
        }
        Ok(())
    })
}
