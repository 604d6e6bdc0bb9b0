//! `cases --seed S --count N --out DIR [--small]` writes read.antt, write.antt,
//! check.antt, pack.antt and cursor.antt into DIR, N cases in each. With `--small`
//! no message of a catalogue grid or another grid of many points is taken.

use second_reading::antt;
use second_reading::cases::{
    check_case, cursor_case, pack_case, read_case, write_case, Histogram, Size,
};
use std::process::ExitCode;

struct Asked {
    seed: u64,
    count: usize,
    out: String,
    size: Size,
}

fn asked() -> Option<Asked> {
    let mut asked = Asked {
        seed: 1,
        count: 100,
        out: String::new(),
        size: Size::Short,
    };
    let mut words = std::env::args().skip(1);
    while let Some(word) = words.next() {
        match word.as_str() {
            "--seed" => asked.seed = words.next()?.parse().ok()?,
            "--count" => asked.count = words.next()?.parse().ok()?,
            "--out" => asked.out = words.next()?,
            "--small" => asked.size = Size::Small,
            _ => return None,
        }
    }
    (!asked.out.is_empty()).then_some(asked)
}

fn file(
    asked: &Asked,
    name: &str,
    statements: impl Fn(usize) -> (String, Vec<u32>),
) -> std::io::Result<()> {
    let mut text = antt::opening(asked.seed);
    let mut histogram = Histogram::default();
    for k in 0..asked.count {
        let (more, replies) = statements(k);
        text.push_str(&more);
        for reply in replies {
            histogram.count(reply);
        }
    }
    std::fs::write(format!("{}/{name}.antt", asked.out), text)?;
    eprintln!("{name}: {histogram}");
    Ok(())
}

/// The statements of a case that makes one call.
fn of_one((text, reply): (String, u32)) -> (String, Vec<u32>) {
    (text, vec![reply])
}

fn run(asked: &Asked) -> std::io::Result<()> {
    std::fs::create_dir_all(&asked.out)?;
    let (seed, size) = (asked.seed, asked.size);
    file(asked, "read", |k| {
        of_one(antt::read_statements(k, &read_case(seed, k, size)))
    })?;
    file(asked, "write", |k| {
        of_one(antt::write_statements(k, &write_case(seed, k, size)))
    })?;
    file(asked, "check", |k| {
        of_one(antt::check_statements(k, &check_case(seed, k, size)))
    })?;
    file(asked, "pack", |k| {
        of_one(antt::pack_statements(k, &pack_case(seed, k, size)))
    })?;
    file(asked, "cursor", |k| {
        antt::cursor_statements(k, &cursor_case(seed, k, size))
    })
}

fn main() -> ExitCode {
    let Some(asked) = asked() else {
        eprintln!("usage: cases --seed S --count N --out DIR [--small]");
        return ExitCode::FAILURE;
    };
    match run(&asked) {
        Ok(()) => ExitCode::SUCCESS,
        Err(error) => {
            eprintln!("{error}");
            ExitCode::FAILURE
        }
    }
}
