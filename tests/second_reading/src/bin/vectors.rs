//! `vectors DIR` makes what the program crates `read_vectors`, `write_vectors` and
//! `cursor_vectors` are run on: in DIR/CRATE, data with the vectors' files, args with
//! the files' names, and stdout with the lines that must be written. And in DIR/tables
//! the tables of them, a page each, for tests/vectors.

use second_reading::vectors::{check, cursor, pack, read, write};
use std::fmt::Write;
use std::path::Path;
use std::process::ExitCode;

const ABOUT: &str = "Made by `tests/vectors/run --write`. How, and what the vectors are: \
    `docs/VECTORS.md`.";

/// A line of one of the tables.
struct Line {
    name: String,
    reply: u32,
    /// Of 20 to 23 the section and the place.
    stop: Option<(u32, u32)>,
    /// Of the cursor's vectors, what is told where nothing is refused.
    answer: Option<String>,
    rule: String,
}

/// A vector in a file, and the line that it must get.
struct Made {
    group: String,
    file: Vec<u8>,
    written: String,
}

/// The page of one of the five tables; what is read, checked and asked can be
/// refused by 20 to 23, whose section and place have a column.
fn page(title: &str, lines: &[Line]) -> Result<String, std::fmt::Error> {
    let mut text = format!("# {title}\n\n{ABOUT}\n");
    write!(text, "\n| reply | vectors |\n|---|---|\n")?;
    for reply in 0..=25 {
        let count = lines.iter().filter(|line| line.reply == reply).count();
        if count > 0 {
            writeln!(text, "| {reply} | {count} |")?;
        }
    }
    writeln!(text, "| all | {} |", lines.len())?;
    let stops = lines.iter().any(|line| line.stop.is_some());
    let answers = lines.iter().any(|line| line.answer.is_some());
    let (mut heading, mut rule) = (String::new(), String::new());
    for (is_there, name) in [(stops, "section, place"), (answers, "answer")] {
        if is_there {
            heading += &format!(" {name} |");
            rule += "---|";
        }
    }
    write!(
        text,
        "\n| vector | reply |{heading} rule, or what is special |\n|---|---|{rule}---|\n"
    )?;
    for line in lines {
        let Line { name, reply, .. } = line;
        let stop = match line.stop {
            Some((section, place)) => format!(" {section}, {place} |"),
            None if stops => " |".to_string(),
            None => String::new(),
        };
        let answer = match line.answer.as_deref() {
            Some("") => " |".to_string(),
            Some(answer) => format!(" {answer} |"),
            None => String::new(),
        };
        writeln!(text, "| `{name}` | {reply} |{stop}{answer} {} |", line.rule)?;
    }
    Ok(text)
}

/// The vectors of a table, each held to what is written by hand; the field that
/// names its file, and where of it a section and a place stand.
macro_rules! table {
    ($vectors:expr, $file:ident, $stop:expr) => {{
        let mut lines = Vec::new();
        let mut made = Vec::new();
        for vector in $vectors {
            if let Some(differs) = vector.disagreement() {
                return Err(std::io::Error::other(format!("{}: {differs}", vector.name)));
            }
            made.push(Made {
                group: vector.$file.to_string(),
                file: vector.file(),
                written: vector.line(),
            });
            lines.push(Line {
                stop: $stop(&vector),
                answer: None,
                name: vector.name,
                reply: vector.reply,
                rule: vector.rule,
            });
        }
        (lines, made)
    }};
}

/// The cursor's vectors: those of one message stand after it, so a file has as many things
/// as messages.
fn cursor_table() -> std::io::Result<(Vec<Line>, Vec<Made>)> {
    let vectors = cursor::table().vectors;
    let differs = |vector: &cursor::Vector| {
        let differs = vector.disagreement()?;
        Some(std::io::Error::other(format!("{}: {differs}", vector.name)))
    };
    if let Some(error) = vectors.iter().find_map(differs) {
        return Err(error);
    }
    let mut made = Vec::new();
    for same in vectors.chunk_by(|a, b| a.group == b.group && a.home == b.home) {
        let mut file = same[0].home.file();
        file.extend(&(same.len() as u32).to_be_bytes()[1..]);
        file.extend(same.iter().flat_map(|vector| vector.file()));
        made.push(Made {
            group: same[0].group.to_string(),
            file,
            written: same.iter().map(|vector| vector.line()).collect(),
        });
    }
    let line = |vector: cursor::Vector| Line {
        reply: vector.told.reply(),
        stop: vector.told.stop(),
        answer: Some(vector.told.answer()),
        name: vector.name,
        rule: vector.rule,
    };
    Ok((vectors.into_iter().map(line).collect(), made))
}

/// Puts a crate's files in place: the vectors of one group one after another in a
/// file, after how many they are where `counted`.
fn place(out: &str, made: &[Made], counted: bool) -> std::io::Result<()> {
    let data = format!("{out}/data");
    std::fs::create_dir_all(&data)?;
    let (mut args, mut stdout) = (String::new(), String::new());
    for group in made.chunk_by(|a, b| a.group == b.group) {
        let name = &group[0].group;
        let mut file = Vec::new();
        if counted {
            file.extend(&(group.len() as u32).to_be_bytes()[1..]);
        }
        for vector in group {
            file.extend(&vector.file);
            stdout.push_str(&vector.written);
        }
        args.push_str(&format!("{name}\n"));
        let path = format!("{data}/{name}");
        assert!(!Path::new(&path).exists(), "{name} stands twice");
        std::fs::write(path, file)?;
    }
    std::fs::write(format!("{out}/args"), args)?;
    std::fs::write(format!("{out}/stdout"), stdout)
}

fn run(out: &str) -> std::io::Result<()> {
    let (reading, read) = table!(read::table().vectors, name, |v: &read::Vector| v.stop);
    let (writing, mut written) = table!(write::table().vectors, group, |_: &_| None);
    let (checking, checked) = table!(check::table().vectors, group, |v: &check::Vector| v.stop);
    let (packing, packed) = table!(pack::table().vectors, group, |_: &_| None);
    let (asking, asked) = cursor_table()?;
    written.extend(checked);
    written.extend(packed);
    place(&format!("{out}/read_vectors"), &read, false)?;
    place(&format!("{out}/write_vectors"), &written, true)?;
    place(&format!("{out}/cursor_vectors"), &asked, true)?;
    let tables = format!("{out}/tables");
    std::fs::create_dir_all(&tables)?;
    for (name, lines) in [
        ("Reading", reading),
        ("Writing", writing),
        ("Checking", checking),
        ("Packing", packing),
        ("Cursor", asking),
    ] {
        let text = page(name, &lines).map_err(std::io::Error::other)?;
        std::fs::write(format!("{tables}/{}.md", name.to_uppercase()), text)?;
    }
    Ok(())
}

fn main() -> ExitCode {
    let words: Vec<String> = std::env::args().skip(1).collect();
    let [out] = words.as_slice() else {
        eprintln!("usage: vectors DIR");
        return ExitCode::FAILURE;
    };
    match run(out) {
        Ok(()) => ExitCode::SUCCESS,
        Err(error) => {
            eprintln!("{error}");
            ExitCode::FAILURE
        }
    }
}
