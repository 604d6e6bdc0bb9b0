//! Messages in tests/outside that other programs wrote: each is read as the text
//! beside it says, and written back to the same octets.

use second_reading::again::parts_of;
use second_reading::grid::from_catalogue;
use second_reading::*;
use std::path::PathBuf;

/// The messages, by name, each with its text.
fn messages() -> Vec<(String, Vec<u8>, String)> {
    let folder = PathBuf::from(env!("CARGO_MANIFEST_DIR")).join("tests/outside");
    let mut all = Vec::new();
    for entry in std::fs::read_dir(folder).expect("the folder") {
        let path = entry.expect("an entry").path();
        if path.extension().is_some_and(|end| end == "grb") {
            let name = path.file_stem().expect("a name").to_string_lossy();
            let text = std::fs::read_to_string(path.with_extension("txt")).expect("its text");
            all.push((
                name.to_string(),
                std::fs::read(&path).expect("octets"),
                text,
            ));
        }
    }
    assert!(!all.is_empty());
    all
}

/// The text that reading this message gives.
fn told(message: &[u8]) -> String {
    let n = header(message, &Lent::default()).points as usize;
    let mut values = vec![7; n];
    let mut marks = vec![7; n];
    let h = read(message, 0, &[], &mut values, &mut marks);
    let x = values.iter().zip(&marks).map(|(value, mark)| match mark {
        1 => format!(" {value}"),
        _ => " -".to_string(),
    });
    format!(
        "reply {}\npoints {} present {} D {} E {} R {:08x} N {}\nX{}\n",
        h.reply,
        h.points,
        h.present,
        h.d,
        h.e,
        h.r,
        h.bits,
        x.collect::<String>()
    )
}

#[test]
fn read_as_they_were_written() {
    for (name, message, text) in messages() {
        assert_eq!(told(&message), text, "{name}");
    }
}

#[test]
fn written_back_to_the_same_octets() {
    for (name, message, _) in messages() {
        let mut out = vec![0; message.len()];
        let parts = parts_of(&message, &Lent::default());
        assert_eq!(write(&parts, &mut out), (0, message.len() as u32));
        assert_eq!(out, message, "{name}");
    }
}

/// GDS octet 6, Ni and Nj, as the programs were asked to write them.
#[test]
fn each_kind_is_there() {
    let mut kinds: Vec<(u8, u16, u16)> = messages()
        .iter()
        .map(|(_, message, _)| header(message, &Lent::default()).grid)
        .map(|grid| (grid.kind, grid.ni, grid.nj))
        .collect();
    kinds.sort();
    assert_eq!(
        kinds,
        [
            (0, 65_535, 73),
            (0, 65_535, 73),
            (1, 12, 9),
            (3, 11, 7),
            (4, 128, 64),
            (5, 11, 7),
        ]
    );
}

/// Each octant names its own grid in PDS octet 7: the catalogue's is the same by
/// value, and without the GDS the same points are read. It has none of the other four.
#[test]
fn the_catalogue_has_the_octants() {
    for (name, message, text) in messages() {
        let h = header(&message, &Lent::default());
        if h.grid.rows == Rows::Even {
            assert_eq!(from_catalogue(message[8 + 6]), None, "{name}");
            continue;
        }
        assert_eq!(from_catalogue(message[8 + 6]), Some(h.grid), "{name}");
        let mut parts = parts_of(&message, &Lent::default());
        parts.form.grid = None;
        parts.pds[7] &= 0x7F;
        let mut out = vec![0; message.len() - 178];
        assert_eq!(write(&parts, &mut out), (0, out.len() as u32));
        assert_eq!(told(&out), text, "{name}");
    }
}
