// The messages that crates/list_cases lists, listed here by rows: the text is the same.
use grib1::{Message, Projection, Refusal, Stored};
use std::fmt::Write;
use std::fs;
use std::path::Path;

// Document 01's listing program: at most 32,768 octets, room for 4,096 points.
fn listing(octets: &[u8]) -> String {
    listed(octets).unwrap_or_else(|refusal| format!("refused {refusal}\n"))
}

fn listed(octets: &[u8]) -> Result<String, u32> {
    if octets.len() > 32768 {
        return Err(1);
    }
    let reply = |r: Refusal| r.reply;
    let message = Message::new(octets, Stored::NONE).map_err(reply)?;
    let (mut values, mut marks) = (vec![0; 4096], vec![0; 4096]);
    let field = message.read(&mut values, &mut marks).map_err(reply)?;
    let h = field.header();
    // of a thinned grid, document 02: "The listing's columns are then 0"
    let columns = if matches!(h.grid.projection, Projection::Thinned { .. }) { 0 } else { h.grid.ni };
    let rows = h.grid.nj;
    let mut text = format!("{} {} {columns} {rows} {} {} {:08x} {}\n", h.points, h.present, h.d, h.e, h.r, h.bits);
    for row in field.rows() {
        let cells: Vec<String> = row.map(|x| x.map_or("-".to_string(), |x| x.to_string())).collect();
        writeln!(text, "{}", cells.join(" ")).unwrap();
    }
    Ok(text)
}

#[test]
fn as_list_cases() {
    let crate_folder = Path::new(env!("CARGO_MANIFEST_DIR")).join("../crates/list_cases");
    let mut text = String::new();
    for name in fs::read_to_string(crate_folder.join("args")).unwrap().lines() {
        let octets = fs::read(crate_folder.join("data").join(name)).unwrap();
        write!(text, "== {name}\n{}", listing(&octets)).unwrap();
    }
    assert!(text == fs::read_to_string(crate_folder.join("stdout")).unwrap());
}
