//! The listing program.

use crate::grid::{layout, points_in_row};
use crate::read::read;
use crate::Rows;

/// The listing program's whole output for what it finds on standard input.
/// Every line ends with a newline.
pub fn listing(input: &[u8]) -> String {
    // "reads one message of at most 32,768 octets from standard input (longer:
    // reply 1)"
    if input.len() > 32_768 {
        return "refused 1\n".to_string();
    }
    // "It lends room for 4,096 points (more: reply 14) and no stored bitmap."
    let mut values = vec![0; 4_096];
    let mut marks = vec![0; 4_096];
    let header = read(input, 0, &[], &mut values, &mut marks);
    // "A refusal prints `refused` and its number": the number alone, of 20 to 23
    // too.
    if header.reply != 0 {
        return format!("refused {}\n", header.reply);
    }
    // "The listing's columns are then 0."
    let columns = match header.grid.rows {
        Rows::Even => header.grid.ni,
        _ => 0,
    };
    // "Line 1: points, present, columns, rows, D, E, R as eight hex digits, N."
    let mut text = format!(
        "{} {} {columns} {} {} {} {:08x} {}\n",
        header.points, header.present, header.grid.nj, header.d, header.e, header.r, header.bits
    );
    // "Then a line per chart row from north, X per column, `-` for absent. One
    // space stands between fields."
    let mut chart: Vec<Vec<String>> = (0..header.grid.nj as u32)
        .map(|row| vec![String::new(); points_in_row(&header.grid, row) as usize])
        .collect();
    for (point, &(row, column)) in layout(&header.grid).iter().enumerate() {
        chart[row as usize][column as usize] = if marks[point] == 1 {
            values[point].to_string()
        } else {
            "-".to_string()
        };
    }
    for row in chart {
        text.push_str(&row.join(" "));
        text.push('\n');
    }
    text
}
