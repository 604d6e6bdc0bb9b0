//! For each misreading that document 01 names, vectors that would come out
//! otherwise.

use super::Table;
use crate::vectors::messages::{flat, hex, plain, row, set_length, specimen};

pub fn add(table: &mut Table) {
    signs(table);
    absent(table);
    north(table);
    longer(table);
    numbers(table);
}

/// "Reading a sign bit as two's complement."
fn signs(table: &mut Table) {
    table
        .add(
            0,
            "misread-sign-d",
            "D 80 02 is -2; as two's complement -32,766",
            specimen().pds(27, &hex("8002")).message(),
        )
        .says("D", -2);
    table
        .add(
            0,
            "misread-sign-d-far",
            "D FF FE is -32,766; as two's complement -2",
            specimen().pds(27, &hex("FFFE")).message(),
        )
        .says("D", -32_766);
    table
        .add(
            0,
            "misread-sign-e",
            "E 80 03 is -3; as two's complement -32,765",
            specimen().bds(5, &hex("8003")).message(),
        )
        .says("E", -3);
    table
        .add(
            0,
            "misread-sign-latitude",
            "La1 80 00 01 is -1; as two's complement -8,388,607, refused by 9",
            plain().gds(11, &hex("800001")).message(),
        )
        .says("La1", -1);
    table
        .add(
            0,
            "misread-sign-longitude",
            "Lo1 80 07 D0 is -2,000; as two's complement -8,386,608, refused by 9",
            plain().gds(14, &hex("8007D0")).message(),
        )
        .says("Lo1", -2_000);
    table.add(
        9,
        "misread-sign-latitude-far",
        "9: La1 FF FF FF is -8,388,607; as two's complement -1, accepted",
        plain().gds(11, &hex("FFFFFF")).message(),
    );
    table.add(
        9,
        "misread-sign-longitude-far",
        "9: Lo2 FF FF FF is -8,388,607; as two's complement -1, accepted",
        plain().gds(21, &hex("FFFFFF")).message(),
    );
    table.add(
        9,
        "misread-sign-scan-test",
        "9: La1 -1 to La2 -2 runs south; as two's complement it runs north, were the magnitudes not judged",
        flat(2, 2)
            .gds(11, &hex("800001"))
            .gds(18, &hex("800002"))
            .message(),
    );
}

/// "Giving an absent point the reference value."
fn absent(table: &mut Table) {
    table
        .add(
            0,
            "misread-absent",
            "an absent point has mark 0 and no value; with the reference value it would be X = 0, present",
            row(4, "1011", 0, "").message(),
        )
        .says("present", 3)
        .points(&[Some(0), None, Some(0), Some(0)]);
    table
        .add(
            0,
            "misread-absent-and-zero",
            "X = 0 at a present point beside an absent one",
            row(4, "0101", 4, "0000 1001").message(),
        )
        .says("present", 2)
        .points(&[None, Some(0), None, Some(9)]);
    table
        .add(
            0,
            "misread-all-absent",
            "no point has the reference value",
            row(4, "0000", 0, "").message(),
        )
        .says("present", 0)
        .points(&[None; 4]);
}

/// "Drawing the first row north whatever octet 28 says."
fn north(table: &mut Table) {
    let six = || row(6, "", 4, "0001 0010 0011 0100 0101 0110").gds(7, &hex("0003 0002"));
    table
        .add(0, "misread-north", "octet 28 bit 2: rows run north, so the first row is the chart's row 1; drawn north it would be row 0", six().message())
        .says("scan", 64)
        .says("row of point 0", 1);
    table
        .add(
            0,
            "misread-north-not",
            "octet 28 bit 2 clear: the first row is the chart's row 0",
            six()
                .gds(28, &[0])
                .gds(11, &hex("00C738"))
                .gds(18, &hex("00C350"))
                .message(),
        )
        .says("scan", 0)
        .says("row of point 0", 0);
}

/// "Assuming a 28-octet PDS."
fn longer(table: &mut Table) {
    for (name, length) in [("misread-pds-30", 30), ("misread-pds-1024", 1_024)] {
        let mut sections = specimen();
        sections.pds.resize(length, 0);
        set_length(&mut sections.pds, length);
        let rule =
            "the GDS follows the PDS; looked for at octet 37 it would have length 0, refused by 21";
        table
            .add(0, name, rule, sections.message())
            .points(&[Some(0), Some(2), None, Some(7)]);
    }
    // octets 29-60 of the PDS look like a grid section of 1 x 3 points
    let mut sections = plain();
    sections.pds.extend(flat(1, 3).gds);
    set_length(&mut sections.pds, 60);
    table
        .add(
            0,
            "misread-pds-like-a-grid",
            "what looks like a GDS at octet 37 is PDS; taken for the grid it would have 3 points",
            sections.message(),
        )
        .says("points", 4)
        .points(&[Some(0), Some(2), Some(5), Some(7)]);
    // after a PDS of 30 octets the announced sections are all there
    let mut sections = flat(3, 1);
    sections.pds.extend([0xFF, 0xFF]);
    set_length(&mut sections.pds, 30);
    table
        .add(
            0,
            "misread-pds-30-no-bits",
            "a PDS of 30 octets; a length of 16,776,960 would be read at octet 37",
            sections.message(),
        )
        .says("points", 3);
}

/// "Using a grid point's number to find its data bits."
fn numbers(table: &mut Table) {
    table
        .add(
            0,
            "misread-grid-number",
            "data numbers count present points: point 1 has the first value; by its grid number it would have the second",
            row(4, "0101", 8, "00010001 00100010").message(),
        )
        .points(&[None, Some(0x11), None, Some(0x22)]);
    table
        .add(
            0,
            "misread-grid-number-later",
            "the first grid point need not be the first data point",
            row(10, "0000000011", 4, "1010 0101").message(),
        )
        .points(&[
            None,
            None,
            None,
            None,
            None,
            None,
            None,
            None,
            Some(10),
            Some(5),
        ]);
    table.add(
        12,
        "misread-grid-number-data",
        "12: data for every grid point, as that misreading would want them",
        row(4, "0101", 8, "00000000 00010001 00000000 00100010").message(),
    );
}
