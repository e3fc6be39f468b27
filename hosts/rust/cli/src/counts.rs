//! The counts on MASTER: a line with the true ones, and which of a line are not.

use station::{Counts, Tally};

/// The counts in the order of the columns, five to each from column 11 on; those without a name are always 0.
const NAMES: [&str; 12] =
    ["REMARK", "", "HET", "HELIX", "SHEET", "", "", "ORIGX and SCALE", "ATOM and HETATM", "TER", "CONECT", "SEQRES"];

/// The counts in the order of the columns.
fn due(counts: &Counts) -> [u64; 12] {
    let Counts { remark, het, helix, sheet, xform, coord, ter, conect, seq } = *counts;
    [remark, 0, het, helix, sheet, 0, 0, xform, coord, ter, conect, seq]
}

/// These counts and those of a tally together.
pub fn with(counts: &Counts, tally: &Tally) -> Counts {
    let sum = |count: u64, more: u32| count + u64::from(more);
    Counts {
        remark: sum(counts.remark, tally.remark),
        het: sum(counts.het, tally.het),
        helix: sum(counts.helix, tally.helix),
        sheet: sum(counts.sheet, tally.sheet),
        xform: sum(counts.xform, tally.xform),
        coord: sum(counts.coord, tally.coord),
        ter: sum(counts.ter, tally.ter),
        conect: sum(counts.conect, tally.conect),
        seq: sum(counts.seq, tally.seq),
    }
}

/// The MASTER line of these counts, unless one of them is too large for it.
pub fn master(counts: &Counts) -> Option<[u8; 80]> {
    let columns: String = due(counts).iter().map(|count| format!("{count:5}")).collect();
    format!("{:80}", format!("MASTER    {columns}")).into_bytes().try_into().ok().filter(|_| columns.len() == 60)
}

/// Where the counts on a MASTER line that reads by itself are not these. In an entry with models the coordinates and TER lines
/// are counted in the first alone.
pub fn wrong(line: &[u8; 80], counts: &Counts, models: bool) -> Option<String> {
    let columns = line[10..70].chunks(5).map(|columns| String::from_utf8_lossy(columns).trim_start().to_owned());
    let wrong: Vec<String> = columns
        .zip(NAMES.iter().zip(due(counts)))
        .filter(|(is, (_, due))| *is != due.to_string())
        .map(|(is, (name, due))| {
            let place = if models && matches!(*name, "ATOM and HETATM" | "TER") { " in the first model" } else { "" };
            format!("the count of {name} is {is}, and there are {due}{place}")
        })
        .collect();
    (!wrong.is_empty()).then(|| wrong.join("\n  "))
}

#[cfg(test)]
mod tests {
    use super::*;

    #[test]
    fn each_count_has_its_columns() {
        let text = format!("{:80}", "MASTER       40    0    1    2    3    0    0    6  768    5   20   18");
        let line: &[u8; 80] = text.as_bytes().try_into().expect("80 columns");
        let counts =
            Counts { remark: 40, het: 1, helix: 2, sheet: 3, xform: 6, coord: 768, ter: 5, conect: 20, seq: 18 };
        assert_eq!(wrong(line, &counts, false), None);
        assert_eq!(master(&counts).as_ref(), Some(line));
        assert_eq!(master(&Counts { seq: 100_000, ..counts }), None);
        assert_eq!(
            wrong(line, &Counts { ter: 4, ..counts }, false).as_deref(),
            Some("the count of TER is 5, and there are 4")
        );
        assert_eq!(
            wrong(line, &Counts { coord: 9, ..counts }, true).as_deref(),
            Some("the count of ATOM and HETATM is 768, and there are 9 in the first model")
        );
        let two = wrong(line, &Counts { xform: 0, seq: 17, ..counts }, true);
        assert_eq!(
            two.as_deref(),
            Some("the count of ORIGX and SCALE is 6, and there are 0\n  the count of SEQRES is 18, and there are 17")
        );
    }
}
