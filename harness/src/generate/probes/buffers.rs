//! Lengths of the sheet and of the buffers, and how a sheet ends.

use super::{leaf, probe, SheetProbe};
use crate::generate::sheets::filling;
use crate::generate::tree::Tree;
use crate::limits::{SHEET_BYTES, WORK_BYTES};

/// A sheet of exactly so many bytes.
fn sized_sheet(bytes: usize) -> Vec<u8> {
    let mut tree = Tree::default();
    tree.clauses = filling(bytes - tree.text().len());
    tree.text()
}

pub(super) fn buffers(probes: &mut Vec<SheetProbe>) {
    let small = Tree::returning(vec![leaf("null", &[])]).text();
    let report = "T,B,\nend,1,0\n".len();
    probes.push(probe("sheet full", sized_sheet(SHEET_BYTES), 0, 0));
    probes.push(probe("sheet over", sized_sheet(SHEET_BYTES + 1), 1, 0));
    let long = vec![b'\n'; SHEET_BYTES + 1];
    for work in [0, 1, WORK_BYTES - 1, WORK_BYTES + 1] {
        let mut p = probe("work area", small.clone(), 2, 0);
        p.work = work;
        probes.push(p.clone());
        p.name = "sheet before work area".into();
        p.sheet = long.clone();
        p.number = 1;
        probes.push(p);
        let mut p = probe("work area before reading", b"x\n".to_vec(), 2, 0);
        p.work = work;
        probes.push(p);
    }
    for (out, number) in [(report, 0), (report + 1, 0), (report - 1, 7), (0, 7)] {
        let mut p = probe("output", small.clone(), number, 0);
        p.out = out;
        probes.push(p);
    }
    let mut p = probe("3 before 7", b"cyrs,1\nx\n".to_vec(), 3, 2);
    p.out = 0;
    probes.push(p);
}

pub(super) fn endings(probes: &mut Vec<SheetProbe>) {
    let cases: [(&str, u32, u64); 27] = [
        ("", 3, 1),
        ("\n", 3, 1),
        ("cyrs,1", 3, 1),
        ("cyrs,1\n", 3, 2),
        ("cyrs,2\n", 4, 1),
        ("cyrs,1\nend", 3, 2),
        ("cyrs,1\nend\n", 0, 0),
        ("cyrs,1\nend\n\n", 3, 3),
        ("cyrs,1\nend\nx", 3, 3),
        ("cyrs,1\nend\nend\n", 3, 3),
        ("cyrs,1\nend,\n", 3, 2),
        ("cyrs,1\r\nend\n", 3, 1),
        (" cyrs,1\nend\n", 3, 1),
        ("CYRS,1\nend\n", 3, 1),
        ("cyrs,1\n\nend\n", 3, 2),
        ("cyrs,1\nwhe\nend\n", 3, 3),
        ("cyrs,1\nwhe\n", 3, 3),
        ("cyrs,1\nwhe\nnull", 3, 3),
        ("cyrs,1\nwhe\nnull\nnull\nend\n", 3, 4),
        ("cyrs,1\nret,0,2\npro,-\nnull\nend\n", 3, 5),
        ("cyrs,1\nb,1,N\nb,1,N\nend\n", 3, 3),
        ("cyrs,1\nb,1,N\nb,0,N\nend\n", 3, 3),
        ("cyrs,1\nb,1,N\nb,2,R\nend\n", 0, 0),
        ("cyrs,1\nb,1,N\nb,0,X\nend\n", 3, 3),
        ("cyrs,1\nb,1,N\nb,4294967296,X\nend\n", 4, 3),
        ("cyrs,1\nset,0\nb,1,N\nend\n", 3, 3),
        ("cyrs,1\nb,4294967295,V\nend\n", 0, 0),
    ];
    for (sheet, number, place) in cases {
        probes.push(probe(
            format!("ending {sheet:?}"),
            sheet.as_bytes().to_vec(),
            number,
            place,
        ));
    }
}
