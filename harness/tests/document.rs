//! The cases and the whole example (RULES 9.2, 6.3), mistakes that read naturally, each fault, and the open points that were decided.

use cyrs_harness::calls::{sheet_call, unify_call};
use cyrs_harness::limits::{DEPTH, TYPESHEET_OUT_BYTES, WORK_BYTES};

/// Number, first returned number, and what stands at the front of the output.
fn typed(sheet: &str) -> (u32, u64, String) {
    let mut work = vec![1; WORK_BYTES];
    let mut out = vec![1; TYPESHEET_OUT_BYTES];
    let (number, first) = sheet_call(sheet.as_bytes(), &mut work, &mut out);
    let len = if number == 0 { first as usize } else { 0 };
    let text = String::from_utf8_lossy(&out[..len]).into_owned();
    (number, first, text)
}

/// The report of a sheet that returns one expression, without its last line.
fn returned(expr: &[&str]) -> String {
    returned_with(&[], expr)
}

fn returned_with(bindings: &[&str], expr: &[&str]) -> String {
    let lines = [
        &["cyrs,1"],
        bindings,
        &["ret,0,1", "pro,-"],
        expr,
        &["end", ""],
    ]
    .concat();
    let (number, _, report) = typed(&lines.join("\n"));
    assert_eq!(number, 0, "{expr:?}");
    let faults = report.lines().filter(|l| l.starts_with("F,")).count();
    let (body, last) = report[..report.len() - 1].rsplit_once('\n').unwrap();
    assert_eq!(last, format!("end,1,{faults}"));
    body.to_string()
}

fn refused(sheet: &str) -> (u32, u64) {
    let (number, first, _) = typed(sheet);
    (number, first)
}

fn unified(a: &str, b: &str) -> (u32, String) {
    let mut work = vec![1; WORK_BYTES];
    let mut out = vec![1; 2048];
    let (number, first, second) = unify_call(a.as_bytes(), b.as_bytes(), &mut work, &mut out);
    let len = match number {
        0 | 9 => (first + second) as usize,
        _ => 0,
    };
    (number, String::from_utf8_lossy(&out[..len]).into_owned())
}

#[test]
fn whole_example() {
    let sheet = "cyrs,1\nb,1,N\nret,0,1\npro,-\nbin,0\nint,1\nbool,1\nend\n";
    let report = "F,2009,Bool\nT,P,\nend,1,1\n";
    assert_eq!(typed(sheet), (0, report.len() as u64, report.to_string()));
}

#[test]
fn thirteen_cases() {
    let (one, two, a, null) = ("int,1", "int,2", "str,61", "null");
    assert_eq!(returned(&["lis,0"]), "T,J,A,");
    assert_eq!(returned(&["lis,3", one, a, two]), "T,J,D,");
    assert_eq!(returned(&["lis,3", one, two, a]), "T,J,A,");
    assert_eq!(returned(&["lis,2", null, one]), "T,J,O,B,D,!,");
    assert_eq!(returned(&["case,0,0"]), "T,P,");
    assert_eq!(returned(&["bin,0", one, null]), "F,2009,Null\nT,P,");
    assert_eq!(returned(&["bin,0", one, "flt,4000000000000000"]), "T,F,");
    let map = [
        "map,3", "key,62", one, "key,61", "bool,1", "key,62", "str,7a",
    ];
    assert_eq!(returned(&map), "T,K,61,C,62,G,!,");
    assert_eq!(
        returned(&["call,53495a45,0,2", one, two]),
        "F,5012,size,Int,List | String\nT,D,"
    );
    assert_eq!(returned(&["call,6964,0,0"]), "T,D,");
    assert_eq!(
        returned(&["in", one, "lis,1", a]),
        "F,2012,Int,String\nT,C,"
    );
    assert_eq!(returned(&["in", one, two]), "F,2013,Int\nT,C,");
    assert_eq!(unified("O,D,G,!,", "O,C,E,!,"), (0, "O,C,E,F,G,!,".into()));
    assert_eq!(unified("O,C,E,!,", "O,D,G,!,"), (0, "O,C,D,F,G,!,".into()));
}

#[test]
fn mistakes_that_read_naturally() {
    // WHERE need not be Bool.
    let (_, _, report) = typed("cyrs,1\nwhe\nint,1\nend\n");
    assert_eq!(report, "T,D,\nend,1,0\n");
    // A built-in faults after all arguments are typed.
    let call = ["call,6964,0,2", "int,1", "bin,0", "null", "int,1"];
    assert_eq!(
        returned(&call),
        "F,2009,Null\nF,5012,id,Int,Node | Relationship | Path\nT,D,"
    );
    // A union absorbs neither Any nor Null.
    let case = ["case,2,2", "bool,1", "par,", "bool,1", "null", "int,1"];
    assert_eq!(returned(&case), "T,O,A,B,D,!,");
}

#[test]
fn each_fault() {
    let b = ["b,1,N", "b,2,R", "b,3,P"];
    assert_eq!(returned(&["una,0", "str,"]), "F,2009,String\nT,P,");
    assert_eq!(
        returned(&["bin,15", "int,1", "bool,0"]),
        "F,2010,Int\nF,2010,Bool\nT,C,"
    );
    assert_eq!(
        returned(&["bin,12", "int,1", "null"]),
        "F,2011,Int\nF,2011,Null\nT,C,"
    );
    assert_eq!(returned(&["una,1", "lis,0"]), "F,2011,List\nT,C,");
    assert_eq!(
        returned(&["case,0,1", "int,1", "int,1"]),
        "F,2011,Int\nT,D,"
    );
    assert_eq!(returned(&["case,1,1", "null", "int,1", "int,1"]), "T,D,");
    assert_eq!(
        returned(&["lcp,9,1", "null", "int,1", "int,2"]),
        "F,2011,Int\nT,J,D,"
    );
    assert_eq!(
        returned(&["pcp,1", "parts,0", "int,1", "int,2"]),
        "F,2011,Int\nT,J,D,"
    );
    assert_eq!(returned(&["lpr,0,9,1", "null", "int,1"]), "T,C,");
    assert_eq!(
        returned_with(&b, &["in", "var,1", "lis,1", "var,2"]),
        "F,2012,Node,Relationship\nT,C,"
    );
    assert_eq!(returned(&["in", "int,1", "null"]), "T,C,");
    assert_eq!(returned(&["in", "int,1", "map,0"]), "F,2013,Map\nT,C,");
    let shapes = [
        ("6964", "Node | Relationship | Path", "D,"),
        ("73697a65", "List | String", "D,"),
        ("68656164", "List", "A,"),
        ("7461696c", "List", "J,A,"),
        ("6c617374", "List", "A,"),
        ("6b657973", "Node | Relationship | Map", "J,G,"),
        ("76616c756573", "Map", "J,A,"),
    ];
    let names = ["id", "size", "head", "tail", "last", "keys", "values"];
    for ((hex, shape, ty), name) in shapes.iter().zip(names) {
        let call = format!("call,{hex},0,1");
        assert_eq!(
            returned(&[&call, "int,1"]),
            format!("F,5012,{name},Int,{shape}\nT,{ty}")
        );
    }
    assert_eq!(
        returned_with(&b, &["call,6b657973,0,1", "var,3"]),
        "F,5012,keys,Path,Node | Relationship | Map\nT,J,G,"
    );
}

#[test]
fn every_type_name_in_a_fault() {
    let b = ["b,1,N", "b,2,R", "b,3,P"];
    let exprs: [(&[&str], &str); 12] = [
        (&["null"], "Null"),
        (&["int,1"], "Int"),
        (&["flt,0000000000000000"], "Float"),
        (&["bin,0", "int,1", "flt,0000000000000000"], "Num"),
        (&["str,"], "String"),
        (&["lis,0"], "List"),
        (&["map,0"], "Map"),
        (&["var,1"], "Node"),
        (&["var,2"], "Relationship"),
        (&["var,3"], "Path"),
        (&["case,2,1", "bool,1", "int,1", "str,"], "Union"),
        (&["mpr,0", "null"], "Map"),
    ];
    for (expr, name) in exprs {
        let not = [&["una,1"], expr].concat();
        assert_eq!(returned_with(&b, &not), format!("F,2011,{name}\nT,C,"));
    }
    for open in [&["par,"][..], &["exi"], &["unr,"], &["var,9"]] {
        let not = [&["una,1"], open].concat();
        assert_eq!(returned_with(&b, &not), "T,C,");
    }
}

#[test]
fn tops_of_every_clause_and_patterns_inside() {
    let sheet = "cyrs,1\nb,1,N\nmat,1\nparts,1\npart,-,0,2\nnod,1,1,1\nlab,61\nmap,0\nrel,-,2,1,-,5,1,0\nint,1\n\
        whe\npat\nparts,1\npart,7,2,1\nnod,-,1,0\nuna,0\nnull\nset,3\nsp,61\nvar,1\nbool,1\nsl,1,2\nlab,\nlab,62\nsm,1,0\n\
        lis,0\nrem,2\nrp,61\nvar,1\nrl,1,0\ndel,1,2\nvar,1\nnull\ncal,61,0,1\nint,1\nunw,4\nnull\nwit,1,1\npro,61\nint,1\n\
        bool,0\ncre\nparts,0\nmer\nparts,0\nret,1,0\nend\n";
    let (number, _, report) = typed(sheet);
    assert_eq!(number, 0);
    assert_eq!(
        report,
        "T,K,!,\nT,D,\nF,2009,Null\nT,C,\nT,L,!,\nT,C,\nT,J,A,\nT,L,!,\nT,L,!,\nT,B,\nT,D,\nT,B,\nT,D,\nT,C,\nend,13,1\n"
    );
}

#[test]
fn order_on_one_line() {
    // The word's place and the field count come before any field.
    assert_eq!(refused("cyrs,1\nbool,2\nend\n"), (3, 2));
    assert_eq!(refused("cyrs,1\nwhe\nbool,2,0\nend\n"), (3, 3));
    // Fields from left to right.
    assert_eq!(refused("cyrs,1\nret,2,x\nend\n"), (4, 2));
    assert_eq!(refused("cyrs,1\nret,x,10000\nend\n"), (3, 2));
    // Badly written beats out of range within one field.
    let long = "61".repeat(255);
    assert_eq!(
        refused(&format!("cyrs,1\nwhe\nstr,{long}6g\nend\n")),
        (3, 3)
    );
    assert_eq!(
        refused(&format!("cyrs,1\nwhe\nstr,{long}61\nend\n")),
        (4, 3)
    );
    let digits = "9".repeat(60);
    assert_eq!(refused(&format!("cyrs,1\nset,{digits}x\nend\n")), (3, 2));
    assert_eq!(refused(&format!("cyrs,1\nset,{digits}\nend\n")), (4, 2));
}

#[test]
fn depth_counts_expressions_only() {
    let deep = |levels: usize| {
        let mut lines = vec!["cyrs,1".to_string(), "whe".to_string()];
        for _ in 1..levels {
            lines.push("map,1".into());
            lines.push("key,".into());
        }
        lines.extend(["null".into(), "end".into(), String::new()]);
        lines.join("\n")
    };
    assert_eq!(typed(&deep(DEPTH)).0, 0);
    assert_eq!(refused(&deep(DEPTH + 1)), (5, 3 + 2 * DEPTH as u64));
}

#[test]
fn elements_and_bounds_as_they_come() {
    let sheet = "cyrs,1\nmat,0\nparts,1\npart,-,0,3\nrel,-,0,1,9,1,0,0\nrel,-,0,0,-,-,0,0\nnod,-,0,0\nend\n";
    assert_eq!(typed(sheet), (0, 8, "end,0,0\n".into()));
}

#[test]
fn names_that_are_no_utf_8() {
    assert_eq!(
        returned(&["map,2", "key,ff", "int,1", "key,fe", "null"]),
        "T,K,fe,B,ff,D,!,"
    );
    assert_eq!(returned(&["call,ff,0,0"]), "T,A,");
    assert_eq!(unified("M,+,ff,", "M,+,ff,"), (0, "M,+,ff,".into()));
}

#[test]
fn unify_mismatch_gives_the_inner_pair() {
    assert_eq!(unified("J,K,61,D,!,", "J,K,61,G,!,"), (9, "D,G,".into()));
    assert_eq!(unified("L,+,!,", "M,!,"), (9, "L,+,!,M,!,".into()));
    assert_eq!(
        unified("L,+,61,!,", "L,+,62,!,"),
        (0, "L,+,61,62,!,".into())
    );
    assert_eq!(unified("L,+,!,", "L,!,"), (0, "L,!,".into()));
    assert_eq!(unified("x", "D,"), (8, String::new()));
}
