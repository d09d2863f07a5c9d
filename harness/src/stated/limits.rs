//! The limits of RULES 2, both sides of each, first part: fields, lines, depth (RULES 2.2, 2.3, 2.10, 7.4, 7.5; causes 3, 4, 5).
//! The expected values are those of RULES, reasoned out and not copied from the definitions.

use super::texts::{
    bad, bytes, has_type, limit, many, refused_at, refuses, reports, spot, stops, taken, text, Spot,
};
use super::Stated;

// Names: lowercase hexadecimal, two digits a byte, at most 255 bytes, possibly none.

fn aliases() -> Vec<Spot> {
    vec![spot(3, "cyrs,1\nwit,0,1\npro,", "")]
}

fn names() -> Vec<Spot> {
    vec![
        spot(2, "cyrs,1\ncal,", ",0,1"),
        spot(3, "cyrs,1\nset,1\nsp,", ""),
        spot(4, "cyrs,1\nset,1\nsl,1,2\nlab,", ""),
        spot(3, "cyrs,1\nrem,1\nrp,", ""),
        spot(3, "cyrs,1\ndel,0,2\nstr,", ""),
        spot(3, "cyrs,1\ndel,0,2\npar,", ""),
        spot(3, "cyrs,1\ndel,0,2\nunr,", ""),
        spot(3, "cyrs,1\nwhe\nprop,", ""),
        spot(4, "cyrs,1\nwhe\nmap,1\nkey,", ""),
        spot(3, "cyrs,1\nwhe\ncall,", ",0,1"),
        spot(5, "cyrs,1\nwhe\nmpr,2\nnull\ncop,", ""),
        spot(5, "cyrs,1\nwhe\nmpr,2\nnull\ncom,", ""),
        spot(5, "cyrs,1\nwhe\nmpr,2\nnull\nsho,1,", ""),
        spot(5, "cyrs,1\nwhe\nmpr,2\nnull\nali,", ""),
    ]
}

/// A name that is too long and badly written is badly written (DECISIONS).
fn name_cases() -> Vec<Stated> {
    let all = [names(), aliases()].concat();
    [
        taken(many(255, "61"), &all),
        refused_at(many(256, "61"), 4, &all),
        refused_at(many(255, "61") + "6g", 3, &all),
        refused_at(many(256, "61") + "6", 3, &all),
        taken("", &all),
        bad("6", &all),
        bad("6A", &all),
        bad("6g", &all),
        taken("-", &aliases()),
        bad("-", &names()),
    ]
    .concat()
}

// Counts 0 to 9,999.

fn counts() -> Vec<Spot> {
    vec![
        spot(2, "cyrs,1\nwit,0,", ""),
        spot(2, "cyrs,1\nret,0,", ""),
        spot(2, "cyrs,1\nset,", ""),
        spot(2, "cyrs,1\nrem,", ""),
        spot(2, "cyrs,1\ndel,0,", ""),
        spot(2, "cyrs,1\ncal,61,0,", ""),
        spot(3, "cyrs,1\nset,1\nsl,1,", ""),
        spot(3, "cyrs,1\nrem,1\nrl,1,", ""),
        spot(3, "cyrs,1\ncre\nparts,", ""),
        spot(4, "cyrs,1\ncre\nparts,1\npart,-,0,", ""),
        spot(5, "cyrs,1\ncre\nparts,1\npart,-,0,1\nnod,-,0,", ""),
        spot(5, "cyrs,1\ncre\nparts,1\npart,-,0,1\nrel,-,0,0,-,-,0,", ""),
        spot(3, "cyrs,1\nwhe\nlis,", ""),
        spot(3, "cyrs,1\nwhe\nmap,", ""),
        spot(3, "cyrs,1\nwhe\ncall,61,0,", ""),
        spot(3, "cyrs,1\nwhe\ncase,0,", ""),
        spot(3, "cyrs,1\nwhe\nmpr,", ""),
    ]
}

// Variables 0 to 4294967295; `-` where they are optional.

fn variables() -> Vec<Spot> {
    vec![
        spot(2, "cyrs,1\nunw,", ""),
        spot(3, "cyrs,1\nset,1\nsl,", ",1"),
        spot(3, "cyrs,1\nset,1\nsm,", ",0"),
        spot(3, "cyrs,1\nrem,1\nrl,", ",1"),
        spot(3, "cyrs,1\ndel,0,2\nvar,", ""),
        spot(3, "cyrs,1\nwhe\nlcp,", ",0"),
        spot(3, "cyrs,1\nwhe\nlpr,0,", ",0"),
        spot(5, "cyrs,1\nwhe\nmpr,2\nnull\nsho,", ",61"),
    ]
}

fn optionals() -> Vec<Spot> {
    vec![
        spot(4, "cyrs,1\ncre\nparts,1\npart,", ",0,1"),
        spot(5, "cyrs,1\ncre\nparts,1\npart,-,0,1\nnod,", ",1,0"),
        spot(5, "cyrs,1\ncre\nparts,1\npart,-,0,1\nrel,", ",0,0,-,-,1,0"),
    ]
}

// Small ranges: 0|1 and flag numbers of one bit, L; flag numbers of two bits; S and D; the two K.

fn bits() -> Vec<Spot> {
    vec![
        spot(2, "cyrs,1\nmat,", ""),
        spot(2, "cyrs,1\nret,", ",1"),
        spot(2, "cyrs,1\ndel,", ",1"),
        spot(2, "cyrs,1\ncal,61,", ",1"),
        spot(3, "cyrs,1\nset,1\nsm,1,", ""),
        spot(3, "cyrs,1\ndel,0,2\nbool,", ""),
        spot(3, "cyrs,1\nwhe\ncall,61,", ",1"),
        spot(3, "cyrs,1\nwhe\nuna,", ""),
        spot(3, "cyrs,1\nwhe\nisn,", ""),
        spot(2, "cyrs,1\nwit,", ",1"),
        spot(5, "cyrs,1\ncre\nparts,1\npart,-,0,1\nnod,-,", ",1"),
        spot(5, "cyrs,1\ncre\nparts,1\npart,-,0,1\nrel,-,0,0,-,-,", ",1"),
        spot(3, "cyrs,1\nwhe\nlcp,1,", ""),
        spot(3, "cyrs,1\nwhe\npcp,", ""),
        spot(3, "cyrs,1\nwhe\nlpr,0,1,", ""),
        spot(5, "cyrs,1\ncre\nparts,1\npart,-,0,1\nrel,-,0,", ",-,-,1,0"),
    ]
}

fn flags() -> Vec<Spot> {
    vec![
        spot(3, "cyrs,1\nwhe\nsli,", ""),
        spot(3, "cyrs,1\nwhe\ncase,", ",1"),
    ]
}

fn thirds() -> Vec<Spot> {
    vec![
        spot(4, "cyrs,1\ncre\nparts,1\npart,-,", ",1"),
        spot(5, "cyrs,1\ncre\nparts,1\npart,-,0,1\nrel,-,", ",0,-,-,1,0"),
    ]
}

fn operators() -> Vec<Spot> {
    vec![spot(3, "cyrs,1\nwhe\nbin,", "")]
}

fn predicates() -> Vec<Spot> {
    vec![spot(3, "cyrs,1\nwhe\nlpr,", ",1,0")]
}

// Bounds: unsigned 64-bit or `-` where L is 1; only `-` where L is 0.

fn bounds() -> Vec<Spot> {
    vec![
        spot(5, "cyrs,1\ncre\nparts,1\npart,-,0,1\nrel,-,0,1,", ",-,1,0"),
        spot(5, "cyrs,1\ncre\nparts,1\npart,-,0,1\nrel,-,0,1,-,", ",1,0"),
        spot(5, "cyrs,1\ncre\nparts,1\npart,-,0,1\nrel,-,0,1,7,", ",1,0"),
    ]
}

fn unbounded() -> Vec<Spot> {
    vec![
        spot(5, "cyrs,1\ncre\nparts,1\npart,-,0,1\nrel,-,0,0,", ",-,1,0"),
        spot(5, "cyrs,1\ncre\nparts,1\npart,-,0,1\nrel,-,0,0,-,", ",1,0"),
    ]
}

/// Every number that is written so: none, with a leading zero, with a sign, with another byte, of 40 digits.
fn unsigned() -> Vec<Spot> {
    [
        counts(),
        variables(),
        optionals(),
        bits(),
        flags(),
        thirds(),
        operators(),
        predicates(),
        bounds(),
    ]
    .concat()
}

fn number_cases() -> Vec<Stated> {
    [
        limit("9999", "10000", &counts()),
        limit(
            "4294967295",
            "4294967296",
            &[variables(), optionals()].concat(),
        ),
        limit("1", "2", &bits()),
        taken("0", &bits()),
        limit("3", "4", &flags()),
        limit("2", "3", &thirds()),
        limit("19", "20", &operators()),
        limit("3", "4", &predicates()),
        limit("18446744073709551615", "18446744073709551616", &bounds()),
        bad("", &unsigned()),
        bad("01", &unsigned()),
        bad("00", &unsigned()),
        bad("-1", &unsigned()),
        bad("+1", &unsigned()),
        bad("1x", &unsigned()),
        refused_at(many(40, "9"), 4, &unsigned()),
        refused_at(many(40, "9") + "x", 3, &unsigned()),
        bad(
            "-",
            &[
                counts(),
                variables(),
                bits(),
                flags(),
                thirds(),
                operators(),
                predicates(),
            ]
            .concat(),
        ),
        taken("-", &[optionals(), bounds(), unbounded()].concat()),
        bad("1", &unbounded()),
        bad("18446744073709551616", &unbounded()),
        bad("x", &unbounded()),
        bad("", &unbounded()),
    ]
    .concat()
}

// `int` is signed 64-bit; `flt` has 16 digits.

fn signed() -> Vec<Spot> {
    vec![spot(3, "cyrs,1\ndel,0,2\nint,", "")]
}

fn floats() -> Vec<Spot> {
    vec![spot(3, "cyrs,1\ndel,0,2\nflt,", "")]
}

fn literal_cases() -> Vec<Stated> {
    [
        limit("9223372036854775807", "9223372036854775808", &signed()),
        limit("-9223372036854775808", "-9223372036854775809", &signed()),
        taken("0", &signed()),
        taken("-1", &signed()),
        bad("-0", &signed()),
        bad("-", &signed()),
        bad("", &signed()),
        bad("01", &signed()),
        bad("00", &signed()),
        bad("-01", &signed()),
        bad("--1", &signed()),
        bad("+1", &signed()),
        bad("1x", &signed()),
        bad("-x", &signed()),
        refused_at(many(40, "9"), 4, &signed()),
        refused_at(text("-") + many(40, "9"), 4, &signed()),
        refused_at(many(40, "9") + "x", 3, &signed()),
        taken("0123456789abcdef", &floats()),
        bad("0123456789abcde", &floats()),
        bad("0123456789abcdef0", &floats()),
        bad("0123456789abcdef00", &floats()),
        bad("0123456789ABCDEF", &floats()),
        bad("", &floats()),
        bad("-", &floats()),
        refused_at(many(256, "61"), 3, &floats()),
    ]
    .concat()
}

// The first line; bindings, strictly ascending and before the clauses.

fn head_cases() -> Vec<Stated> {
    vec![
        refuses("cyrs,0\nend\n", 4, 1),
        refuses("cyrs,2\nend\n", 4, 1),
        refuses(text("cyrs,") + many(40, "1") + "\nend\n", 4, 1),
        refuses("cyrs,x\nend\n", 3, 1),
        refuses("cyrs,-\nend\n", 3, 1),
        refuses("cyrs,01\nend\n", 3, 1),
        refuses("cyrs,\nend\n", 3, 1),
        refuses("cyrs\nend\n", 3, 1),
        refuses("cyrs,1,\nend\n", 3, 1),
        refuses("cyrs,2,2\nend\n", 3, 1),
        refuses("Cyrs,1\nend\n", 3, 1),
        refuses(" cyrs,1\nend\n", 3, 1),
        refuses("cyrs,1\r\nend\n", 3, 1),
        refuses("b,1,N\nend\n", 3, 1),
        refuses("end\n", 3, 1),
        refuses("cyrs,1\ncyrs,1\nend\n", 3, 2),
        reports("cyrs,1\nb,0,N\nb,7,R\nb,8,P\nb,4294967295,V\ndel,0,5\nvar,0\nvar,7\nvar,8\nvar,4294967295\nvar,9\nend\n", "T,L,!,\nT,M,!,\nT,N,\nT,A,\nT,A,\nend,5,0\n"),
        refuses("cyrs,1\nb,4294967296,N\nend\n", 4, 2),
        refuses("cyrs,1\nb,4294967296,X\nend\n", 4, 2),
        refuses("cyrs,1\nb,01,N\nend\n", 3, 2),
        refuses("cyrs,1\nb,-,N\nend\n", 3, 2),
        refuses("cyrs,1\nb,1,X\nend\n", 3, 2),
        refuses("cyrs,1\nb,1,n\nend\n", 3, 2),
        refuses("cyrs,1\nb,1,NN\nend\n", 3, 2),
        refuses("cyrs,1\nb,1,\nend\n", 3, 2),
        refuses("cyrs,1\nb,1,-\nend\n", 3, 2),
        refuses("cyrs,1\nb,1\nend\n", 3, 2),
        refuses("cyrs,1\nb,1,N,\nend\n", 3, 2),
        reports("cyrs,1\nb,1,N\nb,2,N\nend\n", "end,0,0\n"),
        refuses("cyrs,1\nb,1,N\nb,1,N\nend\n", 3, 3),
        refuses("cyrs,1\nb,2,N\nb,1,N\nend\n", 3, 3),
        refuses("cyrs,1\nb,0,N\nb,0,R\nend\n", 3, 3),
        refuses("cyrs,1\nb,4294967295,N\nb,0,N\nend\n", 3, 3),
        refuses("cyrs,1\ncre\nparts,0\nb,1,N\nend\n", 3, 4),
    ]
}

// Where a sheet ends; lines that are unknown where they stand; what is found first.

fn line_cases() -> Vec<Stated> {
    vec![
        refuses("", 3, 1),
        refuses("\n", 3, 1),
        refuses("cyrs,1", 3, 1),
        refuses("cyrs,1\n", 3, 2),
        refuses("cyrs,1\nend", 3, 2),
        reports("cyrs,1\nend\n", "end,0,0\n"),
        refuses("cyrs,1\nend\n\n", 3, 3),
        refuses("cyrs,1\nend\nx", 3, 3),
        refuses("cyrs,1\nend\nend\n", 3, 3),
        refuses("cyrs,1\nend\ncre\nparts,0\n", 3, 3),
        refuses("cyrs,1\n\nend\n", 3, 2),
        refuses("cyrs,1\nend,\n", 3, 2),
        refuses("cyrs,1\nEND\n", 3, 2),
        refuses("cyrs,1\nwhe\nend\n", 3, 3),
        refuses("cyrs,1\nwhe\n", 3, 3),
        refuses("cyrs,1\nwhe\nint,1", 3, 3),
        // what stands after the last LF is not read: no 4, no 5
        refuses("cyrs,2", 3, 1),
        refuses("cyrs,1\nwhe\nbool,2", 3, 3),
        refuses(text("cyrs,1\nwhe\n") + many(24, "una,1\n") + "bool,1", 3, 27),
        refuses("cyrs,1\nwhe\nint,1\n", 3, 4),
        refuses("cyrs,1\nret,0,2\npro,-\nnull\nend\n", 3, 5),
        refuses("cyrs,1\nret,0,0\npro,-\nnull\nend\n", 3, 3),
        refuses("cyrs,1\nwit,1,1\npro,-\nnull\nend\n", 3, 5),
        refuses("cyrs,1\nwit,0,1\npro,-\nnull\nnull\nend\n", 3, 5),
        stops("case,1,1\nint,1\nint,2\nint,3\nint,4\n", 3, 8),
        stops("case,2,1\nint,1\nint,2\n", 3, 7),
        stops("sli,2\nnull\n", 3, 6),
        // a word of another place
        refuses("cyrs,1\nint,1\nend\n", 3, 2),
        refuses("cyrs,1\nwhe\nret,0,0\nend\n", 3, 3),
        refuses("cyrs,1\nwhe\nlab,61\nend\n", 3, 3),
        refuses("cyrs,1\nset,1\nrp,61\nend\n", 3, 3),
        refuses("cyrs,1\nrem,1\nsp,61\nend\n", 3, 3),
        refuses("cyrs,1\ncre\npart,-,0,0\nend\n", 3, 3),
        refuses("cyrs,1\ncre\nparts,1\nnod,-,0,0\nend\n", 3, 4),
        refuses("cyrs,1\nwhe\nmap,1\nint,1\nend\n", 3, 4),
        refuses("cyrs,1\nwhe\nmpr,1\nnull\nkey,61\nnull\nend\n", 3, 5),
        refuses("cyrs,1\nwhe\nnulls\nend\n", 3, 3),
        refuses("cyrs,1\nwhe\nnul\nend\n", 3, 3),
        refuses("cyrs,1\nwhe\nnull,\nend\n", 3, 3),
        refuses("cyrs,1\nwhe\nexi,61\nend\n", 3, 3),
        // bytes that are no text
        refuses(bytes(&[0]), 3, 1),
        refuses(text("cyrs,1") + bytes(&[0, 10]), 3, 1),
        refuses(text("cyrs,1\nwhe\nstr,") + bytes(&[195, 169, 10]), 3, 3),
        refuses(text("cyrs,1\nwhe\n") + bytes(&[255, 10]), 3, 3),
        // word and field count before fields, fields left to right, the first line that is refused
        refuses("cyrs,1\nbool,2\nend\n", 3, 2),
        refuses("cyrs,1\nwhe\nbool\nend\n", 3, 3),
        refuses("cyrs,1\nwhe\nbool,2,2\nend\n", 3, 3),
        refuses("cyrs,1\nwhe\nbool,x\nend\n", 3, 3),
        refuses("cyrs,1\nret,2,x\nend\n", 4, 2),
        refuses("cyrs,1\nret,x,10000\nend\n", 3, 2),
        refuses("cyrs,1\ncal,6,2,10000\nend\n", 3, 2),
        refuses("cyrs,1\ncal,61,2,x\nend\n", 4, 2),
        refuses("cyrs,1\ncre\nparts,1\npart,-,0,1\nrel,-,0,2,x,-,0,0\nend\n", 4, 5),
        refuses("cyrs,1\ncre\nparts,1\npart,-,0,1\nrel,-,3,0,1,-,0,0\nend\n", 4, 5),
        refuses("cyrs,1\ncre\nparts,1\npart,-,0,1\nrel,x,3,0,1,-,0,0\nend\n", 3, 5),
        refuses("cyrs,1\nwhe\nbool,2\nx\n", 4, 3),
        refuses("cyrs,1\nwhe\nbool,x\nret,2,0\n", 3, 3),
        // both bounds, the lower above the upper; elements in any order
        reports("cyrs,1\ncre\nparts,1\npart,-,2,3\nrel,-,2,1,18446744073709551615,0,0,0\nrel,-,0,0,-,-,0,0\nnod,4294967295,0,0\nend\n", "end,0,0\n"),
    ]
}

// Depth 24 and 25: expression lines only, after the fields of the line.

fn depth_cases() -> Vec<Stated> {
    vec![
        has_type(many(23, "una,1\n") + "bool,1\n", "C,"),
        stops(many(24, "una,1\n") + "bool,1\n", 5, 28),
        stops(many(25, "una,1\n") + "bool,1\n", 5, 28),
        stops(many(24, "una,1\n") + "bool,2\n", 4, 28),
        stops(many(24, "una,1\n") + "bool,x\n", 3, 28),
        stops(many(24, "una,1\n") + "bool\n", 3, 28),
        stops(many(24, "una,1\n") + "key,61\n", 3, 28),
        stops(many(24, "una,1\n") + "bool,1\nx\n", 5, 28),
        stops(many(24, "una,1\n"), 3, 28),
        has_type(many(23, "lis,1\n") + "int,1\n", many(23, "J,") + "D,"),
        has_type(many(23, "lis,1\n") + "lis,0\n", many(24, "J,") + "A,"),
        stops(many(24, "lis,1\n") + "int,1\n", 5, 28),
        stops(many(24, "lis,1\n") + "lis,0\n", 5, 28),
        // an entry adds nothing
        has_type(
            many(23, "map,1\nkey,61\n") + "int,1\n",
            many(23, "K,61,") + "D," + many(23, "!,"),
        ),
        stops(many(24, "map,1\nkey,61\n") + "int,1\n", 5, 52),
        stops(many(24, "map,1\nkey,61\n") + "bool,2\n", 4, 52),
        // nor do the lines of a pattern
        has_type(
            many(23, "pat\nparts,1\npart,-,0,1\nnod,-,1,0\n") + "bool,1\n",
            "C,",
        ),
        stops(
            many(24, "pat\nparts,1\npart,-,0,1\nnod,-,1,0\n") + "bool,1\n",
            5,
            100,
        ),
        has_type(
            many(23, "pat\nparts,1\npart,-,0,1\nrel,-,0,0,-,-,1,1\nlab,61\n") + "bool,1\n",
            "C,",
        ),
        stops(
            many(24, "pat\nparts,1\npart,-,0,1\nrel,-,0,0,-,-,1,1\nlab,61\n") + "bool,1\n",
            5,
            124,
        ),
        has_type(
            many(23, "una,1\n") + "pat\nparts,1\npart,-,0,1\nnod,-,0,0\n",
            "C,",
        ),
        has_type(
            many(22, "una,1\n") + "pat\nparts,1\npart,-,0,1\nnod,-,1,0\nint,1\n",
            "C,",
        ),
        stops(
            many(23, "una,1\n") + "pat\nparts,1\npart,-,0,1\nnod,-,1,0\nint,1\n",
            5,
            31,
        ),
        // the other words with one expression, with two, with a pattern and one
        has_type(many(23, "prop,61\n") + "int,1\n", "A,"),
        stops(many(24, "prop,61\n") + "int,1\n", 5, 28),
        has_type(many(23, "isn,0\n") + "int,1\n", "C,"),
        stops(many(24, "isn,0\n") + "int,1\n", 5, 28),
        has_type(many(23, "call,61,0,1\n") + "int,1\n", "A,"),
        stops(many(24, "call,61,0,1\n") + "int,1\n", 5, 28),
        has_type(many(23, "sli,0\n") + "lis,0\n", "J,A,"),
        stops(many(24, "sli,0\n") + "lis,0\n", 5, 28),
        has_type(many(23, "bin,6\nnull\n") + "int,1\n", "C,"),
        stops(many(24, "bin,6\nnull\n") + "int,1\n", 5, 51),
        has_type(many(23, "idx\nnull\n") + "int,1\n", "A,"),
        stops(many(24, "idx\nnull\n") + "int,1\n", 5, 51),
        has_type(many(23, "lpr,0,1,1\nnull\n") + "int,1\n", "C,"),
        stops(many(24, "lpr,0,1,1\nnull\n") + "int,1\n", 5, 51),
        has_type(many(23, "case,0,1\nbool,1\n") + "int,1\n", "D,"),
        stops(many(24, "case,0,1\nbool,1\n") + "int,1\n", 5, 51),
        has_type(
            many(23, "lcp,1,0\nnull\n") + "int,1\n",
            many(23, "J,") + "D,",
        ),
        stops(many(24, "lcp,1,0\nnull\n") + "int,1\n", 5, 51),
        has_type(
            many(23, "pcp,0\nparts,0\n") + "int,1\n",
            many(23, "J,") + "D,",
        ),
        stops(many(24, "pcp,0\nparts,0\n") + "int,1\n", 5, 52),
        has_type(many(23, "mpr,1\nnull\ncom,61\n") + "int,1\n", "K,!,"),
        stops(many(24, "mpr,1\nnull\ncom,61\n") + "int,1\n", 5, 74),
        stops(many(23, "in\nnull\n") + "una,1\nbool,1\n", 5, 51),
        // each top expression counts from 1, those of a clause's pattern too
        reports(
            text("cyrs,1\nmat,0\nparts,1\npart,-,0,1\nnod,-,1,0\n")
                + many(23, "una,1\n")
                + "bool,1\nwhe\n"
                + many(23, "una,1\n")
                + "bool,1\nend\n",
            "T,C,\nT,C,\nend,2,0\n",
        ),
        refuses(
            text("cyrs,1\nmat,0\nparts,1\npart,-,0,1\nnod,-,1,0\n")
                + many(24, "una,1\n")
                + "bool,1\nend\n",
            5,
            30,
        ),
    ]
}

pub fn cases() -> Vec<Stated> {
    [
        name_cases(),
        number_cases(),
        literal_cases(),
        head_cases(),
        line_cases(),
        depth_cases(),
    ]
    .concat()
}
