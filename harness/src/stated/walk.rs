//! The walk, each rule at least once: words, faults, built-ins, the arms of `unify`, the strict reader of type lines
//! (RULES 3, 4 and 5; infer.rs, unify.rs, ty.rs, builtins.rs).

use super::texts::{
    gives, has_type, many, not_a_type_line, parts, reads_as_itself, reports, text, unifies,
};
use super::Stated;

// Every word.

fn word_cases() -> Vec<Stated> {
    vec![
        // every clause word, pattern word and leaf: a pattern of a clause gives type lines, and so does every expression that a clause holds
        reports("cyrs,1\nb,1,N\nb,2,R\nb,3,P\nb,4,V\nmat,1\nparts,1\npart,3,1,3\nnod,1,1,1\nlab,41\nmap,1\nkey,61\nint,1\nrel,2,0,1,1,3,1,2\nlab,52\nlab,53\nbin,0\nint,1\nnull\nnod,-,0,0\ncre\nparts,2\npart,-,0,1\nnod,-,1,0\npar,70\npart,-,2,0\nmer\nparts,0\nwhe\nint,1\nwit,1,2\npro,-\nvar,1\npro,61\nvar,2\nvar,3\nunw,5\nlis,2\nint,1\nflt,3ff0000000000000\nset,4\nsp,61\nvar,4\nstr,62\nsl,1,2\nlab,41\nlab,42\nsm,1,0\nmap,0\nsm,1,1\nnull\nrem,2\nrp,61\nvar,9\nrl,1,1\nlab,41\ndel,1,2\nunr,78\nexi\ncal,62,1,2\nbool,0\nprop,61\nvar,1\nret,1,1\npro,-\nisn,1\nnull\nend\n", "T,K,61,D,!,\nF,2009,Null\nT,P,\nT,A,\nT,D,\nT,L,!,\nT,M,!,\nT,N,\nT,J,F,\nT,A,\nT,G,\nT,K,!,\nT,B,\nT,A,\nT,P,\nT,P,\nT,C,\nT,A,\nT,C,\nend,18,1\n"),
        // every other expression word: a pattern in an expression gives faults and no type line
        reports("cyrs,1\nb,1,N\ndel,0,20\nidx\nlis,1\nstr,61\nint,0\nidx\nmap,0\nstr,61\nsli,0\nlis,1\nint,1\nsli,3\nlis,1\nbool,1\nint,0\nint,1\nsli,1\nstr,61\nint,1\nsli,2\nnull\nint,1\ncall,666f6f,1,2\nint,1\nint,2\nbin,19\nint,1\nstr,61\nuna,0\nint,1\nuna,1\nbool,0\ncase,3,1\nint,1\nint,2\nstr,61\nnull\nin\nint,1\nlis,1\nint,2\npat\nparts,1\npart,-,0,2\nnod,-,1,0\nbin,0\nnull\nint,1\nrel,-,2,0,-,-,1,1\nlab,61\nuna,1\nint,1\nlcp,5,1\nlis,0\nstr,61\nint,1\nlcp,5,0\nnull\nnull\npcp,1\nparts,1\npart,-,0,1\nnod,-,1,0\nuna,0\nbool,1\nint,1\nstr,61\npcp,0\nparts,0\nflt,0000000000000000\nlpr,0,5,1\nint,1\nint,2\nlpr,3,5,0\nlis,0\nmpr,4\nvar,1\ncop,61\ncom,62\nuna,0\nnull\nsho,1,63\nali,64\nuna,1\nnull\nend\n", "T,G,\nT,A,\nT,J,D,\nT,J,C,\nT,A,\nT,A,\nT,A,\nT,A,\nT,D,\nT,C,\nT,O,B,G,!,\nT,C,\nF,2009,Null\nF,2011,Int\nT,C,\nF,2011,String\nT,J,D,\nT,J,B,\nF,2009,Bool\nF,2011,Int\nT,J,G,\nT,J,E,\nT,C,\nT,C,\nF,2009,Null\nF,2011,Null\nT,K,!,\nend,20,7\n"),
        // all of no children
        reports("cyrs,1\nmat,0\nparts,1\npart,-,0,0\nwit,0,0\nwit,1,0\nnull\nset,0\nset,1\nsl,1,0\nrem,0\ndel,0,0\ncal,,0,0\nret,0,0\nend\n", "T,B,\nend,1,0\n"),
        // clauses after `ret`, and more than one of each
        reports("cyrs,1\nret,0,1\npro,\nnull\nret,0,1\npro,-\nint,1\nwhe\nnull\nend\n", "T,B,\nT,D,\nT,B,\nend,3,0\n"),
    ]
}

// Faults of operators.

fn fault_cases() -> Vec<Stated> {
    vec![
        // all twenty, with an Int and a Null: 2009, nothing, 2011, 2010, nothing
        reports("cyrs,1\ndel,0,20\nbin,0\nint,1\nnull\nbin,1\nint,1\nnull\nbin,2\nint,1\nnull\nbin,3\nint,1\nnull\nbin,4\nint,1\nnull\nbin,5\nint,1\nnull\nbin,6\nint,1\nnull\nbin,7\nint,1\nnull\nbin,8\nint,1\nnull\nbin,9\nint,1\nnull\nbin,10\nint,1\nnull\nbin,11\nint,1\nnull\nbin,12\nint,1\nnull\nbin,13\nint,1\nnull\nbin,14\nint,1\nnull\nbin,15\nint,1\nnull\nbin,16\nint,1\nnull\nbin,17\nint,1\nnull\nbin,18\nint,1\nnull\nbin,19\nint,1\nnull\nend\n", "F,2009,Null\nT,P,\nF,2009,Null\nT,P,\nF,2009,Null\nT,P,\nF,2009,Null\nT,P,\nF,2009,Null\nT,P,\nF,2009,Null\nT,P,\nT,C,\nT,C,\nT,C,\nT,C,\nT,C,\nT,C,\nF,2011,Int\nF,2011,Null\nT,C,\nF,2011,Int\nF,2011,Null\nT,C,\nF,2011,Int\nF,2011,Null\nT,C,\nF,2010,Int\nF,2010,Null\nT,C,\nF,2010,Int\nF,2010,Null\nT,C,\nF,2010,Int\nF,2010,Null\nT,C,\nF,2010,Int\nF,2010,Null\nT,C,\nT,A,\nend,20,20\n"),
        // a fault for each operand, the same one twice
        gives("bin,0\nbool,1\nbool,1\n", "F,2009,Bool\nF,2009,Bool\nT,P,\nend,1,2\n"),
        gives("bin,12\nnull\nnull\n", "F,2011,Null\nF,2011,Null\nT,C,\nend,1,2\n"),
        gives("bin,15\nint,1\nint,1\n", "F,2010,Int\nF,2010,Int\nT,C,\nend,1,2\n"),
        // inner faults first, then those of the operands, left to right
        gives("bin,0\nbin,15\nint,1\nstr,61\nbin,12\nflt,0000000000000000\nbool,1\n", "F,2010,Int\nF,2011,Float\nF,2009,Bool\nF,2009,Bool\nT,P,\nend,1,4\n"),
        // every type name that a sheet can bring about
        reports("cyrs,1\nb,1,N\nb,2,R\nb,3,P\ndel,0,11\nuna,1\nnull\nuna,1\nint,1\nuna,1\nflt,0000000000000000\nuna,1\nbin,0\nint,1\nflt,0000000000000000\nuna,1\nstr,\nuna,1\nlis,0\nuna,1\nmap,0\nuna,1\nvar,1\nuna,1\nvar,2\nuna,1\nvar,3\nuna,1\ncase,2,1\nbool,1\nnull\nint,1\nend\n", "F,2011,Null\nT,C,\nF,2011,Int\nT,C,\nF,2011,Float\nT,C,\nF,2011,Num\nT,C,\nF,2011,String\nT,C,\nF,2011,List\nT,C,\nF,2011,Map\nT,C,\nF,2011,Node\nT,C,\nF,2011,Relationship\nT,C,\nF,2011,Path\nT,C,\nF,2011,Union\nT,C,\nend,11,11\n"),
        gives("una,0\nbool,1\n", "F,2009,Bool\nT,P,\nend,1,1\n"),
        // Any and Unknown meet every need
        has_type("bin,12\npar,61\nunr,61\n", "C,"),
        has_type("bin,15\nunr,61\npar,61\n", "C,"),
        has_type("una,1\nexi\n", "C,"),
        // arithmetic
        has_type("bin,3\nint,1\nint,2\n", "D,"),
        has_type("bin,0\nflt,0000000000000000\nflt,0000000000000000\n", "E,"),
        has_type("bin,0\nflt,0000000000000000\nint,1\n", "F,"),
        has_type("bin,0\nbin,0\nint,1\nflt,0000000000000000\nint,1\n", "F,"),
        has_type("bin,0\nflt,0000000000000000\nbin,0\nint,1\nflt,0000000000000000\n", "F,"),
        has_type("bin,0\npar,61\nint,1\n", "D,"),
        has_type("bin,0\nint,1\npar,61\n", "D,"),
        has_type("bin,0\npar,61\npar,61\n", "A,"),
        has_type("bin,0\nunr,61\nint,1\n", "P,"),
        has_type("bin,0\nint,1\nunr,61\n", "P,"),
        has_type("bin,0\npar,61\nunr,61\n", "P,"),
        gives("bin,0\nbool,1\npar,61\n", "F,2009,Bool\nT,P,\nend,1,1\n"),
        has_type("una,0\nflt,0000000000000000\n", "E,"),
        has_type("una,0\npar,61\n", "A,"),
        has_type("una,0\nunr,61\n", "P,"),
        // a comparison may fail to unify
        has_type("bin,8\nint,1\nstr,61\n", "C,"),
        // conditions must be Bool without a scrutinee, and are faulted before their answer is typed; WHERE and list predicates need not
        gives("case,0,2\nint,1\nuna,0\nbool,1\nuna,1\nnull\nint,1\n", "F,2011,Int\nF,2009,Bool\nF,2011,Null\nT,O,D,P,!,\nend,1,3\n"),
        has_type("case,1,2\nstr,61\nint,1\nnull\nstr,62\nint,1\n", "O,B,D,!,"),
        reports("cyrs,1\nwhe\nint,1\nwit,1,0\nnull\nend\n", "T,D,\nT,B,\nend,2,0\n"),
        has_type("lpr,1,1,1\nint,1\nnull\n", "C,"),
        // IN
        has_type("in\nint,1\nlis,2\nint,1\nflt,0000000000000000\n", "C,"),
        has_type("in\nnull\nlis,1\nint,1\n", "C,"),
        has_type("in\nint,1\nlis,0\n", "C,"),
        has_type("in\nint,1\nlis,1\nunr,61\n", "C,"),
        has_type("in\nunr,61\nlis,1\nstr,61\n", "C,"),
        has_type("in\nint,1\nnull\n", "C,"),
        has_type("in\nint,1\npar,61\n", "C,"),
        has_type("in\nint,1\nunr,61\n", "C,"),
        has_type("in\nint,1\nlis,1\ncase,2,1\nbool,1\nstr,61\nbool,1\n", "C,"),
        gives("in\nlis,1\nint,1\nlis,1\nlis,1\nstr,61\n", "F,2012,List,List\nT,C,\nend,1,1\n"),
        gives("in\nmap,0\nlis,1\nflt,0000000000000000\n", "F,2012,Map,Float\nT,C,\nend,1,1\n"),
        gives("in\nint,1\nmap,0\n", "F,2013,Map\nT,C,\nend,1,1\n"),
        gives("in\nint,1\nstr,61\n", "F,2013,String\nT,C,\nend,1,1\n"),
        gives("in\nint,1\ncase,2,1\nbool,1\nlis,0\nnull\n", "F,2013,Union\nT,C,\nend,1,1\n"),
        gives("in\nuna,0\nnull\nint,1\n", "F,2009,Null\nF,2013,Int\nT,C,\nend,1,2\n"),
    ]
}

// Built-ins.

fn builtin_cases() -> Vec<Stated> {
    vec![
        // each with an argument that it does not take: its name, the type found, what it describes
        gives("call,6964,0,1\nint,1\n", "F,5012,id,Int,Node | Relationship | Path\nT,D,\nend,1,1\n"),
        gives("call,73697a65,0,1\nbool,1\n", "F,5012,size,Bool,List | String\nT,D,\nend,1,1\n"),
        gives("call,68656164,0,1\nstr,61\n", "F,5012,head,String,List\nT,A,\nend,1,1\n"),
        gives("call,7461696c,0,1\nmap,0\n", "F,5012,tail,Map,List\nT,J,A,\nend,1,1\n"),
        gives("call,6c617374,0,1\nnull\n", "F,5012,last,Null,List\nT,A,\nend,1,1\n"),
        gives("call,6b657973,0,1\nlis,0\n", "F,5012,keys,List,Node | Relationship | Map\nT,J,G,\nend,1,1\n"),
        gives("call,76616c756573,0,1\nlis,0\n", "F,5012,values,List,Map\nT,J,A,\nend,1,1\n"),
        gives("call,73697a65,0,1\ncase,2,1\nbool,1\nlis,0\nstr,61\n", "F,5012,size,Union,List | String\nT,D,\nend,1,1\n"),
        // graph entities: `keys` takes no path, `values` nothing but a map
        reports("cyrs,1\nb,1,N\nb,2,R\nb,3,P\ndel,0,9\ncall,6964,0,1\nvar,1\ncall,6964,0,1\nvar,2\ncall,6964,0,1\nvar,3\ncall,6b657973,0,1\nvar,1\ncall,6b657973,0,1\nvar,2\ncall,6b657973,0,1\nvar,3\ncall,76616c756573,0,1\nvar,1\ncall,76616c756573,0,1\nvar,2\ncall,73697a65,0,1\nvar,3\nend\n", "T,D,\nT,D,\nT,D,\nT,J,G,\nT,J,G,\nF,5012,keys,Path,Node | Relationship | Map\nT,J,G,\nF,5012,values,Node,Map\nT,J,A,\nF,5012,values,Relationship,Map\nT,J,A,\nF,5012,size,Path,List | String\nT,D,\nend,9,4\n"),
        // with arguments that they take; Any and Unknown are taken by all
        reports("cyrs,1\ndel,0,12\ncall,73697a65,0,1\nlis,0\ncall,73697a65,0,1\nstr,61\ncall,68656164,0,1\nlis,1\nint,1\ncall,7461696c,0,1\nlis,1\nint,1\ncall,6c617374,0,1\nlis,1\nlis,1\nstr,61\ncall,6b657973,0,1\nmap,0\ncall,76616c756573,0,1\nmap,0\ncall,6964,0,1\npar,61\ncall,68656164,0,1\nunr,61\ncall,7461696c,0,1\npar,61\ncall,6b657973,0,1\nunr,61\ncall,76616c756573,0,1\npar,61\nend\n", "T,D,\nT,D,\nT,D,\nT,J,D,\nT,J,G,\nT,J,G,\nT,J,A,\nT,D,\nT,A,\nT,J,A,\nT,J,G,\nT,J,A,\nend,12,0\n"),
        // with no arguments
        reports("cyrs,1\ndel,0,7\ncall,6964,0,0\ncall,73697a65,0,0\ncall,68656164,0,0\ncall,7461696c,0,0\ncall,6c617374,0,0\ncall,6b657973,0,0\ncall,76616c756573,0,0\nend\n", "T,D,\nT,D,\nT,A,\nT,J,A,\nT,A,\nT,J,G,\nT,J,A,\nend,7,0\n"),
        // only the first argument is checked, after all are typed
        gives("call,6964,1,2\nint,1\nuna,0\nnull\n", "F,2009,Null\nF,5012,id,Int,Node | Relationship | Path\nT,D,\nend,1,2\n"),
        gives("call,73697a65,0,2\nlis,0\nint,1\n", "T,D,\nend,1,0\n"),
        // ASCII case is ignored: `HeAd`; no other name is one: `i`, `ids`, an empty one, `id` with a byte above 127
        has_type("call,48654164,0,1\nlis,1\nint,1\n", "D,"),
        has_type("call,69,0,1\nint,1\n", "A,"),
        has_type("call,696473,0,1\nint,1\n", "A,"),
        has_type("call,,0,1\nint,1\n", "A,"),
        has_type("call,e964,0,1\nint,1\n", "A,"),
        has_type("call,494420,0,1\nint,1\n", "A,"),
    ]
}

// Lists, maps, CASE.

fn literal_cases() -> Vec<Stated> {
    vec![
        has_type("lis,3\nnull\nint,1\nstr,61\n", "J,O,B,G,!,"),
        has_type("lis,2\nstr,61\nnull\n", "J,O,B,G,!,"),
        has_type("lis,3\nnull\nnull\nnull\n", "J,B,"),
        has_type("lis,2\npar,61\nint,1\n", "J,D,"),
        has_type("lis,2\nint,1\npar,61\n", "J,D,"),
        has_type("lis,3\nint,1\nunr,61\nint,2\n", "J,P,"),
        has_type("lis,2\nint,1\nflt,0000000000000000\n", "J,F,"),
        has_type("lis,2\nlis,1\nint,1\nlis,1\nflt,0000000000000000\n", "J,J,F,"),
        has_type("lis,2\nlis,0\nlis,1\nint,1\n", "J,J,D,"),
        has_type("lis,2\nmap,1\nkey,61\nint,1\nmap,1\nkey,62\nstr,61\n", "J,K,61,D,62,G,!,"),
        has_type("lis,2\nmap,1\nkey,61\nint,1\nmap,1\nkey,61\nstr,61\n", "J,A,"),
        // an empty name sorts first, `a` before `aa`
        has_type("map,4\nkey,6161\nint,1\nkey,61\nnull\nkey,\nbool,1\nkey,62\nstr,\n", "K,,C,61,B,6161,D,62,G,!,"),
        // CASE: a union of one is that one; members sorted by byte order of their lines, each once, unions flattened, nothing absorbed
        has_type("case,0,1\nbool,1\nint,1\n", "D,"),
        has_type("case,2,1\nbool,1\nint,1\nint,2\n", "D,"),
        has_type("case,2,1\nbool,1\nint,1\npar,61\n", "O,A,D,!,"),
        has_type("case,2,1\nbool,1\nunr,61\nnull\n", "O,B,P,!,"),
        has_type("case,2,1\nbool,1\nint,1\nflt,0000000000000000\n", "O,D,E,!,"),
        has_type("case,2,2\nbool,1\ncase,2,1\nbool,1\nstr,61\nint,1\nbool,1\nnull\ncase,2,1\nbool,1\nint,1\nbool,1\n", "O,B,C,D,G,!,"),
        reports("cyrs,1\nb,1,N\nb,2,R\nb,3,P\nwhe\ncase,2,12\nbool,1\nunr,61\nbool,1\nvar,3\nbool,1\nvar,2\nbool,1\nvar,1\nbool,1\nmap,0\nbool,1\nlis,0\nbool,1\nstr,61\nbool,1\nbin,0\nint,1\nflt,0000000000000000\nbool,1\nflt,0000000000000000\nbool,1\nint,1\nbool,1\nbool,1\nbool,1\nnull\npar,61\nend\n", "T,O,A,B,C,D,E,F,G,J,A,K,!,L,!,M,!,N,P,!,\nend,1,0\n"),
        // one level only: a union in a list stays
        has_type("case,2,1\nbool,1\nlis,2\nnull\nint,1\nint,1\n", "O,D,J,O,B,D,!,!,"),
    ]
}

// The arms of `unify`.

fn arm_cases() -> Vec<Stated> {
    vec![
        // Any, then Unknown
        unifies("A,", "J,D,", "J,D,"),
        unifies("J,D,", "A,", "J,D,"),
        unifies("A,", "A,", "A,"),
        unifies("A,", "P,", "P,"),
        unifies("P,", "A,", "P,"),
        unifies("A,", "B,", "B,"),
        unifies("P,", "D,", "P,"),
        unifies("D,", "P,", "P,"),
        unifies("B,", "P,", "P,"),
        unifies("P,", "O,B,D,!,", "P,"),
        // equal types
        unifies("H,", "H,", "H,"),
        unifies("B,", "B,", "B,"),
        unifies("O,D,E,!,", "O,D,E,!,", "O,D,E,!,"),
        unifies("M,+,61,", "M,+,61,", "M,+,61,"),
        // Null
        unifies("B,", "D,", "O,B,D,!,"),
        unifies("D,", "B,", "O,B,D,!,"),
        unifies("B,", "O,C,D,!,", "O,B,C,D,!,"),
        unifies("O,C,D,!,", "B,", "O,B,C,D,!,"),
        unifies("B,", "O,B,D,!,", "O,B,D,!,"),
        unifies("O,A,D,!,", "B,", "O,A,B,D,!,"),
        // numbers
        unifies("D,", "E,", "F,"),
        unifies("E,", "D,", "F,"),
        unifies("D,", "F,", "F,"),
        unifies("F,", "D,", "F,"),
        unifies("E,", "F,", "F,"),
        unifies("F,", "E,", "F,"),
        // lists
        unifies("J,D,", "J,E,", "J,F,"),
        unifies("J,A,", "J,D,", "J,D,"),
        unifies("J,D,", "J,B,", "J,O,B,D,!,"),
        unifies("J,O,C,G,!,", "J,D,", "J,O,C,D,G,!,"),
        // maps: fields of both, of the first, of the second
        unifies("K,!,", "K,61,D,!,", "K,61,D,!,"),
        unifies("K,61,D,!,", "K,!,", "K,61,D,!,"),
        unifies("K,61,D,62,E,!,", "K,62,D,63,G,!,", "K,61,D,62,F,63,G,!,"),
        unifies(
            "K,62,D,64,D,!,",
            "K,,G,61,G,63,G,65,G,!,",
            "K,,G,61,G,62,D,63,G,64,D,65,G,!,",
        ),
        // labels; none is not an empty set
        unifies("L,!,", "L,+,61,!,", "L,!,"),
        unifies("L,+,61,!,", "L,!,", "L,!,"),
        unifies("L,+,!,", "L,!,", "L,!,"),
        unifies("L,+,!,", "L,+,61,!,", "L,+,61,!,"),
        unifies("L,+,62,!,", "L,+,61,!,", "L,+,61,62,!,"),
        unifies(
            "L,+,61,63,!,",
            "L,+,61,6161,62,63,!,",
            "L,+,61,6161,62,63,!,",
        ),
        // relationship names
        unifies("M,!,", "M,+,61,", "M,!,"),
        unifies("M,+,61,", "M,!,", "M,!,"),
        unifies("M,+,61,", "M,+,62,", "M,!,"),
        unifies("M,+,,", "M,!,", "M,!,"),
        // a union on the left, on the right, on both sides: what unifies is kept, or all is
        unifies("O,D,G,!,", "E,", "F,"),
        unifies("E,", "O,D,G,!,", "F,"),
        unifies("O,C,G,!,", "D,", "O,C,D,G,!,"),
        unifies("D,", "O,C,G,!,", "O,C,D,G,!,"),
        unifies("O,D,G,!,", "G,", "G,"),
        unifies("O,B,D,!,", "G,", "O,B,G,!,"),
        unifies("O,A,D,!,", "G,", "G,"),
        unifies("O,D,P,!,", "G,", "P,"),
        unifies("O,C,D,!,", "O,E,G,!,", "O,C,E,F,G,!,"),
        unifies("O,D,G,!,", "O,B,D,!,", "O,B,D,G,!,"),
        unifies("O,B,D,!,", "O,D,G,!,", "O,B,D,G,!,"),
        unifies("O,J,D,K,!,!,", "J,E,", "J,F,"),
        // no rule: the two types
        parts("C,", "D,", "C,", "D,"),
        parts("D,", "C,", "D,", "C,"),
        parts("H,", "I,", "H,", "I,"),
        parts("D,", "J,D,", "D,", "J,D,"),
        parts("J,D,", "K,!,", "J,D,", "K,!,"),
        parts("K,61,D,!,", "G,", "K,61,D,!,", "G,"),
        parts("L,!,", "M,!,", "L,!,", "M,!,"),
        parts("N,", "L,+,61,!,", "N,", "L,+,61,!,"),
        // the innermost pair
        parts("J,J,D,", "J,J,G,", "D,", "G,"),
        parts("J,D,", "J,J,G,", "D,", "J,G,"),
        parts("K,61,D,!,", "K,61,J,G,!,", "D,", "J,G,"),
        parts("K,61,J,D,62,C,!,", "K,61,J,E,62,K,!,!,", "C,", "K,!,"),
        parts(
            "K,61,J,K,62,N,!,!,",
            "K,61,J,K,61,D,62,L,!,!,!,",
            "N,",
            "L,!,",
        ),
        // the first field in name order
        parts("K,61,C,62,D,!,", "K,61,D,62,C,!,", "C,", "D,"),
    ]
}

// Texts that are no type lines.

fn nonsense() -> Vec<&'static str> {
    vec![
        // members: unsorted, repeated, one, none, a union
        "O,G,D,!,",
        "O,D,D,!,",
        "O,D,!,",
        "O,!,",
        "O,C,O,D,G,!,!,",
        "O,J,D,D,!,",
        "J,O,G,D,!,",
        // names of maps: unsorted, repeated; labels likewise
        "K,62,D,61,D,!,",
        "K,61,D,61,E,!,",
        "K,6161,D,61,D,!,",
        "K,61,D,,D,!,",
        "K,61,O,D,D,!,!,",
        "L,+,62,61,!,",
        "L,+,61,61,!,",
        // bytes left over, bytes missing
        "",
        ",",
        "D",
        "D,D,",
        "D,,",
        "D,\n",
        "D, ",
        " D,",
        "J,",
        "J,D",
        "J,,",
        "K,",
        "K,!",
        "K,61,D,",
        "K,61,!,",
        "K,D,!,",
        "L,",
        "L,+,",
        "L,+,61,",
        "L,61,!,",
        "L,-,61,!,",
        "M,",
        "M,+,",
        "M,61,",
        "M,+,61,!,",
        "O,",
        "O,D,G,",
        // letters and names
        "Q,",
        "d,",
        "DD,",
        "!,",
        "K,6,D,!,",
        "K,6A,D,!,",
        "K,6g,D,!,",
        "M,+,6,",
        "L,+,6,!,",
    ]
}

fn line_cases() -> Vec<Stated> {
    [
        nonsense()
            .into_iter()
            .map(|s| not_a_type_line(s, "x", 1))
            .collect(),
        nonsense()
            .into_iter()
            .map(|s| not_a_type_line("A,", s, 2))
            .collect(),
        vec![
            reads_as_itself("K,,D,!,"),
            reads_as_itself("M,+,,"),
            reads_as_itself("L,+,,61,!,"),
            reads_as_itself("L,+,!,"),
            reads_as_itself(
                "O,A,B,C,D,E,F,G,H,I,J,A,K,!,K,61,D,!,L,!,L,+,!,L,+,61,!,M,!,M,+,61,N,P,!,",
            ),
            reads_as_itself("O,K,61,D,62,D,!,K,6161,D,!,!,"),
            // names of 255 and 256 bytes (DECISIONS)
            reads_as_itself(text("K,") + many(255, "61") + ",D,!,"),
            not_a_type_line(text("K,") + many(256, "61") + ",D,!,", "A,", 1),
            reads_as_itself(text("L,+,") + many(255, "61") + ",!,"),
            not_a_type_line(text("L,+,") + many(256, "61") + ",!,", "A,", 1),
            reads_as_itself(text("M,+,") + many(255, "61") + ","),
            not_a_type_line(text("M,+,") + many(256, "61") + ",", "A,", 1),
        ],
    ]
    .concat()
}

pub fn cases() -> Vec<Stated> {
    [
        word_cases(),
        fault_cases(),
        builtin_cases(),
        literal_cases(),
        arm_cases(),
        line_cases(),
    ]
    .concat()
}
