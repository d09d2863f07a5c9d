//! Pairs of type lines to unify.

use super::family::{turns, Family, Ready, Side, Turns};
use crate::calls;
use crate::library::UnifyCall;
use crate::limits::{UNIFY_OUT_BYTES, WORK_BYTES};
use crate::reference::stand_ins::SmolStr;
use crate::reference::ty::Type;
use crate::reference::unify::unify;
use crate::type_line::{read_type_line, type_line};
use std::hint::black_box;
use std::rc::Rc;

type Pairs = Vec<(Type, Type)>;

/// Makes pairs of one kind.
type Make = fn() -> Pairs;

/// Two type lines.
type Lines = (Vec<u8>, Vec<u8>);

fn name(i: usize) -> SmolStr {
    SmolStr::new(format!("n{i:04}"))
}

fn list(element: Type) -> Type {
    Type::List(Box::new(element))
}

fn map(count: usize, value: &Type) -> Type {
    Type::Map((0..count).map(|i| (name(i), value.clone())).collect())
}

/// `levels` lists, maps of one entry or unions with Null around a type, in turn.
fn nested(levels: usize, inner: Type) -> Type {
    (0..levels).fold(inner, |ty, i| match i % 3 {
        0 => list(ty),
        1 => Type::Map([(name(0), ty)].into_iter().collect()),
        _ => Type::union([Type::Null, ty]),
    })
}

/// A union of lists of maps that differ in one name.
fn wide_union(count: usize, from: usize) -> Type {
    let map = |i| Type::Map([(name(i), Type::Int)].into_iter().collect());
    Type::union((from..from + count).map(|i| list(map(i))))
}

fn small_types() -> Pairs {
    vec![
        (Type::Int, Type::Float),
        (Type::Null, Type::String),
        (list(Type::Int), list(Type::Num)),
        (Type::Bool, Type::String),
        (Type::Any, Type::Path),
    ]
}

fn wide_unions() -> Pairs {
    vec![
        (wide_union(24, 0), Type::Bool),
        (Type::Null, wide_union(24, 0)),
        (wide_union(6, 0), wide_union(6, 100)),
    ]
}

fn deep_nesting() -> Pairs {
    vec![
        (nested(24, Type::Int), nested(24, Type::Float)),
        (nested(12, Type::Int), nested(12, Type::String)),
    ]
}

fn wide_maps() -> Pairs {
    vec![
        (map(70, &Type::Int), map(70, &Type::Float)),
        (map(35, &Type::Int), map(70, &Type::Int)),
    ]
}

/// The reference's `unify` between reading and writing type lines, with no limits and no buffers.
fn bare(a: &[u8], b: &[u8]) -> Option<Vec<u8>> {
    let a = read_type_line(a)?;
    let b = read_type_line(b)?;
    unify(&a, &b).ok().map(|ty| type_line(&ty))
}

fn call_turns(call: UnifyCall, pairs: &Rc<Vec<Lines>>) -> Turns {
    let (mut work, mut out) = (vec![0; WORK_BYTES], vec![0; UNIFY_OUT_BYTES]);
    turns(pairs, move |(a, b)| {
        black_box(call(a, b, &mut work, &mut out));
    })
}

fn ready(linked: UnifyCall, pairs: Pairs) -> Ready {
    let lines = pairs.iter().map(|(a, b)| (type_line(a), type_line(b)));
    let lines: Rc<Vec<Lines>> = Rc::new(lines.collect());
    let bytes: usize = lines.iter().map(|(a, b)| a.len() + b.len()).sum();
    let plain = turns(&lines, |(a, b)| {
        black_box(bare(a, b));
    });
    Ready {
        bytes: bytes / lines.len(),
        calls: lines.len(),
        sides: vec![
            (Side::Library, call_turns(linked, &lines)),
            (Side::Reference, call_turns(calls::unify_call, &lines)),
            (Side::Bare, plain),
        ],
    }
}

pub fn families(linked: UnifyCall) -> Vec<Family> {
    let kinds: [(&str, Make); 4] = [
        ("small-types", small_types),
        ("wide-unions", wide_unions),
        ("deep-nesting", deep_nesting),
        ("wide-maps", wide_maps),
    ];
    let family = |(name, pairs): (&str, Make)| {
        Family::new(format!("unify/{name}"), move || ready(linked, pairs()))
    };
    kinds.into_iter().map(family).collect()
}
