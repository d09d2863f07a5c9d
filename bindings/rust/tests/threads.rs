//! Calls at the same time, on stacks no larger than the library asks for.

use cyrs::limits::{DEPTH_LIMIT, NESTING_LIMIT, STACK};
use std::thread::{Builder, JoinHandle};

/// What a thread and the frames around a call take beside it.
const AROUND: usize = 65_536;

fn small_stack<T: Send + 'static>(work: fn() -> T) -> JoinHandle<T> {
    Builder::new()
        .stack_size(STACK + AROUND)
        .spawn(work)
        .unwrap()
}

fn deepest_sheet() -> Vec<u8> {
    let levels = "case,3,1\nnull\nbool,1\n".repeat(DEPTH_LIMIT - 1);
    let ends = "int,1\n".repeat(DEPTH_LIMIT - 1);
    format!("cyrs,1\nwhe\n{levels}null\n{ends}end\n").into_bytes()
}

fn deepest_type() -> Vec<u8> {
    format!("{}D,", "J,".repeat(NESTING_LIMIT - 1)).into_bytes()
}

#[test]
fn calls_at_the_same_time() {
    let typed = || cyrs::infer_types(&deepest_sheet()).unwrap().into_text();
    let unified = || cyrs::unify(&deepest_type(), &deepest_type()).unwrap();
    let stored = || {
        let mut store = cyrs::Store::new();
        store.enter(&deepest_type()).unwrap();
        store
    };
    let sheets: Vec<_> = (0..4).map(|_| small_stack(typed)).collect();
    let types: Vec<_> = (0..4).map(|_| small_stack(unified)).collect();
    let stores: Vec<_> = (0..4).map(|_| small_stack(stored)).collect();
    for thread in sheets {
        assert_eq!(thread.join().unwrap(), typed());
    }
    for thread in types {
        assert_eq!(thread.join().unwrap(), unified());
    }
    for thread in stores {
        assert_eq!(thread.join().unwrap(), stored());
    }
}
