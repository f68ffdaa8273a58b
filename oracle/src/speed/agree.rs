//! The port's answers are those of the Rust with the port's routines, to the bit, as the oracle compares them.

use crate::call::Call;
use crate::{layer3, layer4};

fn calls() -> impl Iterator<Item = Call> {
    let fitted = [layer3::fits::calls(), layer3::many_heights::calls(), layer3::cutoffs::calls(), layer3::height_cutoffs::calls()];
    fitted.into_iter().flatten().chain(layer4::calls())
}

/// Of the inputs of a call, in the oracle's words.
pub fn agree(name: &str, inputs: impl Iterator<Item = Vec<u64>>) {
    let call = calls().find(|call| call.name == name).expect("the oracle has the call");
    for words in inputs {
        assert!((call.ours)(&words) == (call.theirs)(&words), "{name}: the answers differ");
    }
}
