//! The output that the model wants. encoding_rs must agree with it over the Standard's tables.

use crate::plan::Plan;
use crate::prepared::Prepared;
use soak::checks::{decoded_by_theirs, encoded_by_theirs};
use soak::codec::Codec;
use soak::model;

/// Checks whether the codec's decoder begins anew after a last call: it keeps no mode, and no mark of an error.
fn begins_anew(codec: Codec) -> bool {
    !matches!(codec, Codec::Iso2022Jp | Codec::Replacement)
}

/// Returns the text of the source, and its text the last of `times` times by one decoder.
fn texts(plan: &Plan, prepared: &Prepared, times: usize) -> (Vec<char>, Vec<char>) {
    let once = model::decoders::decode(plan.codec, &prepared.tables, &plan.source);
    if times < 2 || begins_anew(plan.codec) {
        return (once.clone(), once);
    }
    (once, model::decoders::decode_last(plan.codec, &prepared.tables, &plan.source, times))
}

/// Returns the text of the plan's source, and its text the last of `times` times by one decoder.
pub fn decoded(plan: &Plan, prepared: &Prepared, times: usize) -> Result<(String, String), String> {
    let (once, last) = texts(plan, prepared, times);
    let once: String = once.into_iter().collect();
    if let Some(encoding) = prepared.theirs {
        let theirs = decoded_by_theirs(encoding, &plan.source);
        if theirs != once {
            return Err(format!("encoding_rs and the model differ: {theirs:?}, {once:?}"));
        }
    }
    Ok((once, last.into_iter().collect()))
}

/// Returns the bytes of these scalars.
pub fn encoded(plan: &Plan, prepared: &Prepared, scalars: &[char]) -> Result<Vec<u8>, String> {
    let wanted = model::encoders::encode(plan.codec, &prepared.tables, &prepared.pointers, scalars, plan.calls);
    if let Some(encoding) = prepared.theirs {
        let theirs = encoded_by_theirs(encoding, &scalars.iter().collect::<String>(), plan.calls);
        if theirs != wanted {
            return Err(format!("encoding_rs and the model differ: {theirs:02X?}, {wanted:02X?}"));
        }
    }
    Ok(wanted)
}
