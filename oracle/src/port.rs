//! The port's functions of numbers, and which C names the library has.
use crate::c_names;

mod stand_ins {
    include!(concat!(env!("OUT_DIR"), "/stand_ins.rs"));
}

/// Whether the library has the C name of the call.
pub fn has(call: &str) -> bool {
    let name = format!("gf_{call}");
    stand_ins::PRESENT.contains(&name.as_str())
}

// SAFETY, for each: numbers by value, no precondition.
pub fn nint(x: f64) -> i64 {
    unsafe { c_names::gf_nint(x) }
}

pub fn round(x: f64) -> f64 {
    unsafe { c_names::gf_round(x) }
}

pub fn sqrt(x: f64) -> f64 {
    unsafe { c_names::gf_sqrt(x) }
}
