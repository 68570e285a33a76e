//! What is used of the original's pipeline, cut out of its file: the exceptions, and the access that
//! it makes of Status.

use serde::{Deserialize, Serialize};

use crate::addr::Access;
use crate::cop0::Cop0;

/// The pipeline, as far as an access is made of it.
struct Pipeline<'a> {
    cop0: &'a Cop0,
}

/// The access that the next instruction runs under.
pub fn access_mode(cop0: &Cop0) -> Access {
    Pipeline { cop0 }.access_mode()
}

include!(concat!(env!("OUT_DIR"), "/pipeline.rs"));
