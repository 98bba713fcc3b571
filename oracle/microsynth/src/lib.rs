//! The thin root over microsynth's sources: what they import and were not given with gets the least that lets them
//! compile. Nothing here takes part in an answer.

extern crate alloc;

/// Writes `UGen::spec` from the names of the ports: required ones, then optional ones, all at audio rate.
macro_rules! ugen_spec {
    ($name:literal, $(category = $category:ident,)? inputs = [$($input:literal),*],
     $(optional_inputs = [$($optional:literal),*],)? outputs = [$($output:literal),*]) => {
        fn spec(&self) -> crate::node::UGenSpec {
            use crate::context::Rate::Audio;
            use crate::node::{InputSpec, OutputSpec, UGenCategory, UGenSpec};
            static INPUTS: &[InputSpec] = &[
                $(InputSpec { name: $input, rate: Audio, required: true },)*
                $($(InputSpec { name: $optional, rate: Audio, required: false },)*)?
            ];
            static OUTPUTS: &[OutputSpec] = &[$(OutputSpec { name: $output, rate: Audio }),*];
            UGenSpec { name: $name, category: UGenCategory::Utility, inputs: INPUTS, outputs: OUTPUTS }
        }
    };
}

include!(concat!(env!("OUT_DIR"), "/modules.rs"));

/// Whether this is the Rust as it was published, without the changes of `oracle/changes`.
pub const IS_PUBLISHED: bool = matches!(env!("MICROSYNTH_CHANGES").as_bytes(), b"0");

pub mod outcomes;
pub mod routing;
pub mod table;
pub mod tuning;
