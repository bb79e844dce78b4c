//! The tree around the compared matcher files. The original's own module file names parts that
//! are not at hand (raw matcher, widener), so only its modifiers stand in here.

#[derive(Copy, Clone, Default, Debug, PartialEq)]
pub struct Modifiers {
    pub nocase: bool,
    pub wide: bool,
    pub dot_all: bool,
}

include!(concat!(env!("OUT_DIR"), "/parts.rs"));

pub mod validator {
    include!(concat!(env!("OUT_DIR"), "/validator.rs"));
}
