//! Wrong shrinkers, one file for each course error. Each replaces one step of the plain one.

pub mod nothing_as_zero;
pub mod one_member;
pub mod one_pass;
pub mod split_by_finals;
pub mod summed_finals;
pub mod written_zero;
