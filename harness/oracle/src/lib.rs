//! usvg 0.49.0's own filter code, run on sheets and function records: what the library is compared with.
//! Which lines are the crate's and which are ours: ../README.md.

#![allow(dead_code, unused_imports, unexpected_cfgs, private_interfaces)]

mod encode;
mod names_list;
pub mod octaves;
mod parser;
pub mod run;
mod sheet;
mod subregion;
mod tree;
pub mod typed;

// As in the crate's lib.rs.
pub(crate) use parser::{Options, f32_bound};
pub(crate) use tree::*;

pub use names_list::{AIDS, EIDS};
pub use parser::svgtree::{AId, EId};
pub use sheet::kind_of;

/// Once, before the first call. The crate's panics are answers (refusal 6); any other panic is a fault of this code.
pub fn begin() {
    names_list::check();
    let before = std::panic::take_hook();
    std::panic::set_hook(Box::new(move |info| {
        if !run::in_crate() {
            before(info);
        }
    }));
}
