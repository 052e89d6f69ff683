//! Judges of sheets, runners and hand-outs that are wrong on purpose, each in one
//! small way, and shops made of them. The comparison must find out every one of
//! them, and the search every shop; that shows that both are able to fail, and that
//! the generator reaches what tells right from wrong.

pub mod calls;
pub mod hand_outs;
pub mod judges;
#[cfg(test)]
mod lessons;
pub mod runners;
pub mod shops;
