//! The separate machine by itself, without the tool it is compared with.

pub mod machine;

#[cfg(test)]
mod tests;
