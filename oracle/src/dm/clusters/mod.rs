pub mod decl;

// The published file, unmodified: ../../../../build puts it beside this one.
pub mod scenes;
