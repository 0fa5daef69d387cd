//! An empty stand-in, so that cargo finds the name; the lifted CSV reader, which
//! needs the real crate, is left out.
