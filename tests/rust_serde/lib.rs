//! It has tests alone.
