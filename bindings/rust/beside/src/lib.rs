//! Its tests hold the proved crate against `ciborium-ll`.
