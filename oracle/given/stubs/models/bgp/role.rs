//! Stub: not compared.
