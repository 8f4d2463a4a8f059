//! What the tests share.
#![allow(dead_code)]

pub mod ends;
pub mod nodes;
pub mod secp256k1;
pub mod sha256;
pub mod signer;
