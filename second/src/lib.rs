//! The second program: ENS2025's assembler, encoder, decoder, machine, image printing and listing,
//! written from document 01 (the scope), document 02's requests that landed, their settled readings
//! and the manual alone. It shares nothing with the proved programs, so that an answer both give
//! was found twice.

#![forbid(unsafe_code)]

pub mod answer;
pub mod arithmetic;
pub mod assembler;
pub mod back;
pub mod case;
pub mod count;
pub mod image;
pub mod isa;
pub mod listing;
pub mod machine;
pub mod make;
pub mod number;
pub mod program;
pub mod reply;
pub mod show;
pub mod speed;
pub mod text;
