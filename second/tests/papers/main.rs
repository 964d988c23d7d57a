//! The papers as tests: every worked example of document 01, and of document 02's requests that
//! landed, and every row and sentence of their settled readings, each as a named case with its expected answer.

mod columns;
mod edges;
mod form;
mod image;
mod instructions;
mod lines;
mod listing;
mod loans;
mod order;
mod reserved;
mod runs;
mod sources;
mod steps;
mod support;
mod table;
