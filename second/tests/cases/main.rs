//! Cases and replies: the generator, the format, the committed files and docs/COMPARED.md.

mod back;
mod columns;
mod committed;
mod format;
mod made;
mod reserved;
