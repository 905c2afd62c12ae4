//! A second implementation of the page store's check, reads, deeds, lay-down, listing and
//! corrections, written from the papers, and what it takes to compare it with the library: a builder
//! of files and the library's C interface.
//!
//! "Document 01" is the scope paper, "G" the GVRS format description 1.4, "reading N" the N-th of
//! the readings that the project takes of them, "Req N" a change request.

pub mod build;
pub mod clock;
pub mod keys;
pub mod library;
pub mod page;
pub mod plans;
pub mod prng;
pub mod random_page;
pub mod second;
pub mod session;
pub mod worn_page;
