//! A second program of the margin calculation, written from the paper alone,
//! and the machinery that compares it with the program under test.

pub mod bench;
pub mod books;
pub mod brute;
pub mod compare;
pub mod encode;
pub mod faults;
pub mod listing;
pub mod ore;
pub mod plain;
pub mod random;
pub mod record;
pub mod second;
pub mod server;
pub mod shrink;
pub mod under_test;
