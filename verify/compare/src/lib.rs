//! The programs of this folder share this: words of hexadecimal digits, titles, requests, random numbers, and the
//! reading of a program's arguments.

pub mod command;
pub mod random;
pub mod request;
pub mod title;
pub mod word;
