//! The built program, from outside: what it prints, its exit status, and what it leaves in the file system.

mod advice;
mod check;
mod choosing;
mod column;
mod crystal;
mod cut;
mod draw;
mod fields;
mod find;
mod folder;
mod manners;
mod models;
mod names;
mod pair;
mod save;
mod texts;
mod tools;
mod traced;
mod walk;
