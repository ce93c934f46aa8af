//! Each call of the crate at the edges of its arguments. Expected values are those of `c/answers.c`, of the stored cases, which a
//! model has written, and of the standard.

mod campaign;
mod device;
mod receiver;
mod server;
mod shared;
mod text;
mod threads;
