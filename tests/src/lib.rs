//! A second console end of a command terminal line, written from page 01 and
//! the requests alone so that another program can be compared with it byte for
//! byte.

pub mod compare;
pub mod computed;
pub mod coverage;
pub mod generator;
pub mod line;
pub mod message;
pub mod moving;
pub mod replay;
pub mod screen;
pub mod script;
pub mod settings;
pub mod timing;
pub mod vectors;
