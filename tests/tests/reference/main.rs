//! The reference against the statements of document 01 and of the requests after it, mostly on
//! formats so small that every pattern is tried.

mod arithmetic;
mod conversion;
mod counting;
mod explain;
mod fmod;
mod format;
mod integers;
mod ldexp;
mod marks;
mod order;
mod parts;
mod recipe;
mod remainder;
mod rounding;
mod sheet;
mod short;
