//! One test for each open point of page 01, named by its subject.

mod common;

#[path = "open_points/found.rs"]
mod found;
#[path = "open_points/keys.rs"]
mod keys;
#[path = "open_points/messages.rs"]
mod messages;
#[path = "open_points/screen.rs"]
mod screen;
#[path = "open_points/steps.rs"]
mod steps;
