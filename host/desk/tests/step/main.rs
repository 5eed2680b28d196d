//! `desk step`: its commands against the library's events, a script of 200 commands, and a real terminal.

mod commands;
mod listings;
mod script;
mod stepping;
mod terminal;
mod tmux;
