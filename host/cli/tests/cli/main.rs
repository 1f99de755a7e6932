//! Tests of the command line, as a user or a program runs it.

mod check;
mod claims;
mod commands;
mod crash;
mod demo;
mod disks;
mod draw;
mod faults;
mod files;
mod help;
mod json;
mod large;
mod late;
mod locks;
mod numbers;
mod order;
mod owners;
mod pages;
mod pieces;
mod pipes;
mod refusals;
mod status;
mod support;
