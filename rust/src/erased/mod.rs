// SPDX-License-Identifier: MIT
//! The proved crates without their contracts, written by `rust/erase`.

pub mod twox_words;
pub mod twox_plain;
pub mod twox_core;
pub mod twox_hash;
