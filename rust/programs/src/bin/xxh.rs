// SPDX-License-Identifier: MIT
#![cfg_attr(unix, no_main)]
twox_programs::program!(twox_programs::programs::xxh::main);
