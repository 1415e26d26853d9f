// SPDX-License-Identifier: MIT
/** Types of inline.js: those of twox_hash.js, and a `load` that fetches nothing. */
export * from "./twox_hash.js";

/**
 * Loads the module.
 *
 * @throws {TwoxHashError} `unsupported`, `load`
 */
export function load(): Promise<void>;
