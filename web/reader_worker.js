// SPDX-License-Identifier: MIT
/**
 * The thread of reader.js: receives { number, blob, from, to }, and replies { number, bytes } or the error's name and
 * message.
 */
import { readPiece } from "./reader.js";

onmessage = async ({ data: { number, blob, from, to } }) => {
  try {
    const bytes = await readPiece(blob, from, to);
    postMessage({ number, bytes }, [bytes]);
  } catch ({ name, message }) {
    postMessage({ number, name, message });
  }
};
