// SPDX-License-Identifier: MIT
/** The fields of the seed and the secret. */
import { SECRET_MINIMUM_LENGTH } from "./twox_hash.js";
import { $ } from "./text.js";

/** Returns the seed in the field, or undefined if there is none. Throws if it is no seed. */
function readSeed() {
  const text = $("seed").value.trim();
  if (text === "") return undefined;
  if (!/^(0x[0-9a-f]+|[0-9]+)$/i.test(text) || BigInt(text) >= 2n ** 64n) {
    throw new Error("The seed must be an integer from 0 to 18446744073709551615, decimal or hexadecimal after 0x.");
  }
  return BigInt(text);
}

/** Returns the secret in the field, or undefined if there is none. Throws if it is no secret. */
function readSecret() {
  const text = $("secret").value;
  if (text === "") return undefined;
  const isHex = document.querySelector("[name=form]:checked").value === "hex";
  const bytes = isHex ? bytesOfHex(text) : new TextEncoder().encode(text);
  if (bytes.length < SECRET_MINIMUM_LENGTH) {
    throw new Error(`This secret has ${bytes.length} bytes. It needs at least ${SECRET_MINIMUM_LENGTH}.`);
  }
  return bytes;
}

function bytesOfHex(text) {
  const digits = text.replace(/[\s:]/g, "");
  const wrong = digits.match(/[^0-9a-f]/i);
  if (wrong) throw new Error(`"${wrong[0]}" is not a hexadecimal digit.`);
  if (digits.length % 2) throw new Error(`There are ${digits.length} hexadecimal digits. Each byte needs two.`);
  return Uint8Array.from(digits.match(/../g) ?? [], (pair) => parseInt(pair, 16));
}

/** Returns the value of a field, and shows its error: `error` is empty if there is none. */
export function readField(field, read) {
  let error = "";
  let value;
  try {
    value = read();
  } catch (thrown) {
    error = thrown.message;
  }
  if ($(`${field}-error`).textContent !== error) $(`${field}-error`).textContent = error;
  const isWrong = String(error !== "");
  if ($(field).getAttribute("aria-invalid") !== isWrong) $(field).setAttribute("aria-invalid", isWrong);
  return { value, error };
}

/**
 * Returns the seed and the secret. `wrong` has the names of the invalid fields. `id` is one text for each seed and
 * secret, and undefined if a field is invalid.
 */
export function readKey() {
  const seed = readField("seed", readSeed);
  const secret = readField("secret", readSecret);
  const wrong = [seed.error && "the seed", secret.error && "the secret"].filter(Boolean).join(" and ");
  const id = wrong ? undefined : `${seed.value ?? ""} ${secret.value ?? ""}`;
  return { seed: seed.value, secret: secret.value, wrong, id };
}
