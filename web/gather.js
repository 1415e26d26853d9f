// SPDX-License-Identifier: MIT
/**
 * Returns the files that a user chose or dropped, including those in folders, as `{ path, file }` in the order of their
 * paths.
 */

/** Files of an input. If a folder was chosen, their names begin with it. */
export function filesOfInput(input) {
  return byPath([...input.files].map((file) => ({ path: file.webkitRelativePath || file.name, file })));
}

/** A browser returns those of a folder in any order. */
function byPath(found) {
  return found.sort((left, right) => (left.path < right.path ? -1 : 1));
}

/** Files of a drop. Unreadable items, and items that are neither file nor folder, have an `error` instead of a file. */
export async function filesOfDrop({ items }) {
  // The dropped items are gone after the event, so all entries are requested before the first await.
  const entries = [...items].filter(({ kind }) => kind === "file").map((item) => {
    const entry = item.webkitGetAsEntry?.();
    return entry?.isDirectory ? entry : item.getAsFile() ?? entry;
  });
  const found = await Promise.all(entries.map((entry, i) => (entry ? filesIn(entry) : [neither(`item ${i + 1} of the drop`)])));
  return byPath(found.flat());
}

function neither(path) {
  return { path, error: new Error("This is neither a file nor a folder that this browser can read.") };
}

async function filesIn(entry) {
  if (entry instanceof File) return [{ path: entry.name, file: entry }];
  const path = entry.fullPath.replace(/^\//, "");
  try {
    if (entry.isFile) return [{ path, file: await new Promise((resolve, reject) => entry.file(resolve, reject)) }];
    return (await Promise.all((await childrenOf(entry)).map(filesIn))).flat();
  } catch (error) {
    return [{ path, error }];
  }
}

/** A reader returns some at a time, and none at the end. */
async function childrenOf(folder) {
  const reader = folder.createReader();
  const all = [];
  for (;;) {
    const some = await new Promise((resolve, reject) => reader.readEntries(resolve, reject));
    if (some.length === 0) return all;
    for (const entry of some) all.push(entry);
  }
}
