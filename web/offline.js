// SPDX-License-Identifier: MIT
/**
 * Caches the page's files, so that it works without a network after the first visit. With a network, each file is
 * requested again and its copy replaced. page_files.json has their names.
 */
const CACHE = "twox_hash";

async function keepAll() {
  const names = await (await fetch("page_files.json", { cache: "reload" })).json();
  const cache = await caches.open(CACHE);
  await cache.addAll(["./", ...names].map((name) => new Request(name, { cache: "reload" })));
}

async function answer(request) {
  let fresh;
  try {
    fresh = await fetch(request);
  } catch (error) {
    const older = await (await caches.open(CACHE)).match(request);
    if (older) return older;
    throw error;
  }
  if (fresh.ok) await renew(request, fresh.clone()).catch(() => {}); // if there is no space, the older one stays
  return fresh;
}

async function renew(request, fresh) {
  const cache = await caches.open(CACHE);
  if (await cache.match(request)) await cache.put(request, fresh);
}

addEventListener("install", (event) => event.waitUntil(keepAll().then(() => skipWaiting())));
addEventListener("activate", (event) => event.waitUntil(clients.claim()));
addEventListener("fetch", (event) => {
  if (event.request.method === "GET") event.respondWith(answer(event.request));
});
