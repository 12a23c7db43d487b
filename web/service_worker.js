'use strict';
// Keeps a served copy of the page, so that it opens without a network. EDITION is the sum of the files.
const EDITION = 'EDITION', PREFIX = 'units-page-';
const FILES = ['./', 'index.html', 'manifest.webmanifest', 'icon.svg'];

addEventListener('install', event => event.waitUntil(
    caches.open(PREFIX + EDITION)
        .then(cache => cache.addAll(FILES.map(file => new Request(file, {cache: 'reload'}))))));

// Other pages of the same server may have caches too.
addEventListener('activate', event => event.waitUntil(caches.keys().then(names => Promise.all(names
    .filter(name => name.startsWith(PREFIX) && name !== PREFIX + EDITION).map(name => caches.delete(name))))));

// Only files of the page: everything else is left to the browser.
addEventListener('fetch', event => {
    const url = new URL(event.request.url);
    const isOwn = FILES.some(file => new URL(file, registration.scope).pathname === url.pathname);
    if (event.request.method !== 'GET' || url.origin !== location.origin || !isOwn) return;
    event.respondWith(caches.open(PREFIX + EDITION).then(cache => cache.match(event.request, {ignoreSearch: true}))
        .then(kept => kept ?? fetch(event.request)));
});
