// Keeps the page for use without a network. It is shown as it was kept; where the server has another one, that is fetched for the next time.

const KEPT = 'puzzles {{version}}';
const FILES = {{files}};

self.addEventListener('install', (event) => event.waitUntil(keep()));
self.addEventListener('activate', (event) => event.waitUntil(forget()));
self.addEventListener('fetch', (event) => event.respondWith(found(event.request)));

async function keep() {
  const kept = await caches.open(KEPT);
  await kept.addAll(FILES.map((file) => new Request(file, {cache: 'reload'})));
}

// Other sites of the same server keep things, too.
async function forget() {
  const names = await caches.keys();
  await Promise.all(names.filter((name) => name.startsWith('puzzles ') && name !== KEPT).map((name) => caches.delete(name)));
}

async function found(request) {
  const kept = await caches.open(KEPT);
  return (await kept.match(request, {ignoreSearch: true})) || fetch(request);
}
