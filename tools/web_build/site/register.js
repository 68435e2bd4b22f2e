// Where a server hands out the page, the browser keeps it for use without a network.
if ('serviceWorker' in navigator) {
  const own = {createScriptURL: () => 'service.js'};
  const address = window.trustedTypes ? window.trustedTypes.createPolicy('puzzles-site', own).createScriptURL('') : 'service.js';
  navigator.serviceWorker.register(address).catch(() => undefined);
}
