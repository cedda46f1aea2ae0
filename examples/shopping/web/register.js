// The service worker, without which the page needs the network to be opened.
navigator.serviceWorker?.register('sw.js').catch(() => {});
