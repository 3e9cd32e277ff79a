/** Starts the page, or says what it wants for. */

import { tell } from "./dom.js";

try {
  await import("/leaflet/leaflet.esm.js");
  await import("./main.js");
} catch (why) {
  const there = await fetch("/leaflet/leaflet.esm.js", { method: "HEAD" }).then((reply) => reply.ok, () => false);
  const missing = "The map can't be drawn: Leaflet isn't installed beside the gateway (apt-get install libjs-leaflet, and start the gateway again)";
  tell(there ? `The page can't be started: ${why.message}` : missing);
  document.body.dataset.failed = "true";
}
