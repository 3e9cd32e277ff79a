/* Starts iD for this server: its interface, its OAuth 2.0, and the application "id", which the gateway knows by itself. */
"use strict";

const site = location.origin;
const connection = { url: site, apiUrl: site, client_id: "id", client_secret: "", redirect_uri: `${site}/id/land.html` };
const container = document.getElementById("id-container");

if (typeof iD === "undefined") {
  document.getElementById("wrong").textContent = "The build of iD couldn't be read.";
} else {
  container.replaceChildren();
  const context = iD.coreContext();
  // Without other servers to choose from.
  context.connection?.()?.apiConnections?.([]);
  context.preauth(connection);
  context.assetPath("/id/").setsDocumentTitle(true).containerNode(container);
  context.init();
}
