/* Hands the address with the code over to the window of iD that opened this one, as its library osm-auth waits for it. */
"use strict";

if (window.opener && typeof window.opener.authComplete === "function") window.opener.authComplete(location.href);
else new BroadcastChannel("osm-api-auth-complete").postMessage(location.href);
window.close();
