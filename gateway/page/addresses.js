/** Addresses of the page, which JOSM, iD and people open: what they show, and links that stay on the page. */

import { make } from "./dom.js";

const ROUTES = [
  [/^\/(node|way|relation)\/(\d{1,19})(?:\/history)?\/?$/, "element"],
  [/^\/changeset\/(\d{1,19})\/?$/, "changeset"],
  [/^\/note\/(\d{1,19})\/?$/, "note"],
  [/^\/user\/([^/]+)(?:\/(?:history|notes))?\/?$/, "user"],
  [/^\/history\/?$/, "changesets"],
];

/** What a path shows: the name of its kind and its parts, or null. */
export function routeOf(path) {
  for (const [pattern, name] of ROUTES) {
    const found = pattern.exec(path);
    if (found) return { name, parts: found.slice(1).filter((it) => it !== undefined).map(decoded) };
  }
  return null;
}

function decoded(text) {
  try {
    return decodeURIComponent(text);
  } catch {
    return text;
  }
}

export const elementPath = (it) => `/${it.type}/${it.id ?? it.ref}`;
export const changesetPath = (id) => `/changeset/${id}`;
export const userPath = (name) => `/user/${encodeURIComponent(name)}`;

/** A link to an address of the page. */
export const link = (path, ...children) => make("a", { href: path }, ...children);

/** Where `#map=` says that the map is: zoom, latitude, longitude; or null. */
export function placeOf(hash) {
  const found = /(?:^#|&)map=(\d+(?:\.\d+)?)\/(-?[\d.]+)\/(-?[\d.]+)/.exec(hash);
  const [zoom, lat, lon] = found?.slice(1).map(Number) ?? [];
  return found && Math.abs(lat) <= 90 && Math.abs(lon) <= 180 ? { zoom: Math.round(zoom), lat, lon } : null;
}

/** Calls `open` where a link to an address of the page is followed, and where the browser goes back or forth. */
export function listen(open) {
  document.addEventListener("click", (event) => {
    const it = event.target.closest?.("a[href^='/']");
    if (!it || event.button || event.ctrlKey || event.metaKey || event.shiftKey || event.altKey || !routeOf(it.pathname)) return;
    event.preventDefault();
    go(it.pathname);
    open();
  });
  addEventListener("popstate", open);
}

/** The page's address becomes this one; where the map is stays in it. */
export function go(path) {
  if (location.pathname !== path) history.pushState(null, "", path + location.hash);
}
