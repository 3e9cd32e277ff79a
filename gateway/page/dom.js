/** Small things of documents: every text goes in as a text, never as HTML. */

/** An element with these attributes (`onclick` and the like are listeners) and children. */
export function make(name, attributes = {}, ...children) {
  const it = document.createElement(name);
  for (const [key, value] of Object.entries(attributes)) {
    if (typeof value === "function") it.addEventListener(key.slice(2), value);
    else if (value !== null && value !== undefined && value !== false) it.setAttribute(key, value === true ? "" : value);
  }
  it.append(...children.filter((child) => child !== null));
  return it;
}

export const byId = (id) => document.getElementById(id);

/** A moment as people here write it. */
export function when(moment) {
  const it = new Date(typeof moment === "number" ? moment * 1000 : moment);
  return it.toLocaleString(undefined, { dateStyle: "medium", timeStyle: "medium" });
}

/** Seconds since 1970, of a moment as the interface writes it. */
export const seconds = (text) => Math.floor(Date.parse(text) / 1000);

/** OSM writes times of notes as `2023-11-14 22:13:20 UTC`. */
export const plain = (text) => text.replace(" UTC", "Z").replace(" ", "T");

export function tell(text) {
  byId("state").textContent = text;
}
