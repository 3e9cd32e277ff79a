/** Calls of the interface, on this host alone. A refusal is an Error with its text. */

let token = sessionStorage.getItem("token") ?? "";

export function useToken(text) {
  token = text;
  sessionStorage.setItem("token", text);
}

export const hasToken = () => token !== "";

export class Refused extends Error {
  constructor(status, text) {
    super(text || `The server answers with status ${status}`);
    this.status = status;
  }
}

async function ask(path, options = {}) {
  const headers = { Accept: "application/json" };
  if (token) headers.Authorization = `Bearer ${token}`;
  // Without credentials of its own the browser asks nobody for a password.
  const reply = await fetch(path.startsWith("/") ? path : `/api/0.6/${path}`, { ...options, headers, credentials: "omit" });
  if (!reply.ok) throw new Refused(reply.status, await reply.text());
  return reply.json();
}

const edges = (bounds) => [bounds.getWest(), bounds.getSouth(), bounds.getEast(), bounds.getNorth()];
const most = [180, 90, 180, 90];
const box = (bounds) => edges(bounds).map((edge, i) => Math.min(most[i], Math.max(-most[i], edge)).toFixed(7)).join(",");

/** Square degrees of a box. */
export function area(bounds) {
  const [west, south, east, north] = edges(bounds);
  return (east - west) * (north - south);
}

/** The map of a box, now or as it was at a moment in seconds. */
export async function map(bounds, at, signal) {
  return (await ask(`map.json?bbox=${box(bounds)}${at ? `&at=${at}` : ""}`, { signal })).elements;
}

/** Main roads, water and places of a tile. */
export const overview = (z, x, y, at, signal) => ask(`/overview/${z}/${x}/${y}${at ? `?at=${at}` : ""}`, { signal });

/** Whether the gateway has the editor iD. */
export const hasEditor = () => ask("/id/there").then((it) => it.there, () => false);

export const history = async (kind, id) => (await ask(`${kind}/${id}/history.json`)).elements;
/** An element with all that says where it is. */
export const full = async (kind, id) => (await ask(`${kind}/${id}${kind === "node" ? "" : "/full"}.json`)).elements;

/** The newest hundred changesets that pass these parameters, and of a user where one is named. */
export async function changesets(name, parameters = {}) {
  const query = new URLSearchParams(name === undefined ? parameters : { display_name: name, ...parameters });
  return (await ask(`changesets.json?${query}`)).changesets;
}

export const changeset = async (id) => (await ask(`changeset/${id}.json?include_discussion=true`)).changeset;
export const comment = (id, text) => ask(`changeset/${id}/comment.json`, form({ text }));
export const user = async () => (await ask("user/details.json")).user;

/** What a changeset did: `{action, element}` in its order. */
export async function download(id) {
  const blocks = (await ask(`changeset/${id}/download.json`)).osmChange;
  return blocks.flatMap((block) => Object.entries(block).flatMap(([action, rows]) => (Array.isArray(rows) ? rows.map((element) => ({ action, element })) : [])));
}

/** Changesets by their ids, of which any may be missing, a hundred a call. */
export async function changesetsOf(ids) {
  const found = new Map();
  for (let place = 0; place < ids.length; place += 100) {
    const part = await ask(`changesets.json?changesets=${ids.slice(place, place + 100).join(",")}`);
    for (const it of part.changesets) found.set(it.id, it);
  }
  return found;
}

/** Notes of a box: open ones and those that were closed within a week, or all there ever were. */
export const notes = async (bounds, ever, signal) => (await ask(`notes.json?bbox=${box(bounds)}${ever ? "&closed=-1" : ""}`, { signal })).features;
export const note = (id) => ask(`notes/${id}.json`);

const form = (fields) => ({ method: "POST", body: new URLSearchParams(fields) });
export const openNote = (place, text) => ask("notes.json", form({ lat: place.lat.toFixed(7), lon: place.lng.toFixed(7), text }));
export const changeNote = (id, what, text) => ask(`notes/${id}/${what}.json`, form({ text }));
