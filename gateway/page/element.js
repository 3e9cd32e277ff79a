/** An element in the panel: its tags at the moment that the map is of, its history, and the changesets that made it. */

import * as api from "./api.js";
import { changesetPath, elementPath, link, userPath } from "./addresses.js";
import { byId, make, seconds, when } from "./dom.js";
import { nameOf } from "./paint.js";

const panel = () => byId("element");
const LISTED = 200;

/** What is shown: kind and id, and its versions and their changesets as soon as they are there. */
let held = null;

const tagTable = (tags) =>
  make("table", {}, make("tbody", {}, ...Object.entries(tags).map(([key, value]) => make("tr", {}, make("th", { scope: "row" }, key), make("td", {}, value)))));

/** What a version changed of the tags of the one before. */
function changesOf(tags, before) {
  const rows = [];
  for (const [key, value] of Object.entries(tags)) {
    if (!Object.hasOwn(before, key)) rows.push(make("div", {}, make("ins", {}, `${key} = ${value}`)));
    else if (before[key] !== value) rows.push(make("div", {}, `${key} = `, make("del", {}, before[key]), " ", make("ins", {}, value)));
  }
  for (const key of Object.keys(before)) if (!Object.hasOwn(tags, key)) rows.push(make("div", {}, make("del", {}, `${key} = ${before[key]}`)));
  return rows;
}

/** What it is made of, in a few words. */
function sizeOf(it) {
  if (it.visible === false) return "deleted";
  if (it.type === "node") return `${it.lat.toFixed(7)}, ${it.lon.toFixed(7)}`;
  return it.type === "way" ? `${it.nodes.length} nodes` : `${it.members.length} members`;
}

function versionRow(it, before, changeset, isShown) {
  const comment = changeset?.tags?.comment;
  return make(
    "li",
    { class: isShown ? "version shown" : "version", "aria-current": isShown },
    make("strong", {}, `Version ${it.version}`),
    " by ",
    link(userPath(it.user), it.user),
    ", ",
    make("time", { datetime: it.timestamp }, when(it.timestamp)),
    make("div", { class: "small" }, `${sizeOf(it)}, `, link(changesetPath(it.changeset), `changeset ${it.changeset}`), comment ? `: ${comment}` : ""),
    ...changesOf(it.tags ?? {}, before?.tags ?? {}),
  );
}

/** The version that was there at a moment, or the last one; null before the first. */
const versionAt = (versions, at) => versions.filter((it) => !at || seconds(it.timestamp) <= at).at(-1) ?? null;

/** What a way or a relation consists of, as links. */
function partsOf(it) {
  const rows = it.nodes?.map((id) => ({ type: "node", ref: id, role: "" })) ?? it.members ?? [];
  if (!rows.length) return null;
  const listed = rows.slice(0, LISTED).map((row) => make("li", {}, link(elementPath(row), `${row.type} ${row.ref}`), row.role ? ` as ${row.role}` : ""));
  const more = rows.length > LISTED ? [make("li", {}, `and ${rows.length - LISTED} more`)] : [];
  return make("details", {}, make("summary", {}, it.nodes ? `Its ${rows.length} nodes` : `Its ${rows.length} members`), make("ul", {}, ...listed, ...more));
}

function headingOf(it, shown) {
  const name = shown ? nameOf(shown) : "";
  return make("h1", {}, `${it.type[0].toUpperCase()}${it.type.slice(1)} ${it.id}${name ? `: ${name}` : ""}`);
}

function aboutOf(shown, at) {
  if (!shown) return make("p", {}, "It wasn't there yet at the moment that the map is of.");
  const moment = at ? ` (at ${when(at)})` : "";
  return make("p", { class: "small" }, `Version ${shown.version} by ${shown.user}, ${when(shown.timestamp)}; ${sizeOf(shown)}${moment}`);
}

function draw(at) {
  const { it, versions, changesets, wrong } = held;
  const shown = versions ? versionAt(versions, at) : it.version ? it : null;
  const list = make("ol", { "aria-label": "History" });
  if (wrong) list.append(make("li", { class: "wrong" }, wrong));
  else if (!versions) list.append(make("li", {}, "…"));
  else list.append(...versions.map((row, place) => versionRow(row, versions[place - 1], changesets.get(row.changeset), row === shown)).reverse());
  const about = versions || shown ? [aboutOf(shown, at), tagTable(shown?.tags ?? {}), shown && partsOf(shown)] : [];
  panel().replaceChildren(headingOf(it, shown ?? versions?.at(-1)), ...about.filter((part) => part !== null), make("h2", {}, "History"), list);
  panel().dataset.shown = `${it.type}/${it.id}`;
  panel().dataset.version = String(shown?.version ?? "");
}

/** Shows an element, of which kind and id are enough; its versions, the oldest first, or null where they can't be had. */
export async function showElement(it, at) {
  const own = (held = { it, at, versions: null, changesets: new Map(), wrong: "" });
  draw(at);
  try {
    const versions = await api.history(it.type, it.id);
    const changesets = await api.changesetsOf([...new Set(versions.map((row) => row.changeset))]);
    Object.assign(own, { versions, changesets });
  } catch (why) {
    own.wrong = why.message;
  }
  if (held === own) draw(own.at);
  return own.versions;
}

/** The map is of another moment, and so is the panel. */
export function follow(at) {
  if (!held) return;
  held.at = at;
  draw(at);
}
