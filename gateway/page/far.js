/** The map from afar: tiles of main roads, water and places, which the gateway makes (api.overview). */

import * as api from "./api.js";

/** Zooms of these tiles: below them there is nothing to be drawn, above them all is. */
export const FAR = { least: 10, most: 12 };
const AT_ONCE = 4;

const across = (lon, zoom) => Math.floor(((lon + 180) / 360) * 2 ** zoom);
const down = (lat, zoom) => {
  const angle = (Math.max(-85, Math.min(85, lat)) * Math.PI) / 180;
  return Math.floor(((1 - Math.asinh(Math.tan(angle)) / Math.PI) / 2) * 2 ** zoom);
};

/** The tiles of a box, which are asked for a few at a time. */
export async function farTiles(bounds, zoom, at, signal) {
  const most = 2 ** zoom - 1;
  const within = (it) => Math.max(0, Math.min(most, it));
  const rows = [];
  for (let x = within(across(bounds.getWest(), zoom)); x <= within(across(bounds.getEast(), zoom)); x++) {
    for (let y = within(down(bounds.getNorth(), zoom)); y <= within(down(bounds.getSouth(), zoom)); y++) rows.push([x, y]);
  }
  const found = [];
  const work = async () => {
    for (let tile = rows.pop(); tile; tile = rows.pop()) found.push(await api.overview(zoom, tile[0], tile[1], at, signal));
  };
  await Promise.all(Array.from({ length: AT_ONCE }, work));
  return found;
}
