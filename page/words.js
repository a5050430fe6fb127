"use strict";
// What a user writes in the page: numbers among tokens, and a place.

/**
 * A text whose decimal numbers are tokens: words of 17 digits and more, which no token has. Brackets and quotes, which
 * lists of other languages have, are blanks. The places stay.
 */
function inTokens(text) {
  const isWord = /(^|[\s,])(-?\d{17,20})(?=[\s,]|$)/g;
  return text.replace(/[[\](){}"']/g, " ").replace(isWord, (all, before, word) => {
    const id = BigInt(word);
    const isOne = id < 2n ** 64n && id >= -(2n ** 63n);
    return isOne ? before + unsigned(id).toString(16).padStart(16, "0").padEnd(word.length) : all;
  });
}

/** The longitude and the latitude that a text has, the latitude first, or null. A minus may be that of typesetters. */
function placeIn(text) {
  const number = String.raw`([-+]?(?:\d+\.?\d*|\.\d+))°?`;
  const found = new RegExp(String.raw`^\s*${number}\s*[\s,;]\s*${number}\s*$`).exec(text.replace(/[−–]/g, "-"));
  if (!found) return null;
  const [latitude, longitude] = [Number(found[1]), Number(found[2])];
  if (!(Math.abs(latitude) <= 90 && Math.abs(longitude) <= 180)) {
    throw new Error("a latitude is from -90 to 90, a longitude from -180 to 180");
  }
  return [longitude, latitude];
}
