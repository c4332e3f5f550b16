// The structure of the page: only actions change the store, and pure modules touch neither store nor page.

import assert from "node:assert/strict";
import {readFileSync, readdirSync} from "node:fs";
import {test} from "node:test";

const PAGE = new URL("../page/", import.meta.url);
const SOURCES = new Map(readdirSync(PAGE).filter((name) => name.endsWith(".mjs")).map((name) =>
  [name.replace(".mjs", ""), readFileSync(new URL(name, PAGE), "utf8")]));
const ACTIONS = ["changeactions", "comparison", "draft", "filenames", "loader", "measurements", "navigation", "session", "store", "variants"];
const PURE = ["assign", "changetexts", "connection", "dayclock", "decoding", "estimates", "geometry", "labels", "layers",
              "messages", "roadnames", "rows", "shapetexts", "stamps", "storage", "tables", "undo", "units"];
// The store's watchers, and a cache of painted tiles.
const KEPT_OUTSIDE = ["store watchers", "picture tilesKept"];
const importsOf = (source) =>
  [...source.matchAll(/from "\.\/(\w+)\.mjs"/g)].map(([, name]) => name);

test("only actions change the store", () => {
  const writes = new RegExp([
    /\bstore(?:\.\w+)*(?:\[\w+\])?\s*(?:[-+*|&?]{0,2}=[^=>]|\+\+|--)/, /\bassign\(store/,
    /\bstore\.[\w.]+\.(?:push|pop|set|add|clear|delete|splice)\(/].map(({source}) => source).join("|"));
  for (const [name, source] of SOURCES) {
    if (!ACTIONS.includes(name)) assert.doesNotMatch(source, writes, name);
  }
  for (const name of ACTIONS) assert.match(SOURCES.get(name), writes, name);
});

test("actions import no view, and touch no element", () => {
  for (const name of ACTIONS) {
    assert.doesNotMatch(SOURCES.get(name), /document\.|\belements\.mjs/, name);
    for (const other of importsOf(SOURCES.get(name))) {
      assert.doesNotMatch(SOURCES.get(other), /^export function begin\(/m, `${name}: ${other}`);
    }
  }
});

test("pure modules import only pure modules", () => {
  for (const name of PURE) {
    const others = importsOf(SOURCES.get(name));
    assert.deepEqual(others.filter((other) => !PURE.includes(other)), [], name);
    assert.doesNotMatch(SOURCES.get(name), /\bdocument\.|\bstore\./, name);
  }
});

test("the state of the page is in the store, and not in modules", () => {
  const state = /^(?:export )?(?:let (\w+)|const (\w+) = (?:new (?!URL|RegExp)|\[\]|\{\}))/gm;
  const found = [...SOURCES].flatMap(([name, source]) =>
    [...source.matchAll(state)].map(([, one, other]) => `${name} ${one ?? other}`));
  assert.deepEqual(found.sort(), KEPT_OUTSIDE.sort());
});

test("only one module loads levels of rows", () => {
  const loads = [...SOURCES].filter(([, source]) => /\.load\(/.test(source)).map(([name]) => name);
  assert.deepEqual(loads, ["loader"]);
});

test("no module opts out of its types", () => {
  const out = new RegExp([/@ts-\w+/, /\{[^{}]*\bany\b[^{}]*\}/, /\bas any\b/]
    .map(({source}) => source).join("|"));
  for (const [name, source] of SOURCES) {
    const comments = source.match(/\/\*\*[\s\S]*?\*\/|\/\/.*/g).join("\n");
    assert.doesNotMatch(comments, out, name);
  }
});

test("fields are set by `assign`, which checks their names", () => {
  for (const [name, source] of SOURCES) {
    if (name !== "assign") assert.doesNotMatch(source, /Object\.assign\(/, name);
  }
});

test("each module begins with a comment that says what it is", () => {
  for (const [name, source] of SOURCES) assert.match(source, /^\/\/ [A-Z].*/, name);
});
