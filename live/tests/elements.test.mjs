// The page has the elements that its modules use, and each is of the kind that its type says.

import assert from "node:assert/strict";
import {readFileSync} from "node:fs";
import {test} from "node:test";

const read = (name) => readFileSync(new URL(name, import.meta.url), "utf8");
const KINDS = {button: "Button", canvas: "Canvas", details: "Details", dialog: "Dialog", div: "Div",
               fieldset: "FieldSet", form: "Form", h2: "Heading", input: "Input", label: "Label",
               ol: "OList", p: "Paragraph", select: "Select", span: "Span", table: "Table",
               ul: "UList"};
const MADE = {previewTitles: "p", previewList: "ul", previewDays: "span", previewCovers: "div",
              previewOver: "div", previewFigures: "div"};      // by preview.mjs

/** Return the tags of the elements that have an id, by their ids. */
function tagsOf(html) {
  const tags = [...html.matchAll(/<(\w+)\s[^>]*?\bid="(\w+)"/g)].map(([, tag, id]) => [id, tag]);
  return new Map([...tags, ...Object.entries(MADE)]);
}

test("each element that has a type is on the page, and is of that kind", () => {
  const [tags, text] = [tagsOf(read("../page.html")), read("../page/elements.mjs")];
  const records = [...text.matchAll(/Record<([^,]*), HTML(\w*)Element>/g)];
  assert.ok(records.length > 10);
  for (const [, names, kind] of records) {
    for (const [, id] of names.matchAll(/"(\w+)"/g)) {
      assert.ok(tags.has(id), `page.html has no element ${id}`);
      assert.equal(kind, KINDS[tags.get(id)] ?? "", id);
    }
  }
});

test("a preview makes the elements that have types", () => {
  const text = read("../page/preview.mjs");
  for (const [id, tag] of Object.entries(MADE)) {
    assert.match(text, new RegExp(`element\\("${tag}", "", \\{id: "${id}"`), id);
  }
});

test("drawing.mjs exports what drawing.js has, and each name has a type", async () => {
  const types = [...read("../../viewer/drawing.d.mts").matchAll(/^export declare (?:const|function|class) (\w+)/gm)]
    .map(([, name]) => name);
  const drawing = await import("../../viewer/drawing.mjs");
  assert.deepEqual(Object.keys(drawing), types.sort());
  for (const [name, value] of Object.entries(drawing)) assert.notEqual(value, undefined, name);
  assert.equal(drawing.speedColour(5, 5), "#a5db36");    // the light end of viridis
});
