// While a button is held down, nothing moves or replaces it.

import assert from "node:assert/strict";
import {test} from "node:test";

import {notify, holdButton, releaseButton, tell, watch} from "../page/store.mjs";

test("parts that move buttons are shown once no button is held down, and only once", () => {
  const shown = [];
  watch(["changes"], () => shown.push("lines"));
  watch(["news", "preview"], () => shown.push("news"));
  watch(["changedRows"], () => shown.push("repainted"));
  watch(["message"], () => shown.push("said"));
  holdButton();
  notify("changes");
  notify("news", "changes", "changedRows");
  tell("Took 1 change.");
  assert.deepEqual(shown, ["repainted"]);
  notify("preview");                    // what the press itself opens
  assert.deepEqual(shown, ["repainted", "news"]);
  releaseButton();
  assert.deepEqual(shown.slice(2).sort(), ["lines", "news", "said"]);
  releaseButton();
  notify("changes");
  assert.deepEqual(shown.slice(5), ["lines"]);
});
