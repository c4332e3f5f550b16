// Questions to a server that is busy, or cannot be reached.

import assert from "node:assert/strict";
import {test} from "node:test";

import {ask, askUntilFree} from "../page/questions.mjs";
import {Disconnected} from "../page/connection.mjs";
import {store} from "../page/store.mjs";

/** Set a connection that gives these answers, one after the other. Return the list of its questions. */
function answering(...answers) {
  const asked = [];
  store.message = ["", false];
  store.connection = {ask: async (command) => {
    asked.push(command);
    const answer = answers.shift();
    if (answer instanceof Error) throw answer;
    return answer;
  }};
  return asked;
}

const BUSY = {refused: "Busy", why: "another road is being simulated"};
const settled = () => new Promise((done) => { setImmediate(done); });

test("a refusal is shown", async () => {
  answering(BUSY);
  assert.deepEqual(await ask({figures: {}}), BUSY);
  assert.deepEqual(store.message, ["another road is being simulated", true]);
});

test("a refusal is not shown if its question is no longer wanted", async () => {
  answering({refused: "NoPreview", why: "ask again"}, {refused: "NoPreview", why: "ask again"});
  await ask({diagram: {}}, {isWanted: () => false});
  assert.deepEqual(store.message, ["", false]);
  await ask({diagram: {}}, {isWanted: () => true});
  assert.deepEqual(store.message, ["ask again", true]);
});

test("a busy server is asked again until it answers, and nothing is shown", async (t) => {
  const wait = t.mock.method(globalThis, "setTimeout", () => {});
  const asked = answering(BUSY, BUSY, {lines: "a"});
  const said = askUntilFree({transcript: {}});
  for (const count of [1, 2, 3]) {
    await settled();
    assert.equal(asked.length, count);
    const calls = wait.mock.calls.map((call) => call.arguments);
    assert.deepEqual(calls.map(([, delay]) => delay), Array(Math.min(count, 2)).fill(1000));
    if (count < 3) calls[count - 1][0]();
  }
  assert.deepEqual(await said, {lines: "a"});
  assert.deepEqual(store.message, ["", false]);
});

test("other refusals, and a connection that breaks, end the retries", async () => {
  answering({refused: "Range", why: "too long"});
  assert.equal((await askUntilFree({transcript: {}})).refused, "Range");
  assert.deepEqual(store.message, ["too long", true]);
  answering(new Disconnected("the connection broke"));
  assert.equal(await askUntilFree({transcript: {}}), null);
});
