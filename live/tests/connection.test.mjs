// The connection to the server, with sockets that a test opens, answers and breaks.

import assert from "node:assert/strict";
import {test} from "node:test";

import {Connection, Disconnected, TAKEN_OVER} from "../page/connection.mjs";

/** Return an open connection, and a record of its sockets, what it sent and received, and its waits. */
function openConnection() {
  const found = {sockets: [], sent: [], pushed: [], lost: [], waits: []};
  const connection = new Connection({
    open: () => {
      const socket = {readyState: 1, send: (text) => found.sent.push(JSON.parse(text)),
                      close: () => { socket.isClosed = true; }};
      found.sockets.push(socket);
      return socket;
    },
    onOpen: () => connection.admit(),
    onPush: (value) => found.pushed.push(value),
    onLost: (...words) => found.lost.push(words),
    later: (act, wait) => found.waits.push([act, wait]),
  });
  connection.connect();
  found.sockets[0].onopen();
  return {connection, found};
}

const answer = (found, value) => found.sockets.at(-1).onmessage({data: JSON.stringify(value)});

test("an answer goes to its question, and a message without a number is pushed", async () => {
  const {connection, found} = openConnection();
  const [one, other] = [connection.ask({cells: {step: 1}}), connection.ask({cells: {step: 2}})];
  assert.deepEqual(found.sent, [{id: 1, cells: {step: 1}}, {id: 2, cells: {step: 2}}]);
  answer(found, {clock: {now: 5}});
  answer(found, {id: 2, cells: "b"});
  answer(found, {id: 1, cells: "a"});
  answer(found, {id: 9, cells: "nobody's"});
  assert.equal((await one).cells, "a");
  assert.equal((await other).cells, "b");
  assert.deepEqual(found.pushed, [{clock: {now: 5}}]);
});

test("six questions are open at most, and one of the first turn is sent before those that wait", async () => {
  const {connection, found} = openConnection();
  for (let step = 1; step <= 7; step++) connection.ask({cells: {step}});
  connection.ask({gesture: {key: "k"}}, "first");
  assert.equal(found.sent.length, 6);
  answer(found, {id: 3});
  assert.deepEqual(found.sent.at(-1), {id: 7, gesture: {key: "k"}});
  answer(found, {id: 1});
  assert.deepEqual(found.sent.at(-1), {id: 8, cells: {step: 7}});
});

test("three gestures are open at most, so that other questions are sent meanwhile", () => {
  const {connection, found} = openConnection();
  for (let key = 1; key <= 9; key++) connection.ask({gesture: {key}}, "first");
  for (let step = 1; step <= 3; step++) connection.ask({cells: {step}});
  assert.deepEqual(found.sent.map(({gesture}) => gesture?.key), [1, 2, 3, undefined, undefined, undefined]);
  answer(found, {id: 5});
  connection.ask({cells: {step: 4}});
  assert.deepEqual(found.sent.at(-1), {id: 7, cells: {step: 4}});
  answer(found, {id: 1});
  assert.deepEqual(found.sent.at(-1), {id: 8, gesture: {key: 4}});
});

test("questions that take seconds are sent one at a time, after all others", () => {
  const {connection, found} = openConnection();
  for (let inlet = 1; inlet <= 30; inlet++) connection.ask({admission: {inlet}}, "last");
  assert.deepEqual(found.sent, [{id: 1, admission: {inlet: 1}}]);
  connection.ask({clock: {to: 3600}}, "first");
  for (let step = 1; step <= 9; step++) connection.ask({cells: {step}});
  assert.deepEqual(found.sent.map((one) => Object.keys(one)[1]),
    ["admission", "clock", "cells", "cells", "cells", "cells"]);
  answer(found, {id: 1});
  assert.deepEqual(found.sent.at(-1), {id: 7, cells: {step: 5}});
  for (let id = 2; id <= 11; id++) answer(found, {id});
  assert.deepEqual(found.sent.at(-1), {id: 12, admission: {inlet: 2}});
  assert.equal(found.sent.length, 12);
});

test("questions of the first turn keep their own order, however many there are", () => {
  const {connection, found} = openConnection();
  for (let step = 1; step <= 7; step++) connection.ask({cells: {step}});
  for (let key = 1; key <= 9; key++) connection.ask({gesture: {key}}, "first");
  for (let id = 1; id <= 16; id++) answer(found, {id});
  const keys = found.sent.filter(({gesture}) => gesture).map(({gesture}) => gesture.key);
  assert.deepEqual(keys, [1, 2, 3, 4, 5, 6, 7, 8, 9]);
  assert.deepEqual(found.sent[9], {id: 10, cells: {step: 7}});
  assert.equal(found.sent.length, 16);
});

test("a lost connection fails all questions, and is tried again after growing waits", async () => {
  const {connection, found} = openConnection();
  const asked = Array.from({length: 8}, (_, step) => connection.ask({cells: {step}}));
  found.sockets[0].onclose({code: 1006, reason: ""});
  for (const one of asked) await assert.rejects(one, Disconnected);
  await assert.rejects(connection.ask({cells: {step: 0}}), Disconnected);
  for (let turn = 0; turn < 6; turn++) {
    found.waits.at(-1)[0]();
    found.sockets.at(-1).onclose({code: 1006, reason: ""});
  }
  assert.deepEqual(found.waits.map(([, wait]) => wait), [200, 400, 800, 1600, 3200, 5000, 5000]);
  assert.ok(found.lost.every(([again]) => again));
  found.waits.at(-1)[0]();
  found.sockets.at(-1).onopen();
  found.sockets.at(-1).onclose({code: 1006, reason: ""});
  assert.equal(found.waits.at(-1)[1], 200);     // it was open in between
});

test("a connection that was closed for good is not tried again", () => {
  for (const code of [1008, 4000, TAKEN_OVER]) {
    const {found} = openConnection();
    found.sockets[0].onclose({code, reason: "why"});
    assert.deepEqual([found.waits, found.lost], [[], [[false, "why", code]]]);
  }
});

test("a connection that the page itself closes is not reported as lost", async () => {
  const {connection, found} = openConnection();
  connection.disconnect();
  assert.ok(found.sockets[0].isClosed);
  assert.equal(found.sockets[0].onclose, null);
  assert.deepEqual(found.lost, []);
});
