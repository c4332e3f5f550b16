// What a page keeps when the server refuses its return to a seat.

import assert from "node:assert/strict";
import {test} from "node:test";

/** A storage as that of a browser's tab. */
class TabStorage {
  constructor(parts) { this.parts = new Map(Object.entries(parts)); }
  getItem(name) { return this.parts.get(name) ?? null; }
  setItem(name, text) { this.parts.set(name, text); }
  removeItem(name) { this.parts.delete(name); }
}

/** A socket that answers each `hello` with the refusal `refused`. */
class RefusingSocket {
  constructor() {
    this.readyState = 1;
    setTimeout(() => this.onopen(), 0);
  }

  send(text) {
    const {id, hello} = JSON.parse(text);
    const {refused, seats = []} = RefusingSocket;
    const said = hello ? {id, refused, why: refused, seats} : {id, seats};
    if (hello) RefusingSocket.keys.push(hello.key);
    setTimeout(() => this.onmessage({data: JSON.stringify(said)}), 0);
  }

  close() {}
}

const OF_TAB = {key: "k1", token: "t", pending: '{"at":"seat1","acts":[["a",{}]]}'};

/** Return what the tab's storage has after a return to a seat was refused, which keys the page said, and why it asks for a name. */
async function refuseReturn(refused, kept = OF_TAB, seats = [], browser = []) {
  Object.assign(RefusingSocket, {refused, seats, keys: []});
  Object.assign(globalThis, {sessionStorage: new TabStorage(kept),
                             localStorage: new TabStorage({seats: JSON.stringify(browser)}), location: {origin: "http://here"},
                             WebSocket: RefusingSocket});
  const {connect} = await import("../page/session.mjs");
  const {store} = await import("../page/store.mjs");
  Object.assign(store, {hello: null, wishes: null});
  connect();
  while (!store.hello?.asks) await new Promise((done) => { setTimeout(done, 1); });
  return {kept: Object.fromEntries(sessionStorage.parts), keys: RefusingSocket.keys, why: store.hello.why};
}

test("a page keeps its key and its pending change over an upgrade of the server", async () => {
  const {kept, keys, why} = await refuseReturn("OtherVersion");
  assert.deepEqual([kept.key, kept.pending, keys, why], ["k1", OF_TAB.pending, ["k1"], "OtherVersion"]);
});

test("a page drops the key of a seat that is gone", async () => {
  const {kept, keys, why} = await refuseReturn("UnknownKey");
  assert.deepEqual([kept.key, keys, why], [undefined, ["k1"], "UnknownKey"]);
});

const BROWSER = [{seat: 1, key: "of 1"}, {seat: 2, key: "of 2"}, {seat: 3, key: "of 3"}];
const seat = (number, here) => ({seat: number, at: `seat${number}`, name: `N${number}`, here, private: 0});

test("a tab that opens has the latest seat of its browser that no tab has open", async () => {
  const {keys, why} = await refuseReturn("UnknownKey", {token: "t"}, [seat(1, false), seat(2, false), seat(3, true)], BROWSER);
  assert.deepEqual([keys, why], [["of 2"], ""]);
});

test("a tab asks for a name if all seats of its browser are open, if it has none, or if its user wants another", async () => {
  const open = [seat(1, true), seat(2, true), seat(3, true), seat(4, false)];
  assert.deepEqual((await refuseReturn("UnknownKey", {token: "t"}, open, BROWSER)).keys, []);
  assert.deepEqual((await refuseReturn("UnknownKey", {token: "t"}, open)).keys, []);
  assert.deepEqual((await refuseReturn("UnknownKey", {token: "t", asks: "yes"}, [seat(1, false)], BROWSER)).keys, []);
});
