// Names that the store does not have. The compiler must refuse them. This file is compiled and never run:
// `tsc -p live/page` fails if one of these lines compiles.

import {assign} from "../../page/assign.mjs";
import {need, notify, store, watch} from "../../page/store.mjs";

// @ts-expect-error
notify("figure");
// @ts-expect-error
watch(["extend"], () => {});
// @ts-expect-error
need("plann");
// @ts-expect-error
store.extent.cel = 0;
// @ts-expect-error
store.connexion = null;
// @ts-expect-error
assign(store, {outcom: null});
// @ts-expect-error
assign(store.form, {kmForm: "0"});
// @ts-expect-error
store.tool = "lock";
