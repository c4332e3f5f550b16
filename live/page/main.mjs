// The start: each view listens and shows, then the page connects.

import * as preview from "./preview.mjs";
import * as daystable from "./daystable.mjs";
import * as figures from "./figures.mjs";
import * as form from "./form.mjs";
import * as diagraminput from "./diagraminput.mjs";
import * as head from "./head.mjs";
import {connect, takeToken} from "./session.mjs";
import * as changelists from "./changelists.mjs";
import * as picture from "./picture.mjs";
import * as savemenu from "./savemenu.mjs";
import * as series from "./series.mjs";
import * as variantpanel from "./variantpanel.mjs";

takeToken();
addEventListener("hashchange", () => { takeToken(); location.reload(); });
for (const view of [head, form, picture, diagraminput, changelists, preview, figures, series, daystable,
                    savemenu, variantpanel]) view.begin();
connect();
