"use strict";
// Save the pictures as one PNG: the visible part, or all of them.

const CAPTION_HIGH = 22;
const LEGEND_WIDE = 1100;
const BETWEEN = 12;
const MOST_SAVED = {side: 8_000, area: 2.5e7};   // pixels of a side, and of all pictures

/** Return the scale at which some pictures are saved as a whole. */
function scaleOfAll(cells, steps, pictures) {
  const {side, area} = MOST_SAVED;
  return SCALES.findLast((one) => one <= 4 && Math.max(cells, steps) * one <= side
    && pictures * cells * steps * one * one <= area) ?? SCALES[0];
}

/** Draw one picture with its caption and its road. */
function drawSaved(which, context, size) {
  pen(context, "left", "top");
  context.font = "bold " + FONT;
  context.fillText(panes[which].caption.textContent, 4, 4, size.width - 8);
  context.translate(0, CAPTION_HIGH);
  drawDiagram(which, {context, ...size});
  context.translate(0, size.height);
  if (which < 2) drawRoad(which, {context, ...size});
}

/** Return one canvas with the pictures as the view shows them, with captions and legend, cut to
 * their rows. */
function asOneCanvas(most) {
  const fine = most ? window.devicePixelRatio : 1;
  const right = leftOf(view, cellsShown()) + MARGIN.right;
  const bottom = topOf(view, stepsShown()[1] + 1) + MARGIN.bottom;
  const size = {width: Math.ceil(Math.min(most?.[0] ?? right, right)),
                height: Math.ceil(Math.min(most?.[1] ?? bottom, bottom))};
  const pictures = panesShown();
  const tall = CAPTION_HIGH + size.height + STRIP_HIGH;
  const apart = page.layout.value === "stacked" ? [0, tall + BETWEEN] : [size.width + BETWEEN, 0];
  const more = pictures.length - 1;
  const high = tall + more * apart[1];
  const canvas = document.createElement("canvas");
  Object.assign(canvas, {width: Math.max(LEGEND_WIDE, size.width + more * apart[0]) * fine,
                         height: (high + 30) * fine});
  const context = canvas.getContext("2d");
  context.fillStyle = EMPTY;
  context.fillRect(0, 0, canvas.width, canvas.height);
  pictures.forEach((which, index) => {
    context.setTransform(fine, 0, 0, fine, index * apart[0] * fine, index * apart[1] * fine);
    drawSaved(which, context, size);
  });
  context.setTransform(fine, 0, 0, fine, 0, high * fine);
  drawLegend(context, 4, legendEntries());
  return canvas;
}

/** Save the visible part, or all of the pictures, without the frame of the cell that is pointed at,
 * and without grey for missing rows. */
function save(all) {
  if (!panesShown().length) return;
  const {diagram} = panes[panesShown()[0]];
  const seen = {...view};
  const [from, to] = stepsShown();
  const scale = scaleOfAll(cellsShown(), to - from + 1, panesShown().length);
  if (all) Object.assign(view, {cell: 0, step: from, scale, tall: scale});
  Object.assign(shown, {pointed: null, saved: true});
  const canvas = asOneCanvas(all ? null : [diagram.clientWidth, diagram.clientHeight]);
  shown.saved = false;
  Object.assign(view, seen);
  askDrawing();
  canvas.toBlob((blob) => download(blob, "space-time-diagram.png"));
}
