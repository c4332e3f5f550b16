// drawing.js as an ES module: its names are exported, with the types of drawing.d.mts.

import "./drawing.js";

export const {
  MARGIN, BOX, FASTEST_COLOUR, EMPTY, BLOCKED, SLOWER, FASTER, NO_ROW, INK, OF_PLAN, speedColour,
  unitOf, rowAt, leftOf, topOf, cellAt, stepAt, sizeOfCell, inView, meansAreSeen, pen, cleared,
  clip, Tiles, boxSums, paintCells, paintMeans, paintClosures, paintDifference, drawDetails,
  drawAxes, drawPlan, drawWedge, drawFrame, drawLegend,
} = globalThis.drawing;
