// Types of the names that drawing.mjs exports. The first lines of drawing.js explain the
// arguments.

export interface Picture {
  from: number;                         // step of the first row
  every: number;                        // steps between rows
  length: number;                       // cells
  rows: (string | undefined)[];
}

export interface View { cell: number; step: number; scale: number; tall: number }

export interface Part { cells: [from: number, to: number]; steps: [from: number, to: number] }

export interface Unit { given: boolean; clock: boolean; begin: number | null; place: number; time: number; flow: number; speed: number; density: number; textOf?: (step: number) => string; origin?: number }

export interface Painted { tiles: Tiles; name: string; greatest: number }

export interface LegendEntry { text: string; colour: string }

export interface DrawnPlan {
  length: number;
  exit: number;
  zone: number;
  inlets: [cell: number, chance: number][];
  detectors: number[];
}

export declare const MARGIN: { left: number; top: number; right: number; bottom: number };
export declare const BOX: number;
export declare const FASTEST_COLOUR: number;
export declare const EMPTY: string;
export declare const BLOCKED: string;
export declare const SLOWER: string;
export declare const FASTER: string;
export declare const NO_ROW: string;
export declare const INK: string;
export declare const OF_PLAN: Record<string, string>;

export declare function speedColour(speed: number, greatest: number): string;
export declare function unitOf(metres: number, seconds: number, clock?: boolean, begin?: number | null): Unit;
export declare function rowAt(picture: Picture, step: number): string | undefined;
export declare function leftOf(view: View, cell: number): number;
export declare function topOf(view: View, step: number): number;
export declare function cellAt(view: View, x: number): number;
export declare function stepAt(view: View, y: number): number;
export declare function sizeOfCell(view: View): number;
export declare function inView(view: View, picture: Picture, width: number, height: number): Part;
export declare function meansAreSeen(view: View): boolean;
export declare function pen(context: CanvasRenderingContext2D, align: CanvasTextAlign, baseline?: CanvasTextBaseline): void;
export declare function cleared(canvas: HTMLCanvasElement): { context: CanvasRenderingContext2D; width: number; height: number };
export declare function clip(context: CanvasRenderingContext2D, top: number, width: number, height: number): void;

export declare class Tiles {
  forget(name: string, from?: number, to?: number): void;
  clear(): void;
}

export declare function boxSums(picture: Picture, from: number, to: number, wide: number, first?: number):
  { cars: Uint32Array; speeds: Uint32Array; closed: Uint32Array; rows: number };
export declare function paintCells(context: CanvasRenderingContext2D, view: View, picture: Picture, part: Part, how: Painted): void;
export declare function paintMeans(context: CanvasRenderingContext2D, view: View, picture: Picture, part: Part, how: Painted): void;
export declare function paintClosures(context: CanvasRenderingContext2D, view: View, picture: Picture, part: Part, how: Painted): void;
export declare function paintDifference(context: CanvasRenderingContext2D, view: View, picture: Picture, other: Picture, part: Part,
                                 how: Painted & { plan?: DrawnPlan }): void;
export declare function drawDetails(context: CanvasRenderingContext2D, view: View, picture: Picture, other: Picture | null,
                             part: Part, greatest: number): void;
export declare function drawAxes(context: CanvasRenderingContext2D, view: View, part: Part, unit: Unit, end?: number): void;
export declare function drawPlan(context: CanvasRenderingContext2D, view: View, plan: DrawnPlan, width: number): void;
export declare function drawWedge(context: CanvasRenderingContext2D, view: View, step: number, colour: string, height: number): void;
export declare function drawFrame(context: CanvasRenderingContext2D, view: View, step: number, cell: number): void;
export declare function drawLegend(context: CanvasRenderingContext2D, left: number, entries: (string | LegendEntry)[]): void;
