// Types of what the server sends and of what the page knows. There is no code here: `tsc` reads this
// file, as tsconfig.json says. Cells are 7.5 m long and steps take 1 s.

/**
 * The name of an operation: a count, and a hash of what it does. Of two stamps the greater one is the
 * later.
 * @typedef {{count: number, hash: string}} Stamp
 *
 * What a change sets: a closure, a speed limit, a slowing chance, a slow-to-start chance, a demand,
 * a detector that is on, or the capacity of zones.
 * @typedef {"block" | "limit" | "slow" | "start" | "inflow" | "watch" | "capacity"} Kind
 *
 * Objects `first` to `last` have the value from step `from` until step `to`; `to` null: for ever.
 * `demand` is the demand that an inflow was put for, in cars per hour, if there is one. A capacity is
 * in cars per hour; its zones have `limit`, and the `chances` of slowing and slow to start, which the
 * server finds. Without them it cannot be put yet.
 * @typedef {{kind: Kind, first: number, last: number, from: number, to: number | null,
 *            value: number, demand?: number, limit?: number, chances?: number[]}} Shape
 *
 * A part of a change. `by` names the change that covers it there; null: it is in force.
 * @typedef {Shape & {by: Stamp | null}} Rectangle
 *
 * A road: the own one, the shared one, the two of a preview, that of the road's file, or a variant.
 * @typedef {"mine" | "shared" | "before" | "after" | "file" | `variant:${string}`} RoadName
 *
 * Which road the diagram shows: one of two, their difference, or the roads that are chosen, side by side.
 * @typedef {"mine" | "shared" | "both" | "beside"} Whose
 *
 * @typedef {[cells: number, steps: number]} Stride
 * @typedef {[cell: number, step: number]} Place
 * @typedef {[from: number, to: number]} Span          steps or cells, the end excluded
 * @typedef {[left: number, top: number, right: number, bottom: number]} Box     pixels
 */

/**
 * A scenario's plan line. Zones are `zone` cells long, each with a speed limit (cells a step) and
 * a slowing chance (1/65,536); an inlet has a cell and an inflow chance (1/65,536).
 * @typedef {object} WirePlan
 * @property {number} length          cells
 * @property {number} exit            cells of the deleted zone
 * @property {number} zone            cells
 * @property {[limit: number, slow: number][]} zones
 * @property {[cell: number, chance: number][]} inlets
 * @property {number[]} detectors     cells
 * @property {number | string} words
 * @property {string[]} replicas
 *
 * A plan with the cell at km 0, before which is the approach.
 * @typedef {WirePlan & {origin: number}} Plan
 */

/**
 * What an operation does to a change.
 * @typedef {"put" | "change" | "withdraw" | "top" | "undo" | "redo" | "exclude"
 *           | "include"} Effect
 */

/**
 * An operation on a change.
 * @typedef {object} Operation
 * @property {Stamp} stamp
 * @property {string} who
 * @property {string} note
 * @property {number} when            seconds since 1970; 0: not known
 * @property {Effect} does
 * @property {boolean} shared
 * @property {Stamp | null} [undoes]  the operation that it undoes
 * @property {Stamp | null} lost      the operation that was made at the same time and won
 * @property {Shape | null} [shape]   what a lost operation would have set
 * @property {boolean} [idle]         it need not be shared, since it changes nothing
 * @property {number} [seat]          of this server that made it, if one did
 */

/**
 * A change that leaves the list.
 * @typedef {{name: Stamp, gone: true}} Gone
 */

/**
 * A change of this road.
 * @typedef {object} Change
 * @property {Stamp} name
 * @property {Kind | "site" | null} kind
 * @property {Shape | null} shape
 * @property {string} who
 * @property {string} note
 * @property {number} when
 * @property {boolean} standing
 * @property {boolean} shared
 * @property {Rectangle[]} shown
 * @property {Rectangle[]} covered    where a capacity no longer holds
 * @property {Operation[]} operations
 * @property {string | null} site     the site that it excludes
 * @property {Rectangle[] | null} [was]
 * @property {boolean} [planned]      it is the demand of the road's file
 * @property {number} [seat]          of this server that made it, if one did
 */

/**
 * The changes that differ from an earlier version of the list.
 * @typedef {object} ListNews
 * @property {(Change | Gone)[]} layers
 * @property {number} next            the version that they lead to
 * @property {number} [since]         the version from which they lead
 * @property {boolean} more           more changes follow them
 * @property {Stamp | null} undo      what Undo would undo
 * @property {Stamp | null} redo      what Redo would redo
 * @property {{stamp: Stamp, by: string[]}[]} blocked     what Undo passes over, and who changed it
 */

/**
 * Where a change is in force.
 * @typedef {Shape & {by: Change}} Frame
 */

/**
 * What an inlet admits at each inflow chance (1/65,536), in cars per hour. Chances of `points` rise.
 * @typedef {object} Curve
 * @property {[chance: number, cars: number][]} points
 * @property {number} capacity
 */

/**
 * A road that has the curve of each inlet at each step; null: the server is measuring it.
 * @typedef {object} MeasuredRoad
 * @property {Plan} plan
 * @property {import("./dayclock.mjs").DayClock} day
 * @property {(inlet: number, step: number) => Curve | null} curveAt
 */

/**
 * What a detector counted: flow in cars per hour, null if it was off; speed in km/h, null if no car
 * passed; and the seconds for which it was on.
 * @typedef {{cars: number, speeds: number, flow: number | null, speed: number | null, on: number}}
 *   DetectorFigures
 *
 * Cars, and their mean travel time in seconds; null: there was no car.
 * @typedef {{cars: number, seconds: number | null}} Trip
 *
 * Travel times of the cars that entered in the minute from a step on.
 * @typedef {{step: number, trips: Trip[]}} Entry
 */

/**
 * A figure: its key, the indexes of its inlet and its detector, its name without and with its unit,
 * and its decimals.
 * @typedef {{key: string, of: [inlet: number | null, detector: number | null], label: string,
 *            unit: string, title: string, digits: number}} FigureHead
 *
 * A mean of days, with the half-width of its 95 % interval; null: there was one day. A mean that is
 * null is not known.
 * @typedef {{mean: number | null, half: number | null}} Mean
 *
 * A figure: its value on each road, and each later road minus the first. `bounds` says how the true
 * differences relate to these, and `words` are sentences that the figure needs, if there are any.
 * @typedef {{figure: FigureHead, values: Mean[], differences: Mean[], bounds: string[],
 *            words: string}} FigureRow
 *
 * The figures of roads over many days, and sentences that warn of the intervals of few days.
 * @typedef {{from: number, to: number, days: number, stopped: boolean, figures: FigureRow[],
 *            warnings: string[]}} DaysFigures
 *
 * The figures of roads, and the travel times of each by the minute of entry, in the order of minutes.
 * @typedef {{from: number, to: number, figures: FigureRow[], entries: Entry[][]}} Figures
 */

/**
 * This tab's seat, and what the server sends when the tab joins.
 * @typedef {object} Welcome
 * @property {string} at              the name of the seat's road
 * @property {number} seat
 * @property {string} name
 * @property {string} key             the tab has its seat again with this when it is reloaded
 * @property {WirePlan} plan
 * @property {number} [origin]        the cell at km 0
 * @property {number} [lead]          the step at minute 0 of the road's file
 * @property {number} now             step of the clock
 * @property {number} rate            steps a second
 * @property {number | null} [stop]   the step at which a fast clock stops
 * @property {number} ahead           steps that the own road may be ahead of the clock
 * @property {{rows: number, bytes: number, days: number}} [most]
 * @property {Broker | null} broker
 * @property {string} [standing]
 * @property {WireDay | null} [day]
 * @property {number | null} [demand_end]     the step at which the demand profile of the file ends
 * @property {string} [road]          the name of the road's file
 * @property {FigureHead[]} [figures]
 * @property {string[]} [variants]    names of the seat's variants
 */

/**
 * The time of day of minute 0 in seconds after midnight, the time zone, and the date.
 * @typedef {{begin: number | null, zone: string | null, date?: string | null}} WireDay
 */

/**
 * A seat, and how many of its changes are not shared.
 * @typedef {{seat: number, at: string, name: string, here: boolean, private: number}} Seat
 *
 * How to join: with a name, in a seat that is not open in any tab, or in the own seat.
 * @typedef {{name: string} | {take: number} | {key: string}} Wishes
 */

/**
 * The state of the exchange with other sites.
 * @typedef {object} Broker
 * @property {string} state           "away": the broker does not return this site's messages
 * @property {number} [unsent]        changes that are not sent yet
 * @property {number} [behind]        messages of other sites that wait here
 * @property {{site: string, when: number}[]} [sites]
 * @property {string[]} [told]        sentences, the newest last
 * @property {string[]} [stays]       what is wrong now
 * @property {boolean} [sealed]       false: messages of sites are not authenticated
 */

/**
 * What others shared and this seat has not taken; `touched` is the first step that differs.
 * @typedef {object} News
 * @property {number} size
 * @property {{who: string, title: string}[]} shares
 * @property {string[]} from          who
 * @property {number | null} [touched]
 */

/**
 * What a rectangle would do: lines that say so, the note of the change, and why it cannot be done.
 * @typedef {object} Area
 * @property {Shape} shape
 * @property {string} note
 * @property {string[]} lines
 * @property {string} fault           "": it can be done
 * @property {Change | null} old      the change that it alters
 * @property {string} [taken]         a sentence on the stretch that it takes
 */

/**
 * The question whether to share or take.
 * @typedef {object} Preview
 * @property {Whose} whose            the road that was shown before
 * @property {boolean} takes
 * @property {string[] | undefined} names         of the changes to share; undefined: all
 * @property {Change[]} changes       what is shared
 * @property {Stamp[]} stamps
 * @property {ReturnType<typeof setTimeout>} [soon]   until the page asks for figures
 */

/**
 * What sharing or taking would change. What is not known yet is null.
 * @typedef {object} Outcome
 * @property {string} why             why it cannot be said; "": it can
 * @property {import("./layers.mjs").Layers | null} layers    of the road after it
 * @property {Stamp[]} names          of the changes that would look different
 * @property {Figures | {why: string} | null} figures
 */

/**
 * A comparison over many days: its roads, their versions, how many days are done, and the answer.
 * @typedef {{of: RoadName[], key: string, done: number, said: DaysFigures | null}} Days
 *
 * When a gesture was made, had its rows, was painted, and was confirmed: milliseconds.
 * @typedef {{key: string, began: number, settled?: number, painted?: number, confirmed?: number,
 *            us?: Record<string, number>}} Timing
 */

/**
 * A command that is sent again until it is confirmed.
 * @typedef {object} Pending
 * @property {Command<"gesture" | "again" | "site" | "undo">} command
 * @property {string} note
 * @property {Shape | null} [shape]   what it puts
 * @property {number} [first]         the first step that it changes, if that is known
 * @property {"apply" | "undo" | "redo"} does
 * @property {Stamp | string} [undoes]    the stamp, or the key, of what it undoes or redoes
 * @property {string} taken           a sentence on the stretch that it takes
 */

/**
 * The answer to a gesture: the operation's stamp, the first step at which the road differs, and how long
 * the parts of the server's work took, in microseconds.
 * @typedef {ListNews & {stamp: Stamp, touched: number | null, us?: Record<string, number>}} Done
 *
 * The answers to the commands that are not refused, by the command's name.
 * @typedef {object} Answers
 * @property {Done} gesture
 * @property {Done} again
 * @property {Done} site
 * @property {Done} undo
 * @property {{touched: number | null}} send
 * @property {ListNews & {touched: number | null}} take
 * @property {ListNews} layers
 * @property {Pick<ListNews, "layers">} preview
 * @property {Figures} figures
 * @property {DaysFigures} days
 * @property {{horizon: number}} advance
 * @property {{rows: string[]}} diagram
 * @property {{flows: (DetectorFigures | DetectorFigures[])[]}} counts    with `each`, lists by span
 * @property {Curve} admission
 * @property {{value: number[]}} capacity
 * @property {{lines: string, to: number}} script
 * @property {{html: string, days: number}} report
 * @property {{sums: number[], approach?: number[]}} sums     of all cells; of the approach
 * @property {{lines: string, next: number | null}} transcript
 * @property {{csv: string}} csv
 * @property {{name: string, variants: string[]}} variant
 * @property {object} clock
 *
 * Why a command was refused, by name and in a sentence.
 * @typedef {{refused: string, why?: string}} Refusal
 */

/**
 * A message that the server pushes: one of these.
 * @typedef {object} Pushed
 * @property {{now: number, rate: number, stop?: number | null}} [clock]
 * @property {News} [news]
 * @property {Seat[]} [seats]
 * @property {Broker | null} [broker]
 * @property {{done: number}} [days]
 * @property {string | null} [trouble]
 * @property {{why?: string}} [program]
 */

/**
 * The fields of a command, by its name.
 * @template {keyof Answers} Verb
 * @typedef {Partial<Record<Verb, object>>} Command
 */

// Answers as the server sends them: positional arrays, which decoding.mjs reads.

/**
 * @typedef {[count: number, hash: string]} WireStamp
 * @typedef {[kind: Kind, first: number, last: number, from: number, to: number | null,
 *            value: number | number[]]} WireShape
 * @typedef {[cars: number, seconds: number | null]} WireTrip
 * @typedef {[mean: number | null, half: number | null]} WireMean
 *
 * @typedef {Omit<Operation, "stamp" | "undoes" | "lost" | "shape">
 *   & {stamp: WireStamp, undoes?: WireStamp | null, lost: WireStamp | null,
 *      shape?: WireShape | null, demand?: unknown}} WireOperation
 *
 * Another site may have made shapes and parts: they may be anything.
 * @typedef {Omit<Change, "name" | "shape" | "shown" | "covered" | "operations" | "site" | "was">
 *   & {name: WireStamp, shape?: unknown, shown: unknown, covered?: unknown, operations: WireOperation[],
 *      site?: string | null, was?: unknown, demand?: unknown}} WireChange
 * @typedef {{name: WireStamp, gone: true}} WireGone
 *
 * @typedef {object} WireLayers
 * @property {(WireChange | WireGone)[]} layers
 * @property {number} next
 * @property {number} [since]
 * @property {boolean} [more]
 * @property {WireStamp | null} [undo]
 * @property {WireStamp | null} [redo]
 * @property {{stamp: WireStamp, by: string[]}[]} [blocked]
 *
 * @typedef {Omit<FigureRow, "values" | "differences">
 *   & {values: WireMean[], differences: WireMean[]}} WireFigureRow
 * @typedef {Record<string, WireTrip[]>} WireEntries
 * @typedef {Omit<Figures, "figures" | "entries">
 *   & {figures: WireFigureRow[], entries: WireEntries[]}} WireFigures
 * @typedef {Omit<DaysFigures, "figures"> & {figures?: WireFigureRow[]}} WireDays
 * @typedef {WireLayers & Pick<Done, "touched" | "us"> & {stamp: WireStamp}} WireDone
 * @typedef {Omit<Answers, "gesture" | "again" | "site" | "undo" | "take" | "layers" | "preview"
 *                         | "figures" | "days">
 *   & {gesture: WireDone, again: WireDone, site: WireDone, undo: WireDone,
 *      take: WireLayers & {touched: number | null}, layers: WireLayers,
 *      preview: Partial<Pick<WireLayers, "layers">>, figures: WireFigures, days: WireDays}} WireAnswers
 */

export {};
