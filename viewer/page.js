"use strict";
// The page: files, examples, and the actions of its buttons.

const newestReading = [0, 0];   // its number, for each slot: earlier readings stop
let exampleShown = false;

/** Return a function that shows messages of a reading: the first dozen, and then how many are not
 * shown. */
function makeReporter() {
  let said = 0;
  const more = document.createElement("li");
  return (sentence) => {
    said++;
    if (said <= MOST_SENTENCES) page.messages.append(withText("li", sentence));
    else if (said <= 1000) {
      more.textContent = `${said - MOST_SENTENCES} or more messages are not shown.`;
    }
    if (said === MOST_SENTENCES + 1) page.messages.append(more);
  };
}

async function readFiles(slot, files) {
  if (!files.length) return;
  const turn = ++newestReading[slot];
  const say = makeReporter();
  let reported = 0;
  const mayContinue = (name, read, size) => {
    if (performance.now() - reported > 200) {
      reported = performance.now();
      page.progress.textContent =
        `Reading ${name}: ${megabytes(read)} of ${megabytes(size)} MB`;
    }
    return turn === newestReading[slot];
  };
  const read = [];
  for (const file of files) {
    try {
      const lines = await readLines(file, say, mayContinue);
      if (!lines) return;
      if (lines.length) read.push({name: file.name, lines, role: roleOf(lines)});
      else say(`${file.name} is empty.`);
    } catch (fault) {
      say(`${file.name} could not be read (${fault.message}).`);
    }
  }
  page.progress.textContent = "";
  if (read.length) openTranscript(slot, read, say);
}

function openTranscript(slot, files, say) {
  const exchanges = listExchanges(files, say);
  if (!exchanges) return;
  const name = files.map((file) => file.name).join(" and ");
  const transcript = new Transcript(name, Number(page["first" + slot].value) || 0, say);
  for (const exchange of exchanges) {
    if (!transcript.take(exchange)) break;
  }
  if (!transcript.runs.some((run) => run.pictures.length || run.counts.size)) {
    say(`${name} has no rows and no counts to show.`);
    return;
  }
  if (exampleShown) transcripts.fill(null);
  exampleShown = false;
  transcripts[slot] = transcript;
  if (findDifferentPart(transcripts[0]?.plan, transcripts[1]?.plan)) {
    say(`${name} has a different plan: both are shown, but not compared.`);
  }
  offerPictures();
}

function takeUnits() {
  unit = unitOf(Number(page.metres.value), Number(page.seconds.value));
  setScale();
  for (const name of ["stretchFrom", "stretchTo", "span"]) page[name].value = "";
  shown.pointed = null;
  page.readout.textContent = "Point at a cell to see what is in it.";
  setStep(shown.step);
  refreshTexts();
}

function exampleLines(text) {
  const joined = text.trim().replace(/\n +/g, "");
  const answers = joined.replace(/(^[0-9.#]+(\n|$))+/gm, (rows) =>
    JSON.stringify({rows: rows.trim().split("\n")}) + "\n");
  return answers.trim().split("\n").map((line, index) => parseLine(line, index + 1));
}

function openExample(id) {
  for (const slot of [0, 1]) {
    newestReading[slot]++;
    transcripts[slot] = null;
    page["files" + slot].value = "";
  }
  page.messages.replaceChildren();
  page.progress.textContent = "";
  const {text, title} = EXAMPLES[id];
  openTranscript(0, [{name: title, lines: exampleLines(text), role: "both"}], makeReporter());
  exampleShown = true;
}

function placePanes() {
  layPanes();
  fitAgain();
}

function listenToSlot(slot) {
  const box = page["slot" + slot];
  const choose = (files) => {
    if (files.length) page.messages.replaceChildren();
    readFiles(slot, [...files]);
  };
  on(page["files" + slot], "change", (event) => choose(event.target.files));
  for (const name of ["dragover", "dragleave", "drop"]) {
    on(box, name, (event) => {
      event.preventDefault();
      box.classList.toggle("over", name === "dragover");
    });
  }
  on(box, "drop", (event) => choose(event.dataTransfer.files));
}

function listen() {
  [0, 1].forEach(listenToSlot);
  // A file that is dropped next to a box must not replace the page.
  for (const name of ["dragover", "drop"]) {
    on(window, name, (event) => event.preventDefault());
  }
  for (const button of document.querySelectorAll("[data-example]")) {
    on(button, "click", () => openExample(button.dataset.example));
  }
  const acts = {closer: () => zoom(true), farther: () => zoom(false), fit: showWhole, play,
                save: () => save(false), saveAll: () => save(true), csv: saveCsv,
                cumulativeCsv: saveCumulative};
  for (const [closer, farther, side] of [["wider", "narrower", "width"],
                                         ["higher", "lower", "height"]]) {
    acts[closer] = () => zoom(true, null, null, side);
    acts[farther] = () => zoom(false, null, null, side);
  }
  for (const [id, act] of Object.entries(acts)) on(page[id], "click", () => act());
  const changes = {picture0: showPictures, picture1: showPictures, layout: placePanes,
                   detector: drawCharts, siteUp: drawSpent, siteDown: drawSpent,
                   marks: askDrawing, paint: askDrawing};
  for (const [id, act] of Object.entries(changes)) on(page[id], "change", act);
  on(page.step, "input", (event) => {
    setStep(Number(event.target.value));
    playFromHere();
  });
  on(page.rate, "change", playFromHere);
  for (const event of ["input", "change"]) {
    for (const name of ["metres", "seconds"]) on(page[name], event, takeUnits);
    for (const name of ["stretchFrom", "stretchTo", "span"]) on(page[name], event, drawCharts);
  }
  on(window, "resize", () => {
    fitAgain();
    drawCharts();
    drawSpent();
  });
}

listen();
openExample("closedCell");
