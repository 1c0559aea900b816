// Goes through the page of the icosahedron as people do; each line that it leaves in
// the page is a thing that holds or fails.
const told = [];
const holds = (what, truth) => told.push(`${truth ? "holds" : "FAILS"}: ${what}`);
const all = (name) => [...document.querySelectorAll(name)];
const one = (name) => document.querySelector(name);
const shown = () => all("tbody tr").filter((row) => !row.hidden);
const order = () => shown().map((row) => row.dataset.entry).join(" ");
const head = (by) => one(`th[data-by=${by}]`);
const event = { bubbles: true, cancelable: true };
const press = (key) => one("dialog").dispatchEvent(new KeyboardEvent("keydown", { key, ...event }));
const picture = () => one("canvas").toDataURL();
const changes = (what, act) => {
  const before = picture();
  act();
  holds(what, picture() !== before);
};
holds("the rows stand in the order of the entries", order() === "0 1 2 3 4 5 6");
head("edges").firstChild.click();
const sorted = (by, how) => head(by).getAttribute("aria-sort") === how;
holds("a click sorts by edges", order() === "0 2 4 6 1 3 5" && sorted("edges", "ascending"));
head("edges").firstChild.click();
holds("a second one turns it around", order() === "1 3 5 0 2 4 6" && sorted("edges", "descending"));
head("entry").firstChild.click();
holds("one column is sorted at a time", !head("edges").hasAttribute("aria-sort"));
const field = (name, value) => {
  one(`[name="${name}"]`).value = value;
  one(`[name="${name}"]`).dispatchEvent(new Event("input", event));
};
field("facets.from", "20");
field("pieces.to", "1");
holds("bounds leave the icosahedron and the great icosahedron", order() === "4 6");
holds("what is shown is said", one("#shown").textContent === "2 of 7 are shown");
holds("and read aloud", one("#shown").getAttribute("aria-live") === "polite");
field("closes", "0");
holds("all close", order() === "");
one("form").reset();
setTimeout(() => {
  holds("all are shown again", order() === "0 1 2 3 4 5 6");
  one("button.open[data-entry='2']").click();
  const title = () => one("dialog h2").textContent;
  holds("a figure opens large", one("dialog").open && title() === "Entry 2");
  holds("with an address of its own", location.hash === "#entry-2");
  const parts = "12 × C pentagon, side 2.0000; 30 joints, angle 63.43° C–C";
  holds("its parts are told", one("dialog .words").textContent === parts);
  holds("the picture says what it is", one("canvas").getAttribute("aria-label").startsWith("Entry 2: 12 × C"));
  const pixels = one("canvas").getContext("2d").getImageData(0, 0, 560, 560).data;
  const inked = pixels.filter((_, i) => i % 4 === 3 && pixels[i] === 255).length / (560 * 560);
  holds("a hexagon's share of the picture is filled", inked > 0.4 && inked < 0.65);
  for (const key of ["ArrowLeft", "ArrowUp", "+", "-"]) changes(`the key ${key} moves it`, () => press(key));
  for (const name of ["left", "right", "up", "down", "near", "far"]) {
    changes(`the button ${name} moves it`, () => one(`[data-do=${name}]`).click());
  }
  const drag = (type, clientX, clientY) =>
    one("canvas").dispatchEvent(new PointerEvent(type, { clientX, clientY, pointerId: 1, ...event }));
  changes("a mouse or finger turns it", () => {
    drag("pointerdown", 100, 100);
    drag("pointermove", 140, 120);
    drag("pointerup", 140, 120);
  });
  const still = picture();
  drag("pointermove", 200, 200);
  holds("and lets go of it", picture() === still);
  const wheel = new WheelEvent("wheel", { deltaY: -100, ...event });
  changes("a wheel makes it larger", () => one("canvas").dispatchEvent(wheel));
  press("Home");
  press("PageDown");
  holds("Page Down shows the next", title() === "Entry 3");
  one("[data-do=close]").click();
  // The page hears of it some time behind the click, so that it is asked again, a hundred times at most.
  const closed = () => !one("dialog").open && location.hash === "";
  const end = (left) => {
    if (!closed() && left > 0) {
      setTimeout(() => end(left - 1), 10);
      return;
    }
    holds("it closes", closed());
    const named = (e) => e.getAttribute("aria-label") || e.textContent.trim();
    holds("what is pressed has a name", all("button, input, select, a").every((e) => named(e) !== ""));
    const headings = "icosahedron.txt|Notes|Figures|Shapes, measured|Compounds|Plain entries";
    holds("headings are in order", all("h1, main h2").map((e) => e.textContent).join("|") === headings);
    const wide = document.documentElement.scrollWidth;
    holds("nothing is wider than a phone", innerWidth > 400 || wide <= innerWidth);
    const list = document.createElement("pre");
    list.id = "told";
    list.textContent = told.join("\n");
    document.body.append(list);
  };
  setTimeout(() => end(100));
});
