"use strict";
// Folds long runs of openings, and lets a reader choose a swap, whose rows stand
// out. All that the page says stands there without this.
(() => {
  const rows = new Map();
  for (const row of document.querySelectorAll("tr[data-swap]")) {
    const swap = row.dataset.swap;
    if (!rows.has(swap)) rows.set(swap, []);
    rows.get(swap).push(row);
  }
  const bar = document.getElementById("chosen");
  document.getElementById("choosing").hidden = false;
  const recordsOf = (swap) => rows.get(swap).filter((row) => row.classList.contains("record"));
  let lit = null;
  let chosen = null;
  let here = -1;

  const light = (swap) => {
    if (swap === lit) return;
    for (const row of rows.get(lit) ?? []) row.classList.remove("lit");
    for (const row of rows.get(swap) ?? []) row.classList.add("lit");
    document.body.classList.toggle("choosing", swap !== null);
    lit = swap;
  };

  const leave = () => document.querySelector("tr.here")?.classList.remove("here");

  const choose = (swap) => {
    leave();
    chosen = swap;
    here = -1;
    light(swap);
    bar.hidden = swap === null;
    if (swap === null) return;
    const entry = document.getElementById(`swap-${swap}`);
    const count = recordsOf(swap).length;
    const name = entry.querySelector("a.swap").textContent;
    bar.querySelector("span").textContent = `${name}: ${count} ${count === 1 ? "row" : "rows"}`;
    bar.querySelector("a").href = `#swap-${swap}`;
  };

  const go = (by) => {
    if (by === 0) return choose(null);
    const records = recordsOf(chosen);
    leave();
    here = here === -1 ? (by === 1 ? 0 : records.length - 1) : (here + by + records.length) % records.length;
    records[here].classList.add("here");
    records[here].scrollIntoView({ block: "center" });
  };

  const swapAt = (target) => target.closest("a.swap, .marks")?.closest("[data-swap]")?.dataset.swap ?? null;

  document.addEventListener("mouseover", (event) => light(swapAt(event.target) ?? chosen));
  document.addEventListener("focusin", (event) => light(swapAt(event.target) ?? chosen));
  document.addEventListener("focusout", () => light(chosen));
  document.addEventListener("click", (event) => {
    const button = event.target.closest("#chosen button");
    if (button) return go(Number(button.dataset.go));
    const swap = swapAt(event.target);
    if (swap === null || event.ctrlKey || event.metaKey || event.shiftKey) return;
    event.preventDefault();
    choose(swap === chosen ? null : swap);
    // From a table, where its rows may be out of sight, it leads to the first of them.
    if (chosen !== null && !event.target.closest("table.lanes")) go(1);
  });
  document.addEventListener("keydown", (event) => {
    if (event.key === "Escape") choose(null);
  });
})();
(() => {
  const fold = (run, folded) => {
    run.classList.toggle("folded", folded);
    run.querySelector("button").setAttribute("aria-expanded", String(!folded));
  };

  // The heading's text becomes a button.
  for (const heading of document.querySelectorAll("tr.run th")) {
    const run = heading.closest("tbody");
    const button = document.createElement("button");
    button.type = "button";
    button.append(...heading.childNodes);
    button.setAttribute("aria-controls", run.id);
    button.addEventListener("click", () => fold(run, !run.classList.contains("folded")));
    heading.append(button);
    fold(run, true);
  }

  // Where a link leads into a folded run, it is unfolded; tells whether it was folded.
  const unfold = (hash) => {
    const run = document.getElementById(hash.slice(1))?.closest("tbody.folded") ?? null;
    if (run !== null) fold(run, false);
    return run !== null;
  };
  const lead = () => {
    if (unfold(location.hash)) document.getElementById(location.hash.slice(1)).scrollIntoView();
  };

  document.addEventListener("click", (event) => {
    const link = event.target.closest("a[href]");
    if (link) unfold(link.hash);
  });
  window.addEventListener("hashchange", lead);
  lead();
})();
