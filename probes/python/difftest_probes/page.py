"""The page of `difftest-probes view`: its style and the keys that it knows. It asks nothing of a network."""

PAGE = """<!DOCTYPE html>
<html lang="en">
<head>
<meta charset="utf-8">
<meta name="viewport" content="width=device-width">
<title>@title@</title>
<style>
body { margin: 0; padding: 16px 20px; font: 14px/1.45 system-ui, sans-serif; color: #111; background: #fff; }
h1 { margin: 0 0 4px; font-size: 20px; }
h1.fail { color: #a33c00; }
p { margin: 0; }
.legend { margin: 10px 0; display: flex; flex-wrap: wrap; gap: 4px 22px; color: #333; font-size: 13px; }
.legend svg { vertical-align: middle; margin-right: 6px; }
.chart { display: flex; border: 1px solid #999; }
.labels { position: relative; flex: none; width: 66px; border-right: 1px solid #999; background: #fff; }
.labels div { position: absolute; left: 0; right: 0; display: flex; align-items: center;
  justify-content: center; font-weight: 600; }
.scroll { overflow-x: auto; flex: 1; min-width: 0; }
.scroll > svg { display: block; }
text { font: 11px ui-monospace, "DejaVu Sans Mono", monospace; fill: #111; }
text.kind { font-weight: 700; }
text.letters { text-anchor: end; font-weight: 700; fill: #00407a; }
text.cycle { fill: #333; }
.lane { fill: none; stroke: #d8d8d8; }
.skip { stroke: #777; stroke-dasharray: 2 4; fill: none; }
.record rect { stroke: #666; stroke-width: 1; }
.record.failing rect { stroke: #a33c00; stroke-width: 3; }
.record.later { opacity: .7; }
.record:focus { outline: none; }
.record:focus rect, .record.chosen rect { stroke: #000; stroke-width: 3; }
.record { cursor: pointer; scroll-margin-top: 150px; }
.arrow { fill: none; stroke: #00407a; stroke-width: 1.6; }
.arrow.forwarded { stroke: #00664a; stroke-dasharray: 7 4; }
.arrow.missed { stroke: #a33c00; stroke-width: 2; stroke-dasharray: 2 4; }
.head { fill: #00407a; } .head.forwarded { fill: #00664a; } .head.missed { fill: #a33c00; }
.hatch { stroke: #f3b79c; fill: none; }
pre { position: sticky; top: 0; z-index: 1; background: #fff; margin: 0 0 10px; padding: 8px 12px;
  border: 1px solid #999; min-height: 5.6em; white-space: pre-wrap; overflow-wrap: anywhere; font: 12.5px/1.4 ui-monospace, "DejaVu Sans Mono", monospace; }
</style>
</head>
<body>
<h1 class="@class@">@title@</h1>
@summary@
<div class="legend">
<span><svg width="44" height="10"><path class="arrow" d="M0,5 H36"/><path class="head" d="M36,1 l8,4 l-8,4 z"/></svg>write to the load that read it</span>
<span><svg width="44" height="10"><path class="arrow forwarded" d="M0,5 H36"/><path class="head forwarded" d="M36,1 l8,4 l-8,4 z"/></svg>own store, forwarded</span>
<span><svg width="44" height="10"><path class="arrow missed" d="M0,5 H36"/><path class="head missed" d="M36,1 l8,4 l-8,4 z"/></svg>last write to its bytes that the failing record could see</span>
<span>Keys: left and right along a hart, up and down between harts, Home to the FAIL</span>
</div>
<pre id="said" aria-live="polite">Point at a record, or press an arrow key.</pre>
<div class="chart">@labels@<div class="scroll" tabindex="0" role="region" aria-label="records">@picture@</div></div>
<script>
"use strict";
const records = Array.from(document.querySelectorAll(".record"));
const said = document.getElementById("said");
const lanes = new Map();
for (const record of records) {
  const hart = Number(record.dataset.hart);
  if (!lanes.has(hart)) { lanes.set(hart, []); }
  lanes.get(hart).push(record);
}
const failing = document.getElementById("record-@focus@");
let chosen = failing || records[0];
function left(record) { return Number(record.querySelector("rect").getAttribute("x")); }
function tell(record) { said.textContent = record.dataset.text; }
function choose(record, scrolls) {
  if (!record) { return; }
  if (chosen) { chosen.classList.remove("chosen"); chosen.setAttribute("tabindex", "-1"); }
  chosen = record;
  chosen.classList.add("chosen");
  chosen.setAttribute("tabindex", "0");
  tell(chosen);
  if (scrolls) { chosen.scrollIntoView({ block: "nearest", inline: "center" }); }
}
function neighbour(step) {
  const lane = lanes.get(Number(chosen.dataset.hart));
  return lane[lane.indexOf(chosen) + step];
}
function across(step) {
  const harts = Array.from(lanes.keys()).sort((one, two) => one - two);
  const lane = lanes.get(harts[harts.indexOf(Number(chosen.dataset.hart)) + step]);
  if (!lane) { return null; }
  const here = left(chosen);
  return lane.reduce((best, record) =>
    Math.abs(left(record) - here) < Math.abs(left(best) - here) ? record : best);
}
const keys = {
  ArrowLeft: () => neighbour(-1), ArrowRight: () => neighbour(1),
  ArrowUp: () => across(-1), ArrowDown: () => across(1), Home: () => failing || records[0],
};
document.addEventListener("keydown", (event) => {
  if (!chosen || !keys[event.key]) { return; }
  event.preventDefault();
  const next = keys[event.key]();
  choose(next, true);
  if (next) { next.focus({ preventScroll: true }); }
});
for (const record of records) {
  record.addEventListener("mouseenter", () => tell(record));
  record.addEventListener("mouseleave", () => tell(chosen));
  record.addEventListener("click", () => choose(record, false));
  record.addEventListener("focus", () => choose(record, false));
}
if (chosen) { choose(chosen, true); }
</script>
</body>
</html>
"""
