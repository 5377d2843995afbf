"use strict";
// Finds packets by number, and shows ranks on hover. All data is in this page.
const data = JSON.parse(document.getElementById("data").textContent);
const hint = document.getElementById("hint");
const found = document.getElementById("found");
const number = document.getElementById("number");

function amount(value) {
  return value.toLocaleString("en-US");
}

function time(nanoseconds) {
  return amount(nanoseconds) + " ns";
}

// What the run says of a packet, in lines.
function lines(run, packet) {
  const at = packet - 1;
  const said = [run.title + ": packet " + amount(packet) + ", leaf " + run.leaves[run.leaf[at]]];
  const isDropped = run.left[at] < 0;
  const ranks = run.pushed[at] ? ", ranks " + run.pushed[at] : "";
  said.push((isDropped ? "dropped at event " : "arrived at event ") + amount(run.arrived[at]) + ranks);
  if (run.left[at] > 0) {
    said.push("departed at event " + amount(run.left[at]) + ", ranks " + run.taken[at]);
  } else if (!isDropped) {
    said.push("queued at the end");
  }
  if (run.moments) {
    said.push("timestamp " + time(run.moments[at]) + " after the first, " + amount(run.lengths[at]) + " bytes");
  }
  if (run.starts && run.starts[at] !== null) {
    said.push("start " + time(run.starts[at]) + ", delay " + time(run.starts[at] - run.moments[at]));
  }
  return said;
}

function barOf(which, packet) {
  const run = data.runs[which];
  return document.getElementById(run.prefix + "packet-" + (run.isOther ? "other-" : "") + packet);
}

function show(text) {
  document.querySelectorAll(".marked").forEach((bar) => bar.classList.remove("marked"));
  const packet = Number(text);
  const parts = data.runs.map((run, which) => {
    if (!Number.isInteger(packet) || packet < 1 || packet > run.packets) {
      return run.title + ": there is no packet " + text + "; the packets are 1 to " + amount(run.packets);
    }
    if (packet > run.leaf.length) {
      return run.title + ": this page has the first " + amount(run.leaf.length) + " of " + amount(run.packets)
        + " packets; --packets N keeps N";
    }
    const bar = barOf(which, packet);
    if (bar) {
      bar.classList.add("marked");
    }
    return lines(run, packet).join("\n");
  });
  found.textContent = parts.join("\n\n");
}

function packetOf(bar) {
  const parts = /^(.*?)packet-(other-)?(\d+)$/.exec(bar.id);
  if (!parts) {
    return null;
  }
  const run = data.runs.find((one) => one.prefix === parts[1] && one.isOther === Boolean(parts[2]));
  return run && Number(parts[3]) <= run.leaf.length ? [run, Number(parts[3])] : null;
}

document.addEventListener("mouseover", (event) => {
  const bar = event.target.closest('[id*="packet-"]');
  const known = bar && packetOf(bar);
  hint.style.display = known ? "block" : "none";
  if (known) {
    hint.textContent = lines(...known).join("\n");
    hint.style.left = Math.min(event.clientX + 12, window.innerWidth - 320) + "px";
    hint.style.top = event.clientY + 12 + "px";
  }
});

document.getElementById("find").addEventListener("submit", (event) => {
  event.preventDefault();
  window.location.hash = "packet=" + number.value.trim();
});

function showHash() {
  const asked = /^#packet=(\d+)$/.exec(window.location.hash);
  if (asked) {
    number.value = asked[1];
    show(asked[1]);
  }
}

if (!document.querySelector('[id*="packet-"]')) {
  found.textContent = "Enter a number.";
}
window.addEventListener("hashchange", showHash);
showHash();
