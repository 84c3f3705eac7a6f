"""Style and script of the page of one explanation, beside those of `web`."""

STYLE = """
* { box-sizing: border-box; }
body { margin: 0; background: var(--back); color: var(--text); font: 15px/1.5 var(--sans); }
main { max-width: 72rem; margin: 0 auto; padding: 1rem 1rem 6rem; }
h1 { font-size: 1.3rem; margin: 0.3rem 0; }
h3 { margin: 1.6rem 0 0.3rem; }
h4 { margin: 1rem 0 0.3rem; }
pre { overflow-x: auto; font: 12.5px/1.5 var(--mono); }
.verdict { font: 600 1.2rem var(--mono); margin: 0.3rem 0; }
.verdict a { font: 15px var(--sans); color: inherit; margin-left: 0.8rem; }
#refused { scroll-margin: 40vh; }
.good { color: var(--good); }
.refused { color: var(--bad); }
.warning { color: var(--warn); }
.small { color: var(--soft); font-size: 12.5px; font-weight: 400; }
.scroll { overflow-x: auto; }
button.plain { border: 0; background: none; padding: 0 0.25rem; cursor: pointer; }
#says { position: fixed; left: 0; right: 0; bottom: 0; padding: 0.5rem 1rem; background: var(--tint);
  border-top: 2px solid var(--accent); font: 13px var(--mono); overflow-wrap: anywhere; }
@media (max-width: 30rem) { main { padding: 0.6rem 0.6rem 6rem; } }
"""

SCRIPT = """
const says = document.getElementById("says");
const show = (text) => { says.textContent = text; says.hidden = false; };
const data = JSON.parse(document.getElementById("data").textContent);
document.getElementById("proof").append(render(data, { onSays: show }));
document.addEventListener("keydown", (event) => { if (event.key === "Escape") says.hidden = true; });
const bad = document.querySelector("li.bad, tr.bad, #proof p.refused");
if (bad) {
  bad.id = "refused";
  document.querySelector(".verdict").append(" ", h("a", { href: "#refused" }, "where"));
}
"""
