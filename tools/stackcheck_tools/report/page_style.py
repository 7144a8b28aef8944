"""The style sheet of the page. tests/units/test_page.py measures the contrast of its colours."""

STYLE = """
:root { color-scheme: light dark; --page: #fff; --text: #1d2430; --soft: #5a6372; --line: #eef0f3; --grid: #e3e6ea; --edge: #8a93a1; --code: #f1f3f6; --end: #3b4453;
  --static: #7a8492; --left: #eef1f5; --green: #2e7d4f; --green-back: #eaf6ee; --amber: #8a5d00; --amber-back: #fdf5e1; --red: #b3261e; --red-back: #fdecea; }
@media (prefers-color-scheme: dark) {
  :root { --page: #14181f; --text: #dde3ec; --soft: #9aa5b5; --line: #262d38; --grid: #2a313c; --edge: #5b6573; --code: #232a35; --end: #c3cbd7;
    --static: #8b97a8; --left: #2a313c; --green: #4fae77; --green-back: #16291f; --amber: #d9a339; --amber-back: #2e2614; --red: #e0645c; --red-back: #33191a; } }
body { font: 15px/1.5 system-ui, "Segoe UI", Helvetica, Arial, sans-serif; color: var(--text); background: var(--page); max-width: 64rem; margin: 2rem auto; padding: 0 1.2rem; }
h1 { font-size: 1.6rem; margin: 0; overflow-wrap: anywhere; } h2 { font-size: 1.1rem; margin: 2.2rem 0 0.6rem; } h2 small { color: var(--soft); font-weight: 400; margin-left: 0.6rem; }
.what { color: var(--soft); margin: 0.1rem 0 1.1rem; } .verdict { padding: 0.9rem 1.2rem; border-left: 7px solid; border-radius: 5px; margin: 0.6rem 0; }
.verdict b { font-size: 1.5rem; margin-right: 0.3rem; } .verdict p { margin: 0.4rem 0 0; } .green { border-color: var(--green); background: var(--green-back); }
.amber { border-color: var(--amber); background: var(--amber-back); } .red { border-color: var(--red); background: var(--red-back); }
.bar { display: flex; height: 2.4rem; border-radius: 4px; overflow: hidden; border: 1px solid var(--edge); } .bar div { min-width: 2px; overflow: hidden; }
.ends { display: flex; justify-content: space-between; color: var(--soft); font-size: 0.85rem; }
.keys { display: flex; flex-wrap: wrap; gap: 0.3rem 1.5rem; margin: 0.5rem 0 0; padding: 0; list-style: none; }
.keys i { display: inline-block; width: 0.9rem; height: 0.9rem; margin-right: 0.45rem; vertical-align: -0.1rem; border-radius: 2px; }
.wide { overflow-x: auto; margin: 0; } svg { width: 100%; min-width: 47rem; height: auto; display: block; font: 12px system-ui, "Segoe UI", Helvetica, Arial, sans-serif; }
path { stroke: var(--page); stroke-width: 1; }
.in { fill: #0b1018; } .end { fill: var(--end); } .axis { fill: var(--soft); font-size: 11px; } .grid { stroke: var(--grid); }
table { border-collapse: collapse; width: 100%; } td, th { padding: 0.25rem 0.7rem 0.25rem 0; vertical-align: top; text-align: left; }
tr + tr td { border-top: 1px solid var(--line); } th { font-weight: 600; color: var(--soft); font-size: 0.85rem; } td.name { overflow-wrap: anywhere; width: 34%; }
.count { text-align: right; width: 4.5rem; font-variant-numeric: tabular-nums; } .lengths { width: 32%; padding-top: 0.55rem; }
.lengths div { display: flex; height: 0.8rem; } .lengths i { display: block; } li { overflow-wrap: anywhere; }
.key i { display: inline-block; width: 0.7rem; height: 0.7rem; margin: 0 0.2rem 0 0.5rem; border-radius: 2px; }
code { font: 0.9em ui-monospace, Menlo, Consolas, monospace; background: var(--code); padding: 0.05em 0.3em; border-radius: 3px; overflow-wrap: anywhere; }
.state { white-space: nowrap; } .mark { display: inline-block; width: 0.65rem; height: 0.65rem; border-radius: 50%; margin-right: 0.4rem; } .soft { color: var(--soft); }
ul { padding-left: 1.2rem; margin: 0; } dt { font-weight: 600; margin-top: 0.6rem; } dd { margin: 0; }
footer { margin-top: 2.5rem; padding-top: 0.8rem; border-top: 1px solid var(--line); color: var(--soft); font-size: 0.85rem; }
@media (max-width: 40rem) {
  body { margin: 1rem auto; padding: 0 0.8rem; } h2 small { display: block; margin-left: 0; } .verdict { padding: 0.7rem 0.8rem; }
  .lengths, .key, .heads { display: none; } td.name { width: auto; } .count { width: 3.4rem; }
  .place { display: block; padding: 0.3rem 0; border-top: 1px solid var(--line); } tr.place td { display: block; border: 0; padding: 0; } }
"""
