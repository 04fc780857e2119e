"""How the page looks: light or dark as the reader has it, columns where there is room."""

STYLE = """
:root { color-scheme: light dark; --ground: #f6f6f3; --card: #ffffff; --ink: #1d1f23; --faint: #5d626b; --line: #d9dade;
  --bar: #3b6fb6; --track: #e6e8ec; --fault: #a32020 }
@media (prefers-color-scheme: dark) {
  :root { --ground: #15171a; --card: #1e2125; --ink: #e8e9eb; --faint: #a0a5ae; --line: #363a41; --bar: #74a4e6;
    --track: #2e3238; --fault: #ff9a90 }
}
* { box-sizing: border-box }
body { margin: 0; background: var(--ground); color: var(--ink); font: 1rem/1.45 system-ui, sans-serif }
main { max-width: 80rem; margin: 0 auto; padding: 1rem }
h1 { font-size: 1.4rem; margin: .5rem 0 1rem }
h2 { font-size: 1.15rem; margin: 0 }
h3, h4 { font-size: 1rem; margin: 0 0 .5rem }
h1, h2, h3, h4, .label, .about, .figures, .statistics { overflow-wrap: anywhere }
h3, h4, .label { max-height: 6.5rem; overflow-y: auto }
.reply { margin: 0 0 2rem; padding-top: 1rem; border-top: 2px solid var(--line) }
.about, .statistics, .none, figcaption { color: var(--faint); font-size: .875rem; margin: 0 0 .75rem }
.fault h2, .fault code { color: var(--fault) }
.figures { display: flex; flex-wrap: wrap; gap: .25rem 2rem; margin: 0 0 .75rem }
.figures dt { color: var(--faint); font-size: .875rem }
.figures dd { margin: 0; font-size: 1.15rem; font-variant-numeric: tabular-nums }
.facets { display: grid; grid-template-columns: repeat(auto-fill, minmax(min(100%, 17rem), 1fr)); gap: 1rem; align-items: start }
.facet { background: var(--card); border: 1px solid var(--line); border-radius: .5rem; padding: .75rem; min-width: 0 }
.nested { display: grid; gap: .75rem; margin: .25rem 0 .75rem .4rem; padding-left: .75rem; border-left: 2px solid var(--line) }
.nested .facet { background: none; border: 0; padding: 0 }
ol { list-style: none; margin: 0; padding: 0 }
li { padding: .2rem 0 }
table { border-collapse: collapse; font-variant-numeric: tabular-nums }
th, td { text-align: right; padding: .1rem .75rem .1rem 0 }
th { color: var(--faint); font-weight: normal }
.scroll { max-height: 24rem; overflow-y: auto; padding-right: .5rem }
.row { display: grid; grid-template-columns: minmax(0, 1fr) auto; column-gap: .75rem }
.count { font-variant-numeric: tabular-nums; text-align: right }
.row .statistics { grid-column: 1 / -1; margin: 0 }
.beside { color: var(--faint); font-style: italic }
.track { grid-column: 1 / -1; height: .3rem; background: var(--track); border-radius: .15rem; overflow: hidden }
.track span { display: block; height: 100%; background: var(--bar) }
summary { cursor: pointer }
summary.row { list-style: none; position: relative; padding-left: 1rem }
summary.row::-webkit-details-marker { display: none }
summary.row::before { content: "\\25B8"; position: absolute; left: 0; color: var(--faint) }
details[open] > summary.row::before { content: "\\25BE" }
figure { margin: 0 0 .5rem }
figcaption { display: flex; justify-content: space-between; gap: .5rem; margin: .15rem 0 0; font-variant-numeric: tabular-nums }
svg { display: block; width: 100%; height: 7rem; background: var(--track) }
svg rect { fill: var(--bar) }
""".strip()
