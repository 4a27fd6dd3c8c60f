"""How the page of tools/dossier looks, on a screen and on A4."""
import re

STYLE = """
:root { --line: #9aa4b0; --soft: #eef1f5; --ink: #15191e; --accent: #1f4e79; }
* { box-sizing: border-box; }
html { font: 10.5pt/1.42 Helvetica, Arial, "Liberation Sans", "DejaVu Sans", sans-serif; }
html { color: var(--ink); background: #fff; }
body { max-width: 190mm; margin: 0 auto; padding: 8mm 6mm 16mm; }
h1 { font-size: 21pt; line-height: 1.2; margin: 0 0 1mm; }
h2 { font-size: 15pt; line-height: 1.25; margin: 9mm 0 3mm; padding-bottom: 1mm; border-bottom: 1.2pt solid var(--ink); }
h2, li, code, pre, .hash, th, td { overflow-wrap: anywhere; }
h3 { font-size: 11.5pt; margin: 6mm 0 1.5mm; color: var(--accent); }
h4 { font-size: 10.5pt; margin: 4mm 0 1mm; }
p { margin: 0 0 2mm; orphans: 3; widows: 3; }
ul, ol { margin: 0 0 2.5mm; padding-left: 6mm; }
li { margin: 0 0 .8mm; }
a { color: inherit; }
nav ol { list-style: decimal; }
nav .verdict { font-size: 8pt; }
code, pre, .bytes { font-family: "DejaVu Sans Mono", "Liberation Mono", Menlo, Consolas, monospace; }
code { font-size: .88em; }
pre { font-size: 8pt; line-height: 1.4; background: var(--soft); border: .6pt solid var(--line); white-space: pre-wrap; }
pre { padding: 2mm 2.5mm; margin: 0 0 3mm; }
.hash { font-size: 8pt; }
table { border-collapse: collapse; table-layout: fixed; width: 100%; margin: 0 0 3.5mm; }
table { font-size: 9pt; line-height: 1.32; }
th, td { border: .6pt solid var(--line); padding: 1mm 1.6mm; text-align: left; vertical-align: top; hyphens: manual; }
thead th { background: var(--soft); border-bottom: 1.2pt solid var(--ink); font-size: 8.5pt; }
.facts th { width: 34mm; background: var(--soft); font-weight: 600; }
.summary :is(td, th):nth-child(n+4), .summary :is(td, th):first-child { text-align: right; }
.flows { font-size: 7.8pt; line-height: 1.28; }
.flows td { padding: .6mm 1.2mm; border-bottom-width: 0; }
.flows tr:last-child td { border-bottom-width: .6pt; }
.flows tr.reply td { border-top-width: 0; color: #39424d; padding-left: 2.6mm; }
.flows td:nth-child(4) { text-align: right; }
.bytes { font-size: 7pt; }
.wiring, .losses, .margins { font-size: 8.4pt; }
.hop { display: inline-block; max-width: 100%; }
.losses :is(td, th):nth-child(2), .flows th:nth-child(4) { text-align: right; }
.meanings :is(td, th):nth-child(2) { text-align: right; }
.hashes td { padding: .7mm 1.6mm; }
.sign td { height: 15mm; }
.sign td:first-child { font-weight: 600; }
.line { display: inline-block; width: 80mm; border-bottom: .8pt solid var(--ink); }
.box { border: 1.4pt solid var(--ink); border-left-width: 5pt; padding: 3mm 4mm 1.5mm; margin: 0 0 4mm; }
.box.free { border-left-color: #1c6b3c; }
.box.cyclic, .box.misrouted, .box.fault { border-left-color: #b02300; }
.verdict { display: inline-block; border: 1pt solid var(--ink); padding: 0 1.6mm; font-size: .92em; white-space: nowrap; }
.verdict.free { border-color: #1c6b3c; color: #14502d; }
.verdict.cyclic, .verdict.misrouted, .verdict.fault { border: 2pt double #b02300; color: #8f1d00; }
.verdict.unread, .verdict.memory { border-style: dashed; }
.box > p:first-child .verdict { font-size: 13pt; margin-right: 2mm; }
.warning { border: 1.2pt dashed #b02300; padding: 1.5mm 2.5mm; }
.note { font-style: italic; }
.notes { font-size: 8.4pt; }
.bad { color: #8f1d00; white-space: normal; }
figure { margin: 2mm 0 4mm; text-align: center; }
figure svg { max-width: 100%; height: auto; }
figcaption { font-size: 8.5pt; color: #39424d; text-align: left; margin-top: 1.5mm; }
@media screen { section, nav, header { max-width: 178mm; margin-left: auto; margin-right: auto; } }
@media print {
  @page { size: A4; margin: 16mm 15mm 17mm; 
    @bottom-left { content: "FOOT"; font: 8pt Helvetica, Arial, sans-serif; }
    @bottom-right { content: counter(page) " / " counter(pages); font: 8pt Helvetica, Arial, sans-serif; } }
  body { max-width: none; padding: 0; }
  a { text-decoration: none; }
  section.network, section.new { break-before: page; }
  section.network > h2, section.new > h2 { margin-top: 0; }
  h2, h3, h4 { break-after: avoid; }
  thead { display: table-header-group; }
  p, tr, figure, .box, pre, li { break-inside: avoid; }
  h3 + p:not(:last-child) { break-after: avoid; }
  .flows tr.reply { break-before: avoid; }
  #signatures, .facts, .meanings { break-inside: avoid; }
}
"""


def style(foot):
    """The style of a page, each printed page of which has these words at its foot."""
    return STYLE.replace("FOOT", re.sub(r"[^A-Za-z0-9 .,-]", " ", foot))
