"""What the pages of the recipes share: HTML, its style, escaped texts, places of numbers. Not proved.

A page is one file. It asks for nothing else: the style is inside, pictures are SVG inside (drawings.py), there is no
script, and folded parts are `details`, which a keyboard opens. Colours are those of Okabe and Ito, which the
colour-blind tell apart; where two could look alike in grey, a pattern or a shape differs too.

Numbers carry where they were looked up. `data-of="TABLE ROW COLUMN"` says that the text is that field of TABLE.csv,
rows counted from 0 after the head; in a table with `data-table="TABLE"` the row has `data-row="ROW"` and the column's
head `data-column="COLUMN"`. A share is written in per cent, which moves the point and rounds nothing.
"""
import html

STYLE = """
:root { --ink: #1c2127; --soft: #59636e; --line: #d4d9de; --shade: #f5f7f8; --link: #00558a; --broken: #b34700; }
* { box-sizing: border-box; }
html { -webkit-text-size-adjust: 100%; scroll-behavior: auto; }
body { margin: 0; color: var(--ink); background: #fff;
  font: 16px/1.5 system-ui, -apple-system, "Segoe UI", "Liberation Sans",
  "DejaVu Sans", Arial, sans-serif; }
header, main, footer { max-width: 1100px; margin: 0 auto; padding: 0 28px; }
header { padding-top: 40px; }
h1 { font-size: 30px; line-height: 1.2; margin: 0 0 4px; font-weight: 650; overflow-wrap: anywhere; }
h2 { font-size: 23px; line-height: 1.25; margin: 52px 0 12px; padding-top: 14px; border-top: 2px solid var(--ink); }
h3 { font-size: 17px; margin: 36px 0 6px; }
h4 { font-size: 15px; margin: 22px 0 4px; color: var(--soft); font-weight: 600; }
p, ul, ol { margin: 8px 0 12px; max-width: 78ch; }
a { color: var(--link); text-underline-offset: 2px; text-decoration-thickness: 1px; }
.skip { position: absolute; left: -9999px; }
.skip:focus { left: 12px; top: 8px; background: #fff; padding: 4px 10px; border: 2px solid var(--link); }
:focus-visible { outline: 3px solid var(--link); outline-offset: 2px; }
.soft { color: var(--soft); }
.lead { font-size: 17px; color: var(--soft); margin: 0 0 20px; }
nav ol { list-style: none; display: flex; flex-wrap: wrap; gap: 2px 22px; padding: 10px 0; margin: 0;
  border-top: 1px solid var(--line); border-bottom: 1px solid var(--line); max-width: none; }
.tiles { display: grid; grid-template-columns: repeat(auto-fit, minmax(180px, 1fr)); gap: 0; margin: 20px 0;
  border: 1px solid var(--line); padding: 0; list-style: none; max-width: none; }
.tiles li { padding: 14px 18px; border-right: 1px solid var(--line); border-bottom: 1px solid var(--line);
  margin: 0 -1px -1px 0; }
.tiles b { display: block; font-size: 27px; line-height: 1.2; font-weight: 650; font-variant-numeric: tabular-nums; }
.tiles li > span { color: var(--soft); font-size: 14px; line-height: 1.35; display: block; }
.tiles li > span a { color: inherit; }
.rests ul { columns: 2; column-gap: 44px; max-width: none; padding-left: 20px; font-size: 15px; }
.rests li { break-inside: avoid; margin-bottom: 6px; }
.warn { border-left: 4px solid var(--broken); background: var(--shade); padding: 10px 16px; margin: 16px 0;
  max-width: 84ch; }
.scroll { overflow-x: auto; margin: 8px 0 18px; }
.scroll > table { margin: 0; }
table { border-collapse: collapse; font-size: 14.5px; font-variant-numeric: tabular-nums; }
caption { text-align: left; color: var(--soft); font-size: 14px; padding-bottom: 4px; }
th, td { text-align: left; padding: 5px 14px 5px 0; border-bottom: 1px solid var(--line); vertical-align: top; }
thead th { border-bottom: 1px solid var(--ink); font-weight: 600; font-size: 13.5px; vertical-align: bottom;
  line-height: 1.3; }
th.n, td.n { text-align: right; } td.n { white-space: nowrap; }
tbody th { font-weight: 500; }
td.wide, th.wide { min-width: 15em; }
td.far { min-width: 14em; }
figure { margin: 14px 0 24px; }
header h2 { margin-top: 26px; border: 0; padding: 0; font-size: 19px; }
figcaption { font-size: 14px; color: var(--soft); max-width: 92ch; margin-top: 4px; }
figure .picture svg { display: block; width: 100%; height: auto; overflow: visible; }
.pair { display: grid; grid-template-columns: 1fr 1fr; gap: 0 32px; }
.pair figure { min-width: 0; }
.picture { overflow-x: auto; overflow-y: hidden; }
details { margin: 0; }
summary { cursor: pointer; padding: 6px 0; }
summary:hover { background: var(--shade); }
.lines { list-style: none; margin: 8px 0 16px; padding: 0; max-width: none; border-top: 1px solid var(--line); }
.lines > li { border-bottom: 1px solid var(--line); font-size: 15px; }
.lines > li.plain { padding: 6px 0 6px 19px; }
.lines summary > span, .lines .plain > span { margin-right: 14px; }
.lines summary { line-height: 1.45; }
.lines .inner { padding: 2px 0 16px 19px; }
.mark { font-weight: 650; }
.grade { border: 1px solid currentColor; border-radius: 3px; padding: 0 6px; font-size: 13px; white-space: nowrap; }
.grade.certain, .grade.sure, .grade.likely { color: #fff; background: var(--broken); border-color: var(--broken); }
.grade.weak { color: var(--broken); border-style: dashed; }
.grade.unlearned { color: var(--soft); border-style: dotted; }
.grade.solid { color: var(--soft); }
pre.rows { font: 13px/1.45 ui-monospace, "Liberation Mono", "DejaVu Sans Mono", Menlo, Consolas, monospace;
  margin: 6px 0; padding: 10px 14px; background: var(--shade); overflow-x: auto; }
pre.rows b { font-weight: 700; }
.small svg { display: block; width: 220px; height: 34px; }
.window { white-space: nowrap; }
.index { width: 100%; }
.index td { vertical-align: middle; }
.index thead th { max-width: 7.5em; }
.index tbody th { vertical-align: middle; font-weight: 650; }
.files { font-size: 13.5px; }
.files td { overflow-wrap: anywhere; }
code { font: 0.88em ui-monospace, "Liberation Mono", "DejaVu Sans Mono", Menlo, Consolas, monospace;
  overflow-wrap: anywhere; }
.entry { white-space: nowrap; margin: 0 12px 0 0; }
.key { display: inline-block; width: 14px; height: 10px; margin: 0 5px 0 0; vertical-align: baseline; }
.patterns { position: absolute; }
footer { margin-top: 64px; padding-top: 14px; padding-bottom: 48px; color: var(--soft); font-size: 14px;
  border-top: 1px solid var(--line); }
@media screen and (max-width: 760px) {
  body { font-size: 16px; } header, main, footer { padding-left: 16px; padding-right: 16px; }
  header { padding-top: 22px; } h1 { font-size: 25px; } h2 { font-size: 20px; margin-top: 44px; }
  .pair { grid-template-columns: 1fr; } .picture svg { min-width: 620px; } .pair .picture svg { min-width: 360px; }
  .rests ul { columns: 1; }
  .tiles { grid-template-columns: 1fr 1fr; } .tiles li { padding: 10px 12px; } .tiles b { font-size: 22px; }
}
@media print {
  @page { margin: 15mm 14mm; }
  body { font-size: 10pt; line-height: 1.4; } header, main, footer { max-width: none; padding: 0; }
  h1 { font-size: 19pt; } h2 { font-size: 14pt; margin-top: 22pt; } h3 { font-size: 11pt; margin-top: 14pt; }
  h2, h3, h4, caption, h2 + p, h3 + p, h4 + p, .scroll caption { break-after: avoid; }
  figure, tr, .tiles li, .warn, .lines > li > details > summary { break-inside: avoid; }
  thead { display: table-header-group; } .scroll, .picture, pre.rows { overflow: visible; }
  table { font-size: 8.5pt; }
  th, td { padding: 2.5pt 8pt 2.5pt 0; }
  .lines > li { font-size: 9pt; }
  pre.rows { font-size: 7.5pt; white-space: pre-wrap; }
  figcaption, .tiles li > span, caption { font-size: 8.5pt; }
  .tiles b { font-size: 15pt; }
  .tiles { grid-template-columns: repeat(auto-fit, minmax(100px, 1fr)); }
  .pair { gap: 0 18px; }
  figure { margin: 6pt 0 10pt; }
  h2 { break-before: auto; }
  .lines > li { break-inside: avoid; }
  a { color: inherit; } .skip { display: none; } .grade { border-color: #000; }
  .grade.certain, .grade.sure, .grade.likely { color: #000; background: none; border-width: 2px; }
}
"""


def text(value):
    """The text, escaped for an element or an attribute."""
    return html.escape(str(value), quote=True)


def attributes(given):
    """Attributes as ` name="value"`: `data_of` is data-of, `cls` is class; one that is None is left out."""
    names = {"cls": "class"}
    return "".join(' %s="%s"' % (names.get(name, name.replace("_", "-")), text(value))
                   for name, value in given.items() if value is not None)


def element(name, inner="", **given):
    """An element around HTML that is escaped already."""
    return "<%s%s>%s</%s>" % (name, attributes(given), inner, name)


def link(target, inner):
    return element("a", inner, href=target)


def folded(summary, inner, **given):
    """A part that is folded up until it is opened."""
    return element("details", element("summary", summary) + element("div", inner, cls="inner"), **given)


def table(heads, rows, caption="", **given):
    """A table of rows, of which heads and rows are HTML."""
    caption = element("caption", caption) if caption else ""
    body = element("thead", element("tr", heads)) + element("tbody", "\n".join(rows))
    return element("table", caption + body, **given)


def scrolled(inner):
    """What is wider than a narrow screen, and is moved sideways there."""
    return element("div", inner, cls="scroll")


def figure(picture, caption):
    """A picture with its caption, both HTML."""
    return element("figure", element("div", picture, cls="picture") + element("figcaption", caption))


def percent(share):
    """A share of three decimals in per cent: 0.640 is 64.0 %. The point moves, nothing is rounded."""
    if not share:
        return ""
    whole, decimals = share.split(".")
    return "%d.%s\u00a0%%" % (int(whole + decimals[:2]), decimals[2])


def page(title, inner, description=""):
    """A whole page."""
    return "\n".join([
        "<!DOCTYPE html>", '<html lang="en">', "<head>", '<meta charset="utf-8">',
        '<meta name="viewport" content="width=device-width, initial-scale=1">',
        '<meta name="generator" content="sigaudit, examples/report">',
        '<meta name="description" content="%s">' % text(description), '<link rel="icon" href="data:,">',
        "<title>%s</title>" % text(title), "<style>%s</style>" % STYLE, "</head>", "<body>",
        '<a class="skip" href="#main">To the content</a>', inner, "</body>", "</html>", ""])
