"""The colours, patterns and style sheets of pages and pictures, in light and in dark."""

# Of each outcome: its ground and its pattern. Letters stand on the ground in the colour of the text.
LIGHT = [
    ("#cfe3f7", "#3f7cb8"), ("#fbdcb8", "#b26a12"), ("#d3ecd0", "#3f8a3a"), ("#f6d3e4", "#b24a80"),
    ("#e2d9f5", "#7a5cc0"), ("#fff1b0", "#92780a"), ("#c9ecec", "#1d8686"), ("#e3e3e3", "#6b6b6b"),
]
DARK = [
    ("#1d4468", "#7fb4e6"), ("#5c3a10", "#e8a658"), ("#1f4a22", "#82c67c"), ("#5a2342", "#e893bd"),
    ("#3f2f70", "#b5a0ec"), ("#4d4208", "#d8bf4a"), ("#0f4a4a", "#63c3c3"), ("#414141", "#b4b4b4"),
]
# Of payments, by size: what an agent pays, and what an agent gets.
LIGHT_PAYS = ["#eef5fd", "#dcebfa", "#c8dff6", "#b3d2f1", "#9cc4ec"]
LIGHT_GETS = ["#fdf4e7", "#fbe8cd", "#f8dab0", "#f4cb92", "#efbb72"]
DARK_PAYS = ["#182635", "#1a2f46", "#1c3a59", "#1d456d", "#1e5083"]
DARK_GETS = ["#2c2415", "#3a2d13", "#4a3711", "#5a410e", "#6b4c0a"]

# Drawn on a tile of 8 by 8 pixels.
PATTERNS = [
    "",
    '<path class="s{hue}" d="M-2 2L2 -2M0 8L8 0M6 10L10 6"/>',
    '<path class="s{hue} round" d="M2 2h0M6 6h0"/>',
    '<path class="s{hue}" d="M0 4H8"/>',
    '<path class="s{hue}" d="M-2 6L2 10M0 0L8 8M6 -2L10 2"/>',
    '<path class="s{hue}" d="M4 0V8"/>',
    '<path class="s{hue}" d="M0 4H8M4 0V8"/>',
    '<path class="s{hue}" d="M-2 2L2 -2M0 8L8 0M6 10L10 6M-2 6L2 10M0 0L8 8M6 -2L10 2"/>',
]

LIGHT_PAGE = {"paper": "#ffffff", "ink": "#1b1f24", "soft": "#525a64", "line": "#d0d7de", "panel": "#f6f8fa",
              "link": "#0b5cad", "good": "#1a6b34", "bad": "#a4262c"}
DARK_PAGE = {"paper": "#14171c", "ink": "#e8eaed", "soft": "#a9b1ba", "line": "#3a424c", "panel": "#1d2229",
             "link": "#7fb8ff", "good": "#6fd08c", "bad": "#ff9a94"}


def names(page: dict[str, str], keys: list[tuple[str, str]], pays: list[str], gets: list[str]) -> str:
    """The colours as declarations of a style sheet."""
    made = [f"--{name}:{colour}" for name, colour in page.items()]
    made += [f"--f{i}:{ground};--s{i}:{stroke}" for i, (ground, stroke) in enumerate(keys)]
    made += [f"--pay{i + 1}:{colour}" for i, colour in enumerate(pays)]
    made += [f"--get{i + 1}:{colour}" for i, colour in enumerate(gets)]
    return ";".join(made)


def colour_style() -> str:
    """The colours of both schemes. What is printed is light."""
    light = names(LIGHT_PAGE, LIGHT, LIGHT_PAYS, LIGHT_GETS)
    dark = names(DARK_PAGE, DARK, DARK_PAYS, DARK_GETS)
    screen = "@media screen and (prefers-color-scheme:dark)"
    return f":root{{color-scheme:light dark;{light}}}\n{screen}{{:root{{{dark}}}}}\n"


def drawing_style() -> str:
    """How pictures are drawn, by the colours above."""
    made = [f".f{i}{{fill:var(--f{i})}}.s{i}{{stroke:var(--s{i})}}.h{i}{{stroke:var(--f{i})}}" for i in range(8)]
    return "".join(made) + (
        "pattern path{fill:none;stroke-width:1.5}pattern .round{stroke-width:3;stroke-linecap:round}"
        ".edge{stroke:var(--ink);stroke-width:1}.rule{stroke:var(--line);fill:none}.paper{fill:var(--paper)}"
        "svg text{font:13px ui-monospace,SFMono-Regular,Menlo,Consolas,'DejaVu Sans Mono',monospace;fill:var(--ink)}"
        ".arrow{fill:none;stroke:var(--link);stroke-width:1.5}.arrow.weighed,.ring.weighed{stroke-width:3}"
        ".arrow.some,.ring.some{stroke-dasharray:5 3}.point{fill:var(--link)}.node{fill:var(--panel);stroke:var(--ink)}"
        ".ring{fill:none;stroke:var(--link);stroke-width:1.5}"
        ".frame{fill:var(--panel);stroke:var(--soft);stroke-width:1}.edge.thick{stroke-width:3}"
        ".axis,.bracket{fill:none;stroke:var(--ink);stroke-width:1.5}"
        ".across{fill:none;stroke:var(--ink);stroke-width:3;stroke-dasharray:6 2}"
        "svg .agent{font-weight:700}svg .heading{font-size:14px;font-weight:700}"
        "svg .letter{font-weight:700;stroke-width:4px;stroke-linejoin:round;paint-order:stroke}"
    )


def picture_style() -> str:
    """The style of a picture that is a file of its own."""
    return colour_style() + drawing_style()


PAGE = """
*{box-sizing:border-box}
html{-webkit-text-size-adjust:100%}
body{margin:0;background:var(--paper);color:var(--ink);
  font:16px/1.55 system-ui,-apple-system,"Segoe UI",Roboto,"Helvetica Neue",Arial,sans-serif}
header,main,footer{max-width:76rem;margin:0 auto;padding:0 1rem}
header{padding-top:1.5rem}
main p,main dl,header p{max-width:46rem}
h1{font-size:1.75rem;line-height:1.2;margin:.2rem 0 .6rem;overflow-wrap:anywhere}
h2{font-size:1.25rem;margin:2.2rem 0 .6rem;padding-top:.8rem;border-top:1px solid var(--line)}
h3{font-size:1.05rem;margin:1.4rem 0 .4rem}
p{margin:.5rem 0}
p,dd,li,figcaption{overflow-wrap:anywhere;min-width:0}
a{color:var(--link)}
code{font:.9em ui-monospace,SFMono-Regular,Menlo,Consolas,"DejaVu Sans Mono",monospace;overflow-wrap:anywhere}
.lead{font-size:1.05rem}
.over{color:var(--soft);font-size:.9rem;margin:0}
.verdict{max-width:48rem;border-left:.35rem solid var(--link);background:var(--panel);padding:.7rem 1rem;margin:.8rem 0}
.verdict.bad{border-color:var(--bad)}
.verdict p{margin:.15rem 0}
.verdict .value{font-size:1.5rem;font-weight:700;font-variant-numeric:tabular-nums;overflow-wrap:anywhere}
.verdict .soft,.soft{color:var(--soft)}
dl{display:grid;grid-template-columns:minmax(6.5rem,auto) 1fr;gap:.3rem 1rem;margin:.5rem 0}
dt{font-weight:600}
dd{margin:0}
.scroll{overflow-x:auto;max-width:100%;margin:.6rem 0;
  background:linear-gradient(to right,var(--paper) 40%,transparent),
    linear-gradient(to left,var(--paper) 40%,transparent) 100% 0,
    linear-gradient(to right,var(--line),transparent),linear-gradient(to left,var(--line),transparent) 100% 0;
  background-repeat:no-repeat;background-size:2.5rem 100%,2.5rem 100%,.7rem 100%,.7rem 100%;
  background-attachment:local,local,scroll,scroll}
.scroll:focus-visible{outline:2px solid var(--link);outline-offset:2px}
table{border-collapse:collapse;font-variant-numeric:tabular-nums}
caption{text-align:left;font-weight:600;padding:.3rem 0}
caption .soft{font-weight:400}
th,td{padding:.3rem .7rem;border:1px solid var(--line);text-align:left;vertical-align:top}
thead th{background:var(--panel)}
th{font-weight:600}
td.num,th.num{text-align:right}
td code,th code{overflow-wrap:normal}
.wide{min-width:13rem}
td.num{font-family:ui-monospace,SFMono-Regular,Menlo,Consolas,"DejaVu Sans Mono",monospace;font-size:.9em}
.flow{display:flex;flex-wrap:wrap;gap:.4rem 2rem;align-items:flex-start}
.flow>*{min-width:0;max-width:100%}
figure{margin:.6rem 0}
figcaption{font-weight:600;margin-bottom:.3rem}
.picture{display:block;max-width:100%;height:auto}
.legend{list-style:none;display:flex;flex-wrap:wrap;gap:.3rem 1.2rem;padding:0;margin:.6rem 0}
.legend li{display:flex;align-items:flex-start;gap:.45rem;overflow-wrap:anywhere}
.swatch{flex:none}
@media (max-width:40rem){th,td{padding:.3rem .4rem}table{font-size:.94rem}}
summary{cursor:pointer;font-weight:600}
.names{columns:22rem;column-gap:2rem;padding-left:1.2rem;margin:.5rem 0}
.names li{break-inside:avoid;padding-bottom:.15rem}
.pages{padding-left:1.2rem;max-width:46rem}
.pages p{margin:.1rem 0 .7rem;color:var(--soft)}
footer{margin-top:2.5rem;padding-top:.8rem;padding-bottom:2rem;color:var(--soft);font-size:.9rem}
footer p{max-width:46rem}
.defs{position:absolute}
"""

PRINT = """
@media print{
body{font-size:10.5pt}
header,main,footer{max-width:none;padding-left:0;padding-right:0}
.scroll{overflow:visible;background:none}
.picture{min-width:0!important;max-height:235mm}
.flow{display:block;orphans:1;widows:1}
.many{font-size:6.5pt}
.many th,.many td{padding:.1rem .2rem}
.flow>*{display:inline-block;vertical-align:top;margin-right:1.5rem}
figure,tr,.verdict,.legend,.short{break-inside:avoid}
.over{display:none}
h2,h3,caption,figcaption{break-after:avoid}
thead{display:table-header-group}
td,rect,.verdict,thead th{print-color-adjust:exact;-webkit-print-color-adjust:exact}
a{color:inherit}
}
"""


def page_style() -> str:
    """The style of a page with the pictures in it."""
    shades = "".join(
        f".pay{i}{{background:var(--pay{i})}}.get{i}{{background:var(--get{i})}}" for i in range(1, 6)
    )
    return colour_style() + drawing_style() + PAGE + shades + PRINT
