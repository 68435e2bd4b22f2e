"""The style sheet: on a screen the pages lie white on grey."""

from __future__ import annotations

from string import Template

from sheet import measures
from sheet.layout import Paper
from sheet.measures import length

#: In the letters of IDs the 1, the l and the 0 differ. A name stands for a length of `measures`, or of how the sheet is printed.
STYLE = Template("""
@page{size:$paper;margin:0}
*{box-sizing:border-box;margin:0;padding:0}
html{color-scheme:light;forced-color-adjust:none;background:#fff;color:#000;-webkit-print-color-adjust:exact;print-color-adjust:exact}
body{font:$rules/1.25 Arial,"Liberation Sans",Helvetica,"DejaVu Sans",sans-serif}
section{width:$width;height:$height;padding:$TOP $SIDE;position:relative;overflow:hidden;break-after:page;break-inside:avoid}
section:last-child{break-after:auto}
header{display:flex;justify-content:space-between;align-items:flex-end;border-bottom:.3mm solid #000;padding-bottom:1mm;margin-bottom:1.5mm}
h1{font-size:$title;line-height:1.2;overflow-wrap:anywhere}
.name{font-size:$name;white-space:nowrap;margin-left:$NAME_GAP}
.name u{display:inline-block;width:45mm;border-bottom:.2mm solid #000}
.rules{margin-bottom:.6mm}
.puzzles{display:grid;column-gap:$COLUMN_GAP;margin-top:$HEAD_GAP}
.columns1{grid-template-columns:1fr}
.columns2{grid-template-columns:1fr 1fr}
.columns3{grid-template-columns:1fr 1fr 1fr}
figure{break-inside:avoid}
.puzzles figure{position:relative;display:flex;flex-direction:column;align-items:center;justify-content:flex-end}
.columns2 figure:nth-child(2n)::before,.columns3 figure:not(:nth-child(3n+1))::before
{content:"";position:absolute;left:-$HALF_GAP;top:0;bottom:0;border-left:.15mm dashed #000}
svg{display:block;flex:none}
figcaption{flex:none;padding-top:$CAPTION_TOP;overflow:hidden}
.line{display:flex;align-items:baseline;white-space:nowrap;line-height:1.2}
.line span{font-size:85%;margin-left:1.2mm}
.line i{font-style:normal;margin-left:auto}
.note{display:-webkit-box;-webkit-box-orient:vertical;line-height:1.25;overflow:hidden;overflow-wrap:anywhere;unicode-bidi:isolate}
code{display:block;font-family:"DejaVu Sans Mono",Menlo,Consolas,"Liberation Mono","Courier New",monospace;font-variant-ligatures:none;overflow-wrap:anywhere}
.small{font-weight:700}
.answers{display:flex;column-gap:$answer_gap}
.answers svg{margin:.6mm 0 0}
.listing{display:flex;justify-content:space-between}
.steps{overflow:hidden;font-size:$steps;line-height:1.25}
.steps .first:not(:first-child){margin-top:$STEPS_GAP}
.lessons{margin-top:$HEAD_GAP}
.example{display:flex;justify-content:space-between;font-size:$lesson;line-height:1.35}
footer{position:absolute;left:$SIDE;right:$SIDE;bottom:$TOP;display:flex;justify-content:space-between;align-items:baseline;font-size:$footer;white-space:nowrap}
footer code{font-size:$command}
@media screen{html{background:#ddd}section{background:#fff;margin:6mm auto}}
""")

#: The rules that sheets with names have besides.
NAMES = Template("""\
.own{flex:none;max-width:$own_name;overflow:hidden;text-overflow:ellipsis}
.pupil,.first{white-space:nowrap;overflow:hidden;text-overflow:ellipsis}
""")


def style(paper: Paper, has_names: bool = False) -> str:
    """For this paper."""
    # The margins are those of the sections: a browser that ignores the rule for the page makes all smaller, and its own margins come besides.
    own = {'width': paper.size.width, 'height': paper.size.height - measures.SPARE, 'own_name': paper.name_room}
    numbers = {**vars(measures), **paper.print._asdict(), **own}
    lengths = {name: length(number) for name, number in numbers.items() if isinstance(number, int)}
    used = [NAMES, STYLE] if has_names else [STYLE]
    return ''.join(each.substitute(lengths, paper=f'{lengths["width"]} {length(paper.size.height)}') for each in used)
