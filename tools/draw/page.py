"""One page of HTML that needs nothing else: the heap's shape with a slider over the moments of a report, and bytes over events."""
import json

from heap_shape import CLASSES, CLASS_BYTES, POOL_BYTES, POOL_HEAD
from pictures import (
    CELL,
    FREE,
    LEFT,
    MAP_WIDTH,
    TIME_BOTTOM,
    TIME_HEIGHT,
    TIME_LEFT,
    TIME_RIGHT,
    TIME_TOP,
    TIME_WIDTH,
    NothingToDraw,
    colour_of,
    legend,
    spread,
    svg,
    time_body,
)

# A pool is one number: 0 for a free one, else its class and its live blocks.
LIVE_BITS = 11
MOST_POOLS = 1_500_000

PAGE = """<!DOCTYPE html>
<html lang="en"><meta charset="utf-8"><meta name="viewport" content="width=device-width"><title>How a heap fills and empties</title>
<style>
body{font:14px/1.5 "DejaVu Sans",Helvetica,Arial,sans-serif;margin:24px auto;max-width:800px;padding:0 12px;color:#222}
h1{font-size:19px}input{width:100%;margin:4px 0}figure{margin:14px 0}svg{max-width:100%;height:auto}p{margin:8px 0}
button{font:inherit;padding:1px 10px}
</style>
<h1>How a heap fills and empties</h1>
<p>Each row is an arena of 1 MiB and each square a pool of 16 KiB. Its colour is the size of its blocks, and it is filled as far as
they are live. Move the slider, or press play.</p>
<input id="at" type="range" min="0" max="@LAST@" value="@LAST@" aria-label="moment">
<p><button id="play">play</button> <span id="words" aria-live="polite"></span></p>
<figure id="map"></figure><figure>@LEGEND@</figure><figure>@TIME@</figure>
<script>
const moments=@MOMENTS@,colours=@COLOURS@,rows=@ROWS@,cell=@CELL@,left=@LEFT@,free="@FREE@",find=id=>document.getElementById(id);
const box=(x,y,w,h,ink,more="")=>`<rect x="${x}" y="${y}" width="${w}" height="${h}" fill="${ink}" ${more}/>`;
const many=(n,what)=>n.toLocaleString("en")+" "+what+(n===1?"":"s");
function pool(value,x,y,arena,place){
  const side=cell-1;
  if(!value)return box(x,y,side,side,free);
  const kind=value>>@BITS@,live=value&((1<<@BITS@)-1),size=@STEP@*(kind+1),room=Math.floor(@ROOM@/size),ink=colours[kind];
  const high=Math.max(1,Math.round(side*live/room));
  return `<g><title>arena ${arena}, pool ${place}: blocks of ${size} bytes, ${live} of ${room}</title>`+
    box(x+.3,y+.3,side-.6,side-.6,"white",`stroke="${ink}" stroke-width="0.6"`)+box(x,y+side-high,side,high,ink)+"</g>"}
function draw(arenas){
  let y=0,out="";
  for(const number of Object.keys(arenas).map(Number).sort((a,b)=>a-b)){
    out+=`<text x="${left-5}" y="${y+cell-2}" font-size="9" text-anchor="end" fill="#555">${number}</text>`;
    arenas[number].forEach((value,place)=>out+=pool(value,left+place*cell,y,number,place));
    y+=cell}
  return `<svg xmlns="http://www.w3.org/2000/svg" width="@WIDTH@" height="${rows*cell}" viewBox="0 0 @WIDTH@ ${rows*cell}">${out}</svg>`}
function show(){
  const [event,inPools,raw,arenas]=moments[find("at").value],cursor=find("cursor");
  find("words").textContent=`event ${event.toLocaleString("en")}: ${many(inPools,"block")} in pools, `+
    `${raw.toLocaleString("en")} in raw memory, ${many(Object.keys(arenas).length,"arena")}`;
  find("map").innerHTML=draw(arenas);
  cursor.setAttribute("transform",`translate(${cursor.dataset.left*1+event*cursor.dataset.scale},0)`)}
let timer=null;
function stop(){clearInterval(timer);timer=null;find("play").textContent="play"}
find("at").oninput=()=>{stop();show()};
find("play").onclick=()=>{
  if(timer)return stop();
  if(find("at").value===find("at").max)find("at").value=0;
  find("play").textContent="stop";
  timer=setInterval(()=>{find("at").value++;show();if(find("at").value===find("at").max)stop()},200)};
show();
</script></html>
"""


def number_pool(pool):
    return 0 if pool is None else pool[0] << LIVE_BITS | pool[1]


def as_lists(moment):
    arenas = {number: [number_pool(pool) for pool in pools] for number, pools in moment.arenas.items()}
    return [moment.event, moment.in_pools, moment.raw, arenas]


def draw_page(moments, points):
    """The page, with fewer moments where all of them would make it heavy."""
    if not moments:
        raise NothingToDraw("the report shows no heap")
    pools = sum(len(row) for moment in moments for row in moment.arenas.values())
    if pools > MOST_POOLS:
        moments = spread(moments, max(2, len(moments) * MOST_POOLS // pools))
    scale = (TIME_WIDTH - TIME_LEFT - TIME_RIGHT) / points[-1].event
    low = TIME_HEIGHT - TIME_BOTTOM
    cursor = f'<g id="cursor" data-left="{TIME_LEFT}" data-scale="{scale:.9f}"><line y1="{TIME_TOP}" y2="{low}" stroke="#c00"/></g>'
    parts = {
        "LAST": len(moments) - 1,
        "MOMENTS": json.dumps([as_lists(moment) for moment in moments], separators=(",", ":")),
        "COLOURS": json.dumps([colour_of(size_class) for size_class in range(CLASSES)]),
        "ROWS": max(1, max(len(moment.arenas) for moment in moments)),
        "CELL": CELL,
        "LEFT": LEFT,
        "FREE": FREE,
        "BITS": LIVE_BITS,
        "STEP": CLASS_BYTES,
        "ROOM": POOL_BYTES - POOL_HEAD,
        "WIDTH": MAP_WIDTH,
        "LEGEND": svg(MAP_WIDTH, 30, "Colours", legend(2)),
        "TIME": svg(TIME_WIDTH, TIME_HEIGHT, "Bytes over events", [*time_body(points), cursor]),
    }
    page = PAGE
    for name, part in parts.items():
        page = page.replace(f"@{name}@", str(part))
    return page
