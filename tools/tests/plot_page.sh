#!/bin/sh
# The page that tsp-plot writes: one file that needs no other, in which the picture is zoomed and moved, shows lines of the
# trace where the pointer rests, and is searched.
. "$(dirname "$0")/common.sh"

schedule=examples/gateway.tsp trace=examples/gateway.trace
tools/tsp-plot "$schedule" "$trace" --title '</title><b>&@SVG@' -o "$out/page.html" || fail 'no page is written'
! grep -n -e 'src=' -e 'href=' -e '@import' -e 'url(' "$out/page.html" || fail 'the page needs another file'
grep -qF '<title>&lt;/title&gt;&lt;b&gt;&amp;@SVG@</title>' "$out/page.html" || fail 'a title is taken for a part of the page'
! has xmllint || sed -n '/^<svg/,/<\/svg>$/p' "$out/page.html" | xmllint --noout - || fail 'the picture of the page is not XML'

browser=
for each in chromium chromium-browser google-chrome; do
    [ -n "$browser" ] || ! has "$each" || browser=$each
done
[ -n "$browser" ] || { skip 'there is no chromium' 'what the page does'; exit; }

# What is done with the page, and what it then shows. (it is written into an element of its own, and read from there)
cat >"$out/script" <<'END'
<script>
const said = [], say = (name, value) => said.push(`${name}: ${value}`), box = () => svg.getAttribute("viewBox").split(" ").map(Number);
const on_screen = (x, y) => { const at = new DOMPoint(x, y).matrixTransform(svg.getScreenCTM()); return { clientX: at.x, clientY: at.y }; };
const send = (type, at, more) => stage.dispatchEvent(new (type === "wheel" ? WheelEvent : PointerEvent)(type, { bubbles: true, cancelable: true, ...at, ...more }));
const lines_of = (name, word) => ITEMS.find(item => item[4] === name && item[5].some(line => line.includes(word)));
addEventListener("error", event => event.preventDefault());
// an act, and a datagram in its middle
const step = lines_of("b", " correct 659 "), sent = ITEMS.find(item => item[0] !== item[2] && item[5][0].includes("post 2 "));
send("pointermove", on_screen(step[0], step[1]));
say("act", tip.textContent.replaceAll("\n", " | "));
send("pointermove", on_screen((sent[0] + sent[2]) / 2, (sent[1] + sent[3]) / 2));
say("datagram", tip.textContent.replaceAll("\n", " | "));
send("pointermove", on_screen(30, 30));
say("nothing", tip.style.display);
// the wheel: the place at the pointer stays where it is
const at = { clientX: 700, clientY: 400 }, old = box(), pointed = place(at);
send("wheel", at, { deltaY: -600 });
say("zoomed", box()[2] < old[2] / 2);
say("stays", Math.abs(place(at).x - pointed.x) < 0.5 && Math.abs(place(at).y - pointed.y) < 0.5);
// a drag by 100 to the right
const before = place(at);
send("pointerdown", at, { button: 0 });
send("pointermove", { clientX: at.clientX + 100, clientY: at.clientY });
send("pointerup", at);
say("dragged", Math.abs(place({ clientX: at.clientX + 100, clientY: at.clientY }).x - before.x) < 0.5);
byId("whole").click();
say("whole", box().join() === old.join());
// a search, and a line of it
const typed = byId("search");
typed.value = "b correct";
typed.dispatchEvent(new Event("input"));
say("found", byId("count").textContent);
say("first", found.firstChild.textContent);
found.lastChild.click();
say("middle", Math.abs(box()[0] + box()[2] / 2 - step[0]) < 0.5);
say("marks", svg.querySelectorAll(".mark").length);
const result = document.createElement("pre");
result.textContent = said.join("\n");
document.body.replaceChildren(result);
</script>
END
sed -e "/^<\/body>/{
r $out/script
N
}" "$out/page.html" >"$out/tried.html"
timeout 60 "$browser" --headless --no-sandbox --disable-gpu --user-data-dir="$out/browser" --window-size=1400,900 --dump-dom "file://$out/tried.html" \
    >"$out/dom" 2>"$out/told" || { skip "$browser doesn't run" 'what the page does'; exit; }
sed -n '/<pre>/,/<\/pre>/p' "$out/dom" | sed 's/.*<pre>//; s/<\/pre>.*//' >"$out/said"
{
    echo "act: $(awk '$5 == "correct" && $6 == 659 { event = $1 } { lines[$1] = lines[$1] (lines[$1] == "" ? "" : " | ") $0 } END { print lines[event] }' "$trace")"
    echo "datagram: $(grep ' post 2 ' "$trace") | $(awk 'FNR == NR { if ($1 == "at") n++; if ($3 == "take" && $4 == 2) taken = n; next } $1 == taken && $5 == "took"' "$schedule" "$trace")"
    printf '%s\n' 'nothing: none' 'zoomed: true' 'stays: true' 'dragged: true' 'whole: true'
    echo "found: $(grep -c '^[0-9]* 2 0 [0-9]* correct' "$trace") found"
    echo "first: b: $(grep '^[0-9]* 2 0 [0-9]* correct' "$trace" | head -n 1)"
    printf '%s\n' 'middle: true' 'marks: 1'
} >"$out/wanted"
diff "$out/wanted" "$out/said" || fail 'the page does something else'
echo "$check: hovering, zoom, drag and search in $browser"
