#!/usr/bin/env bash
# Plays docs/watch/index.html in a real browser: each example from end to end, forward and back, and
# what is drawn after each step is compared with a plain replay of the steps (tests/steps/replay.py).
# Tries keys, files, addresses and words; in a frame of 390 x 844, that a phone has both trees in
# sight of its buttons; and in one of 1280 x 900, that the page opens with all in sight. The examples in the page are those of examples/traces. With --pictures it also
# makes the pictures of docs/watch/ again. Without Debian's chromium it is skipped, with a line that
# says so (lib/tools.sh).
set -eu
top=$(cd "$(dirname "$0")/.." && pwd)
work=$(mktemp -d)
trap 'rm -rf "$work"' EXIT
. "$top/tests/lib/tools.sh"

python3 "$top/docs/watch/examples.py" --check

has 'command -v chromium || command -v chromium-browser' chromium fonts-dejavu-core || exit 0
browser=$(command -v chromium || command -v chromium-browser)

# browse ARG..: the browser without a window, with a profile of its own
browse() {
    timeout 300 "$browser" --headless=new --no-sandbox --disable-gpu --disable-dev-shm-usage --hide-scrollbars \
        --user-data-dir="$work/profile" --force-device-scale-factor=1 --window-size=1400,1060 "$@" 2>"$work/browser"
}

sed '/^<\/body>$/d; /^<\/html>$/d' "$top/docs/watch/index.html" >"$work/page.html"
{ echo "<script>"; cat "$top/tests/watch/drive.js"; echo "</script></body></html>"; } >>"$work/page.html"
browse --virtual-time-budget=600000 --dump-dom "file://$work/page.html" >"$work/dom" || { cat "$work/browser"; exit 1; }
python3 "$top/tests/watch/compare.py" "$work/dom" "$top/examples/traces"

# framed NAME WIDTH HEIGHT: looks at the page in a frame of this size, as tests/watch/NAME.js does
framed() {
    sed '/^<\/body>$/d; /^<\/html>$/d' "$top/docs/watch/index.html" >"$work/framed.html"
    { echo "<script>"; cat "$top/tests/watch/$1.js"; echo "</script></body></html>"; } >>"$work/framed.html"
    cat >"$work/frame.html" <<END
<!DOCTYPE html>
<iframe src="framed.html" width="$2" height="$3" style="border: 0"></iframe>
<script>addEventListener("message", (it) => { document.body.innerHTML = \`<pre>seen \${it.data.length} \${it.data.join("\n")}</pre>\`; });</script>
END
    browse --virtual-time-budget=60000 --dump-dom "file://$work/frame.html" >"$work/dom" || { cat "$work/browser"; exit 1; }
    grep -q '<pre>seen 0 ' "$work/dom" || { echo "watch: at $2 x $3:"; sed -n '/<pre>/,/<\/pre>/p' "$work/dom" | head -20; exit 1; }
}
# (no window is so narrow as a phone)
framed phone 390 844
framed opening 1280 900

# picture NAME EXAMPLE EVENT THEME: that moment, as a file beside the page
picture() {
    browse --virtual-time-budget=5000 --screenshot="$work/$1.png" "file://$top/docs/watch/index.html#example=$2&event=$3&theme=$4"
    cp "$work/$1.png" "$top/docs/watch/$1.png"
}

if [ "${1:-}" = --pictures ]; then
    picture changing every_stop 192 light
    picture torn torn_item 37 light
    picture returned torn_item 44 dark
fi
