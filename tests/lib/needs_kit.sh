# Read by the scripts that build with the Rattle kit: ends them in a sentence where it is not there.
if ! command -v rt >/dev/null; then
    echo "${0##*/}: this builds with the Rattle kit, and its command rt is not in PATH; a release archive needs no kit (README.md, Install)" >&2
    exit 1
fi
