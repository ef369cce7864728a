#!/usr/bin/env bash
# The worked examples of docs/DIGESTS.md: their commands print what stands there, and the program prints their digests.
# Ends with 77 where a tool of the examples is missing.
set -u

root=$(dirname -- "$(dirname -- "$(readlink -f -- "${BASH_SOURCE[0]}")")")
page=$root/docs/DIGESTS.md
program=${IGVM:-$root/crates/igvm_tool/out/igvm_tool}
[[ $program == /* ]] || program=$PWD/$program
for tool in xxd sha256sum sha384sum awk seq; do
    if ! command -v "$tool" >/dev/null 2>&1; then
        echo "digests page: skipped, $tool is missing"
        exit 77
    fi
done

folder=$(mktemp -d) || exit 1
trap 'rm -rf -- "$folder"' EXIT
mkdir -- "$folder/page" && cd -- "$folder" || exit 1

# The page in parts. Part N has the commands of the block number N that is marked `sh`; what a block without a mark
# behind them says that they print or, where they print nothing, what they write; and the words of `igvm measure ..` and
# `igvm sev-measure ..` in each sentence behind that which says what it prints. Blocks with another mark, as `text`, take no part.
awk '
    /^```/ { mark = inside ? "" : $0; inside = !inside; if (inside && mark == "```sh") part++; next }
    inside && mark == "```sh" { print > ("page/" part ".commands") }
    inside && mark == "```" && part { print > ("page/" part ".wanted") }
    inside { next }
    {
        for (text = $0; match(text, /`igvm (sev-)?measure [^`]*`[^`.]* prints/); text = substr(text, RSTART + RLENGTH)) {
            split(substr(text, RSTART, RLENGTH), quoted, "`")
            print substr(quoted[2], 6) > ("page/" part ".measured")
        }
    }
' "$page"

fault() { echo "digests page: $1"; exit 1; }

# The file that commands write last.
last_written() { grep -oE '> *[[:alnum:]_.-]+' "$1" | tail -n 1 | tr -d '> '; }

for part in $(seq "$(ls page/*.commands | wc -l)"); do
    # Each part sees what those before it have set and written.
    printf 'exec >page/%s.printed\n' "$part" && cat "page/$part.commands"
done >commands
bash -eu commands </dev/null || fault "a command fails"

examples=0
for wanted in page/*.wanted; do
    found=${wanted%wanted}printed
    [ -s "$found" ] || found=$(last_written "${wanted%wanted}commands")
    diff "$wanted" "$found" || fault "the commands print something else than the page"
done
for measured in page/*.measured; do
    # The digest is the last line of what stands before the sentence.
    tail -n 1 "${measured%measured}wanted" | grep -qxE '[0-9a-f]{64}|[0-9a-f]{96}' ||
        fault "no digest stands before: $(cat "$measured")"
    examples=$((examples + $(wc -l <"$measured")))
done
[ "$examples" -ge 2 ] || fault "fewer than two examples are measured"
if [ ! -x "$program" ]; then
    echo "digests page: the commands agree; not compared with the program, which isn't built"
    exit 0
fi
for measured in page/*.measured; do
    while read -ra words; do
        "$program" "${words[@]}" </dev/null | diff <(tail -n 1 "${measured%measured}wanted") - ||
            fault "the program prints another digest: ${words[*]}"
    done <"$measured"
done
echo "digests page: the commands and the program agree on $examples examples"
