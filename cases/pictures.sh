#!/bin/sh
# Looks that the picture of the layers names each crate of crates.txt once and nothing else, that the other pictures name crates that are there, and that each
# picture in docs/ is shown or named on a page. It prints what is not so, and ends with status 1 then.
#
# Usage: cases/pictures.sh
cd "$(dirname "$0")/.." || exit 125
folder=$(mktemp -d) || exit 125
trap 'rm -rf "$folder"' EXIT
wrong=0

say() {
    echo "pictures: $*"
    wrong=1
}

# The crates that a picture names, a line each, as often as it does.
named() {
    sed -n 's/.*<text class="crate"[^>]*>\([^<]*\)<.*/\1/p' "docs/$1" | tr -s ' ' '\n' | sort
}

sed -n 's/^\([a-z][a-z0-9_]*\):.*/\1/p' crates.txt | sort >"$folder/crates"
[ "$(wc -l <"$folder/crates")" -gt 40 ] || say 'crates.txt was not read'
named layers.svg | comm -3 "$folder/crates" - | sed 's/^\t/drawn and not there: /; t; s/^/not drawn: /' >"$folder/differs"
while IFS= read -r line; do
    say "layers.svg: $line"
done <"$folder/differs"
named message.svg | sort -u | comm -13 "$folder/crates" - >"$folder/differs"
while IFS= read -r line; do
    say "message.svg: no crate: $line"
done <"$folder/differs"
for picture in docs/*.svg; do
    name=${picture##*/}
    grep -q "($name)" docs/*.md || grep -q "($picture)" README.md || say "no page has $name"
    if command -v xmllint >/dev/null; then
        xmllint --noout "$picture" || say "$name is not well-formed"
    elif command -v python3 >/dev/null; then
        python3 -c 'import sys, xml.dom.minidom; xml.dom.minidom.parse(sys.argv[1])' "$picture" || say "$name is not well-formed"
    fi
done
[ $wrong -ne 0 ] || echo 'pictures: ok'
exit $wrong
