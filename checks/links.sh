#!/usr/bin/env bash
# Every relative link of the documents leads to a file of the repository, and to a heading of it
# where it names one.
set -u
cd "$(dirname "${BASH_SOURCE[0]}")/.." || exit 1
. checks/words.bash

count=0
# headings PAGE: each as a link names it.
headings() {
    sed -n 's/^#\+ //p' "$1" | tr '[:upper:]' '[:lower:]' | sed 's/[^a-z0-9 _-]//g; s/ /-/g'
}

for page in *.md docs/*.md docs/*/*.md checks/*/*.md bench/*.md; do
    [ -f "$page" ] || continue
    while IFS= read -r target; do
        case "$target" in
            http://* | https://*) continue ;;
        esac
        count=$((count + 1))
        file=$(dirname "$page")/${target%%#*}
        [ "${target#'#'}" = "$target" ] || file=$page
        [ -e "$file" ] || fail "$page links to $target, which is not there"
        case "$target" in
            *'#'*)
                headings "$file" | grep -qxF -- "${target#*'#'}" \
                    || fail "$page links to $target, and there is no such heading"
                ;;
        esac
    done < <(grep -oE '\]\([^) ]+\)' "$page" | sed -E 's/^\]\(//; s/\)$//')
done
counted 50 "$count" links
verdict
