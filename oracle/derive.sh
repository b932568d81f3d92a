#!/usr/bin/env bash
# Derives the control files again from the published ones and says for each whether it is the one in use.
# Usage: derive.sh [FOLDER]    the folder of the published files; else $CHALK_SRC; else ../shared/docs/src
#                              as seen from the root of the repository.
# lib, strand, table, tables, stack, context, derived: as published. slg: its first 110 lines.
# logic, forest: with the patches of this folder, which only add lines, each marked `// added`.
# The last three are changed, and their first line says so, as the licence asks (Apache 2.0, 4 (b)).
# Where the published files are not at hand and no folder was named, the files in use, without the notice and
# the marked lines, are held against the checksums of the published ones (patches/published.sha256).
set -euo pipefail
case ${1:-} in
-h | --help)
    sed -n '2,/^set /{/^set /!s/^# //p}' "$0"
    exit 0
    ;;
esac
here=$(cd "$(dirname "$0")" && pwd)
named=${1:-${CHALK_SRC:-}}
folder=${named:-$here/../../shared/docs/src}
work=$(mktemp -d)
trap 'rm -rf "$work"' EXIT
status=0
added=0
at_hand=yes
if ! [ -d "$folder" ]; then
    if [ -n "$named" ]; then
        echo "derive: no folder $folder with the published files" >&2
        exit 2
    fi
    at_hand=no
    echo "the published files are not at hand: held against their checksums"
fi

differs() {
    echo "differs $1: $2"
    status=1
}

checksum() {
    sha256sum | cut -d ' ' -f 1
}

for name in lib strand table tables stack context derived slg logic forest; do
    file=$name.rs
    used=$work/used
    note=""
    cp "$here/engine/src/$file" "$used"
    case $name in
    slg | logic | forest)
        if ! [[ $(head -n 1 "$used") == "// Changed from rust-lang/chalk, chalk-engine/src/$file: "* ]]; then
            differs "$file" "its first line doesn't say that it was changed"
            continue
        fi
        sed -i 1d "$used"
        ;;
    esac
    cp "$used" "$work/bare"
    case $name in
    slg) note=" (its first 110 lines)" ;;
    logic | forest)
        lines=$(grep -c '// added' "$used" || true)
        added=$((added + lines))
        note=" (with $lines added lines)"
        # No line changed or removed: without the marked lines the file is the published one.
        grep -v '// added' "$used" >"$work/bare"
        ;;
    esac
    recorded=$(sed -n "s/  $file\$//p" "$here/patches/published.sha256")
    if [ "$(checksum <"$work/bare")" != "$recorded" ]; then
        differs "$file" "without marked lines it is not the published file"
        continue
    fi

    if [ $at_hand = yes ]; then
        published=$folder/src--chalk-engine--src--$file.txt
        if ! [ -r "$published" ]; then
            differs "$file" "not among the published files"
            continue
        fi
        case $name in
        slg) head -n 110 "$published" >"$work/$file" ;;
        *) cat "$published" >"$work/$file" ;;
        esac
        case $name in
        logic | forest)
            patch -s "$work/$file" "$here/patches/$file.patch" ||
                differs "$file" "the patch doesn't apply"
            ;;
        esac
        if ! cmp -s "$work/$file" "$used"; then
            differs "$file" "the file in use is another"
            continue
        fi
    fi
    echo "same $file$note"
done
echo "$added added lines in all"
if [ "$added" -gt 12 ]; then
    echo "differs: more than a dozen added lines"
    status=1
fi
exit $status
