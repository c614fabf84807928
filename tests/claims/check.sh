#!/usr/bin/env bash
# Every name that docs/CLAIMS.md, docs/ARCHITECTURE.md and docs/GLOSSARY.md give behind a file (`crate/specs/File` `name`, `other`: `field`) is defined in that
# file, every edit behind `crate/must-fail` is there, and every path of tests/ exists. The picture and the tables in docs/ARCHITECTURE.md
# have each crate of crates.txt once. Prints what is missing, then how many were looked up; fails if one is missing or if there were fewer than asked for.
set -u
cd "$(dirname "$0")/../.." || exit 1
missing=0

lost() { missing=$((missing + 1)); printf 'claims: %s\n' "$1"; }

# One line for each name: its file and the name; "-" for a file or path by itself. A row of a table begins anew, prose goes on.
names() { # DOCUMENT
    awk '/^\|/ || /^$/ { file = "" }
    {
        line = $0
        while (match(line, /`[^`]+`/)) {
            token = substr(line, RSTART + 1, RLENGTH - 2)
            between = substr(line, 1, RSTART - 1)
            line = substr(line, RSTART + RLENGTH)
            if (token ~ /^crate\//) file = ""
            else if (token ~ /^[a-z_]+\/(specs|src|proofs|must-fail)(\/[A-Za-z_\/]+)?$/) { file = token; print file, "-" }
            else if (token ~ /^tests\//) { file = ""; print token, "-" }
            else if (file != "" && between ~ /^ *(:? ?|, ?| and | to )$/) print file, token
            else file = ""
        }
    }' "$1"
}

# Whether a file defines a name: a definition, a field or a theorem of a specification or a proof; a function or a type of the code.
defines() { # FILE NAME
    case $1 in
    *.antt) grep -qE "^ *((unfoldable|abbrev|pub|record|data) )*$2( *[:({]| *\$)" "$1" ;;
    *) grep -qE "^ *(pub(\(crate\))? )?(extern \"C\" )?(fn|struct|enum|trait|const) $2[^A-Za-z0-9_]" "$1" ;;
    esac
}

check() { # DOCUMENT LEAST
    local file name path looked=0
    while read -r file name; do
        looked=$((looked + 1))
        case $file in
        tests/*) [ -e "$file" ] || lost "$1: no $file" ;;
        */must-fail) [ "$name" = - ] || [ -f "crates/$file/$name.edit" ] || lost "$1: no edit $name in $file" ;;
        *)
            path=crates/$file.antt
            [ -f "$path" ] || path=crates/$file.rt
            if [ ! -f "$path" ]; then
                lost "$1: no file $file"
            elif [ "$name" != - ] && ! defines "$path" "$name"; then
                lost "$1: no $name in $file"
            fi
            ;;
        esac
    done < <(names "$1")
    printf 'claims: %s names and files of %s looked up\n' "$looked" "$1"
    [ "$looked" -ge "$2" ] || lost "$1: fewer than $2"
}

# The crates of a list that crates.txt doesn't have (<), and the other way round (>).
same_crates() { # WHERE LIST
    local there differ
    there=$(sed -e 's/#.*//' -e '/^[[:space:]]*$/d' -e 's/[ :].*//' crates.txt | sort)
    differ=$(diff <(sort <<<"$2") <(echo "$there") | grep '^[<>]' | tr '\n' ' ')
    [ -z "$differ" ] || lost "$1 and crates.txt differ: $differ"
}

# In docs/ARCHITECTURE.md each crate stands once in the picture and has one row in the tables.
crates() {
    local other='boundary|code|theory|definitions|include|rust'
    same_crates 'the picture' "$(sed -n '/^## Layers/,/^What stands/p' docs/ARCHITECTURE.md | grep '^    ' | grep -oE '[a-z_]+' | grep -vxE "$other")"
    same_crates 'the tables' "$(sed -n 's/^| `\([a-z_]*\)` |.*/\1/p' docs/ARCHITECTURE.md)"
}

check docs/CLAIMS.md 1000
check docs/ARCHITECTURE.md 300
check docs/GLOSSARY.md 100
crates
printf 'claims: %s missing\n' "$missing"
[ "$missing" -eq 0 ]
