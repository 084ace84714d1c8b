# shellcheck shell=sh
# What the scripts `xcols` and `run-tests` share. Both prove crates in a copy, as the gate does but for the edits that must
# fail. Where `rt` can write beside its kit, it keeps what passed there, and later runs in any checkout take it over.
# The script that reads this file has set $top, the folder with crates.txt.

needs_toolchain() {
    command -v rt >/dev/null && return
    echo "$1: the toolchain's command rt is not on the path" >&2
    echo "$1: install the Rattle toolchain, and add its folder bin to PATH" >&2
    exit 1
}

# The time since a moment in seconds.
since() {
    seconds=$(($(date +%s) - $1))
    printf '%d:%02d' $((seconds / 60)) $((seconds % 60))
}

every_crate() {
    sed -n 's/^\([a-z_0-9]*\).*:.*/\1/p' "${top:?}/crates.txt"
}

# A crate and all that it stands on.
crates_of() {
    awk -F: -v top="$1" '
        /^[a-z_0-9]+:/ { deps[$1] = $2 }
        function walk(crate, names, n, i) {
            seen[crate] = 1
            n = split(deps[crate], names, " ")
            for (i = 1; i <= n; i++) if (names[i] in deps && !(names[i] in seen)) walk(names[i])
            print crate
        }
        END { walk(top) }' "$top/crates.txt"
}

# Makes an empty folder a repository with the crates that are named.
copy_crates() {
    room=$1
    shift
    mkdir "$room/.git" "$room/crates"
    cp "$top/HANDLES" "$room"
    for crate; do
        grep "^$crate:" "$top/crates.txt" >>"$room/crates.txt"
        mkdir "$room/crates/$crate"
        for part in "$top/crates/$crate"/*; do
            case ${part##*/} in
                out | must-fail) ;;
                *) cp -R "$part" "$room/crates/$crate" ;;
            esac
        done
    done
}

# Proves the crates of such a repository, as many at a time as there are processors, and runs its programs and tests. Says on
# standard error how far it is, and writes into a file what `rt` says.
prove_crates() {
    script=$1 room=$2 log=$3
    many=$(grep -c : "$room/crates.txt")
    count=0
    started=$(date +%s)
    echo "$script: proving $many crates, with every processor" >&2
    (cd "$room" && PYTHONUNBUFFERED=1 rt ci) 2>&1 </dev/null | tee "$log" | while IFS= read -r line; do
        case $line in
            'rt: '*': its tests are '*) continue ;;
            'rt: '*' proved' | 'rt: '*' NOT PROVED'* | 'rt: '*' is kept: '*) ;;
            *) continue ;;
        esac
        count=$((count + 1))
        crate=${line#rt: }
        echo "$script: crate $count of $many, ${crate%%:*} ($(since "$started") so far)" >&2
    done
}
