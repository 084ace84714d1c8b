# shellcheck shell=sh
# Which program the scripts run: the one that was proved and built here, where it is of these sources, or else the release in
# dist/, where that is. What reads this file has set $top, the folder with crates.txt, and has read proving.sh.

out=${top:?}/crates/xcols/out
# The program that was proved and built here, and the sum of the sources that it was built of.
program=$out/xcols
built=$out/xcols.built
# The release, and where it is unpacked: its lines, its program, and the sum of its sources.
release=$top/dist/RELEASE
packed=$top/dist/xcols-x86_64-linux.gz
unpacked=$out/release

refuse() {
    echo "xcols: $1" >&2
    exit 1
}

# The files and folders whose change makes the program another one, from $top on.
source_parts() {
    echo crates.txt
    for crate in $(crates_of xcols); do
        for part in src specs proofs; do
            [ ! -d "$top/crates/$crate/$part" ] || echo "crates/$crate/$part"
        done
    done
}

sum_of() { sha256sum "$1" | cut -d ' ' -f 1; }

# The SHA-256 of the list of the sources, each line a file's sum and its path, in the order of paths.
sources_sum() {
    # shellcheck disable=SC2046
    (cd "$top" && find $(source_parts) -type f | LC_ALL=C sort | xargs sha256sum | sha256sum | cut -d ' ' -f 1)
}

# Whether the sources are those whose sum a file holds. They are summed only where one is newer than the file.
are_sources_of() {
    [ -e "$1" ] || return 1
    # shellcheck disable=SC2046
    [ -n "$(cd "$top" && find $(source_parts) -newer "$1" -print -quit)" ] || return 0
    now=$(mktemp)
    if [ "$(sources_sum)" = "$(cat "$1")" ]; then
        touch -r "$now" "$1"
        rm "$now"
    else
        rm "$now"
        return 1
    fi
}

is_built() { [ -x "$program" ] && are_sources_of "$built"; }

# What a line of the release says, by its first word.
released() { sed -n "s/^$1 //p" "$release"; }

is_unpacked() { [ -x "$unpacked/xcols" ] && cmp -s "$release" "$unpacked/RELEASE"; }

# Unpacks the release beside the build, and compares its sum. Ends with one line where it is damaged or doesn't run here.
unpack_release() {
    machine="$(uname -s) $(uname -m)"
    [ "$machine" = "Linux x86_64" ] ||
        refuse "the release in dist/ is for Linux on x86_64, and this is $machine; where the Rattle toolchain runs, ./xcols --prove builds the program"
    mkdir -p "$unpacked" 2>/dev/null || refuse "the release in dist/ can't be unpacked, since $unpacked can't be written"
    part=$unpacked/xcols.$$
    if ! gzip -dc "$packed" >"$part" 2>/dev/null || [ "$(sum_of "$part")" != "$(released program)" ]; then
        rm -f "$part"
        refuse "the release in dist/ is damaged: its program isn't the one that dist/RELEASE names; 'git checkout dist' brings it back, and ./xcols --prove builds the program anew"
    fi
    chmod 755 "$part"
    if ! "$part" --version >/dev/null 2>&1; then
        rm -f "$part"
        refuse "the release in dist/ doesn't run here: it needs a processor of x86-64-v2 and the C library glibc 2.34 or later (here: $(getconf GNU_LIBC_VERSION 2>/dev/null || echo another library)); where the Rattle toolchain runs, ./xcols --prove builds the program"
    fi
    # What another run unpacked is the same.
    mv "$part" "$unpacked/xcols"
    released sources >"$unpacked/sources"
    touch -d '1970-01-01 UTC' "$unpacked/sources"
    cp "$release" "$unpacked/RELEASE.$$"
    mv "$unpacked/RELEASE.$$" "$unpacked/RELEASE"
}

# Whether the release is of these sources.
is_released() {
    [ -e "$release" ] && [ -e "$packed" ] || return 1
    if is_unpacked; then
        are_sources_of "$unpacked/sources"
    else
        [ "$(sources_sum)" = "$(released sources)" ]
    fi
}

# Names the program that is run in $chosen, or nothing where it has to be built, and says which it is at its first use.
choose_program() {
    if is_built; then
        chosen=$program
        first_use "the program that was proved and built here"
    elif is_released; then
        is_unpacked || unpack_release
        chosen=$unpacked/xcols
        first_use "the release $(released version), which ./xcols --prove compares with a proof of your own"
    else
        chosen=
    fi
}

first_use() {
    [ "$(cat "$out/xcols.used" 2>/dev/null)" = "$chosen" ] && return
    echo "xcols: this is $1" >&2
    { echo "$chosen" >"$out/xcols.used"; } 2>/dev/null || true
}
