# Where the two programs are, and of which sources: for ./osm and the scripts of this folder, which set `top`.
# shellcheck shell=sh disable=SC2154

# ---- those that are built here

built() {
    echo "$top/crates/$1/out/$1"
}

# The crates that these programs stand on and their own, each behind its level, lowest first.
crates_below() {
    awk -F: -v targets="$*" '
        function level(name, parts, count, place, most) {
            if (name in levels) return levels[name]
            count = split(below[name], parts, " ")
            for (place = 1; place <= count; place++)
                if (parts[place] in below && level(parts[place]) > most) most = level(parts[place])
            return levels[name] = most + 1
        }
        !/^#/ && NF > 1 { split($1, words, " "); below[words[1]] = $2 }
        END {
            count = split(targets, names, " ")
            for (place = 1; place <= count; place++) level(names[place])
            for (name in levels) print levels[name], name
        }
    ' "$top/crates.txt" | sort -n
}

# The folders that the proof of a program reads, as seen from the top.
parts_below() {
    for crate in $(crates_below "$1" | cut -d' ' -f2); do
        for part in src specs proofs; do
            [ ! -d "$top/crates/$crate/$part" ] || echo "crates/$crate/$part"
        done
    done
}

# Whether a program isn't built, or was before a source of it changed.
is_old() {
    [ -x "$(built "$1")" ] || return 0
    # shellcheck disable=SC2046
    [ -n "$(cd "$top" && find crates.txt HANDLES $(parts_below "$1") -newer "$(built "$1")" -print -quit)" ]
}

# Whether a program says that it was built of what was proved.
is_proved() {
    LC_ALL=C grep -aq 'rattle logic=' "$1"
}

# ---- the released ones

# A line of MADE_OF: commit, date, sources, kit.
made_of() {
    sed -n "s/^$1 //p" "$top/release/MADE_OF"
}

commit_released() {
    made_of commit | cut -c1-12
}

is_released() {
    [ -f "$top/release/MADE_OF" ]
}

# One sum over all that the gate reads, without git.
sum_of_sources() {
    (cd "$top" && find crates crates.txt HANDLES -name out -prune -o -type f -exec sha256sum {} +) | LC_ALL=C sort -k 2 | sum
}

is_of_these_sources() {
    is_released && [ "$(made_of sources)" = "$(sum_of_sources)" ]
}

sum() {
    sha256sum | cut -d' ' -f1
}

# What SHA256SUMS says of a file.
sum_said() {
    awk -v name="$1" '$2 == name { print $1 }' "$top/release/SHA256SUMS"
}

has_sum() {
    [ -f "$1" ] && [ -n "$2" ] && [ "$(sum <"$1")" = "$2" ]
}

# Unpacks a released program into a new file of a folder, and renames it once its sum was compared.
unpack() {
    packed=$top/release/$1.gz
    has_sum "$packed" "$(sum_said "$1.gz")" || fail "release/$1.gz isn't what release/SHA256SUMS says"
    { mkdir -p "$2" && fresh=$(mktemp "$2/.$1.XXXXXX"); } 2>/dev/null || fail "no file can be made in $2: XDG_CACHE_HOME names another folder"
    if ! gzip -dc "$packed" >"$fresh" || ! has_sum "$fresh" "$(sum_said "$1")"; then
        rm -f "$fresh"
        fail "release/$1.gz couldn't be unpacked to $2, or isn't what release/SHA256SUMS says"
    fi
    chmod 755 "$fresh"
    mv "$fresh" "$2/$1"
}

# The path of a released program, with its sum compared, unpacked into a folder of its sum where it isn't there yet.
unpacked() {
    [ -n "${XDG_CACHE_HOME:-${HOME-}}" ] || fail "neither XDG_CACHE_HOME nor HOME says where release/$1.gz can be unpacked"
    cache=${XDG_CACHE_HOME:-${HOME-}/.cache}/hegunsap/$(sum_said "$1")
    has_sum "$cache/$1" "$(sum_said "$1")" || unpack "$1" "$cache"
    echo "$cache/$1"
}

# Ends with why, and with status 1, or `unable` where 1 means something else.
fail() {
    echo "${0##*/}: $*" >&2
    exit "${unable:-1}"
}
