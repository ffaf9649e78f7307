# What the parts of test_all share: each reads this first, and goes on at the top of the repository.
set -euo pipefail
unset CDPATH
cd "$(dirname "$(readlink -f "${BASH_SOURCE[0]}")")/.."

# What a part writes for itself goes here, and away at its end.
room=$(mktemp -d)
trap 'rm -rf "$room"' EXIT

fail() {
    printf '%s\n' "$@" >&2
    exit 1
}

# Says what cannot be tested here, and what that wants: packages of Debian, or something else in several words. What test_all exports as
# SKIPPED is a file of such lines, which it counts.
skip() {
    local wants line
    printf -v wants ', %s' "${@:2}"
    line="skipped: $1 (wants ${wants#, })"
    echo "$line"
    [ -z "${SKIPPED-}" ] || echo "$line" >>"$SKIPPED" || fail 'what is skipped cannot be counted'
}

# Whether a tool is there, or a file of a whole path. What it would have shown is skipped otherwise, and wants the package that is named last,
# or else one of the tool's name.
has() {
    command -v "$1" >/dev/null || [[ "$1" == /* && -e "$1" ]] || {
        skip "$2" "${3:-$1}"
        return 1
    }
}

# A command has to end with this status, and to print exactly this text.
answers() {
    local wanted="$2status $1" answered
    shift 2
    answered=$(status=0; "$@" || status=$?; echo "status $status")
    [ "$answered" = "$wanted" ] || fail "wanted of $*:" "$wanted" 'and the answer is:' "$answered"
}

# A command has to say exactly this text on standard error, whatever else it does.
says() {
    local wanted=$1 said
    shift
    said=$("$@" 2>&1 >/dev/null || true; echo .)
    [ "$said" = "$wanted." ] || fail "wanted on standard error of $*:" "$wanted" 'and it is:' "${said%.}"
}

# What a program prints has to be this.
prints() {
    local wanted=$1 said
    shift
    said=$("$@")
    [ "$said" = "$wanted" ] || fail "wanted of $*:" "$wanted" 'and it is:' "$said"
    echo "$*: it prints what its document says"
}

# What the blocks of this language in a document hold.
blocks() {
    awk -v begin="\`\`\`$1" '$0 == begin { on = 1; next } /^```$/ { on = 0 } on'
}

# Waits until what parts run stands, where test_all builds it meanwhile: the file that BUILT names says so.
await_built() {
    until [ -z "${BUILT-}" ] || [ -e "$BUILT" ]; do sleep 1; done
}

# A page in a folder has to name what stands beside it alone by links, and each such file has to be there.
links_stay_inside() {
    local page link
    for page in "$1"/*.md; do
        for link in $(grep -oE '\]\([^()]*\)' "$page" | sed 's/^](//; s/)$//; s/#.*//'); do
            [ -f "$1/$link" ] || fail "$page links to $link, which is not there"
        done
    done
}

# Builds the program where its script would, so that a build neither fails unseen nor speaks among the answers that are compared.
build_program() {
    ./gix_date_tool check </dev/null
}

# Builds the program of rows, where it is missing or not of these sources.
build_rows() {
    (
        root=$PWD speaker=gix_date_rows
        . scripts/built.sh
        name_rows
        is_current && exit
        . scripts/progress.sh
        say "proving and building the program of rows; at most $how_long"
        build build_crate gix_date_rows run
    )
}

# Each file has the layout of `rt fmt`, which changes a copy here.
layout() {
    local crate
    mkdir -p "$room/laid"
    tar --exclude='crates/*/out' -c crates crates.txt | tar -x -C "$room/laid"
    for crate in crates/*; do
        (cd "$room/laid/$crate" && rt fmt >/dev/null) || return
        diff -r --exclude=out "$crate" "$room/laid/$crate" || return
    done
    echo 'crates: each file has the layout of rt fmt'
}

# The program's modes, as its help names them.
modes() {
    ./gix_date_tool --help | sed -nE 's/^([a-z]+) {3,}.*/\1/p'
}

# The first block of a file of a zone, and the second of another.
spliced() {
    head -c "$(grep -abo TZif "$1" | sed -n '2s/:.*//p')" "$1"
    tail -c +"$(($(grep -abo TZif "$2" | sed -n '2s/:.*//p') + 1))" "$2"
}

# Makes in a new folder what a program may read as a zone, and what it may not. The pipe may not be opened.
make_zone_files() {
    local tokyo=/usr/share/zoneinfo/Asia/Tokyo leaps=/usr/share/zoneinfo/right/Asia/Tokyo
    mkdir -p "$1/Europe" "$1/folder" "$1/GMT"
    spliced "$leaps" "$tokyo" >"$1/leaps-first"
    spliced "$tokyo" "$leaps" >"$1/leaps-second"
    cp /usr/share/zoneinfo/Asia/Kathmandu "$1/Europe/Berlin"
    cp /usr/share/zoneinfo/Asia/Kathmandu "$1/sp ace"
    cp /usr/share/zoneinfo/Asia/Kathmandu "$1/b"$'\xff'd
    cp /usr/share/zoneinfo/right/UTC "$1/leaps"
    ln -s leaps "$1/to-leaps"
    ln -s 'sp ace' "$1/to-file"
    ln -s loop "$1/loop"
    mkfifo "$1/pipe"
    ln -s pipe "$1/to-pipe"
    ln -s /dev/zero "$1/to-device"
    ln -s /proc/kmsg "$1/to-kernel"
    touch "$1/empty"
    echo banana >"$1/text"
    head -c 100 /usr/share/zoneinfo/Asia/Tokyo >"$1/short"
    cp /usr/share/zoneinfo/Asia/Tokyo "$1/full"
    cp /usr/share/zoneinfo/Asia/Tokyo "$1/above"
    truncate -s 1048576 "$1/full"
    truncate -s 1048577 "$1/above"
    cp "$1/above" "$1/huge"
    truncate -s 1G "$1/huge"
}

# The values of TZ and TZDIR of a row, as words of `env`.
zone_words() {
    local name value long
    printf -v long %04100d 0
    words=(-u TZ -u TZDIR)
    for name in TZ TZDIR; do
        printf -v value %b "${1//FOLDER/"$zone_files"}"
        value=${value//LONG/"$long"} value=${value//WIDE/"${long::300}"}
        [ "$value" = unset ] || words+=("$name=$value")
        shift
    done
}

# A command that shows 1688169600 in the machine's zone has to find that of its file, which another hides here, where TZ is not set.
finds_machine_zone() {
    local hidden=(unshare -rm sh -c 'mount --bind /usr/share/zoneinfo/Asia/Tokyo /etc/localtime && exec env -u TZ "$@"' sh)
    if "${hidden[@]}" true 2>/dev/null; then
        answers 0 $'2023-07-01 09:00:00 +0900\n' "${hidden[@]}" "$@"
    else
        skip 'the zone of the machine' 'a kernel that lets users unshare'
    fi
}

# A command that shows 1688169600 in the machine's zone has to find each zone of tests/rows/zones.rows, or of `zone_rows`, or to refuse it.
finds_zones() {
    local tz tzdir wanted found words zone_files=$room/zone_files count=0
    [ -e "$zone_files" ] || make_zone_files "$zone_files"
    while IFS= read -r line; do
        case $line in '' | '#'*) continue ;; esac
        IFS=$'\x1f' read -r tz tzdir wanted <<<"${line//$'\t'/$'\x1f'}"
        zone_words "$tz" "$tzdir"
        found=$(timeout 20 env "${words[@]}" "$@" 2>/dev/null </dev/null) || { [ $? != 124 ] && found=refused || found='nothing in 20 seconds'; }
        [ "$found" = "$wanted" ] || fail "at $(printf '%q ' "${words[@]}") $* finds $found, where it should be $wanted"
        count=$((count + 1))
    done <"${zone_rows:-tests/rows/zones.rows}"
    finds_machine_zone "$@"
    echo "$*: it finds the zones of $count values of TZ and TZDIR, or refuses them"
}

# A command has to open no pipe of this path: who waits there for a reader goes on waiting.
opens_no_pipe() {
    local pipe=$1 writer
    shift
    timeout 60 sh -c ': >"$1.waits"; : >"$1"; : >"$1.opened"' sh "$pipe" >/dev/null 2>&1 &
    writer=$!
    until [ -e "$pipe.waits" ]; do sleep 0.01; done
    "$@"
    [ ! -e "$pipe.opened" ] && kill "$writer" || fail "$pipe is opened by $*"
    wait "$writer" 2>/dev/null || true
    rm "$pipe.waits"
}
