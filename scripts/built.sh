# Tells by checksums whether what a script has built is what its sources and this toolchain build, for a script that sources this: `root` is
# the folder of all, and `speaker` the script's name. `made` names the files that it builds, and `used` what it reads beside the crates,
# both below `root`. The file `built` keeps what `rt --version` said, and the checksums.
# shellcheck shell=sh disable=SC2034,SC2154

newline='
'

# A line on standard error; nothing fails where that is closed. Of a word or path in it no control character reaches a terminal.
say() {
    case $1 in
        *[![:print:]]*) printf '%s: %s' "$speaker" "$1" | LC_ALL=C sed -z 's/[[:cntrl:]]/?/g; s/\xc2[\x80-\x9f]/?/g; s/$/\n/' ;;
        *) printf '%s: %s\n' "$speaker" "$1" ;;
    esac >&2 || :
}

# Whether a path stands for itself in flags of compilers and in lists of paths, in any locale.
is_plain() (
    LC_ALL=C
    case $1 in *[!A-Za-z0-9_./+,@=~-]*) return 1 ;; esac
)

# Ends with the status of a fault, and says why.
stop() {
    say "$1"
    exit 1
}

# Ends where one of these commands is missing: what calls it could be wrong, or fail only minutes later.
needs() {
    for name in "$@"; do
        command -v "$name" >/dev/null || stop "the command $name is not on the path"
    done
}

# Removes what killed builds have left beside a file: names of it that end in a process which is no more.
clear_killed() {
    for left in "$1".[0-9]*; do
        [ ! -e "$left" ] || [ -e "/proc/${left##*.}" ] || rm -rf "$left"
    done
}

# All that a build may read, and files named besides, by the further words of find. What a crate has built is in its folder `out`.
find_sources() (
    files=$1
    shift
    cd "$root/" || exit 1
    # shellcheck disable=SC2086
    LC_ALL=C find -L crates.txt crates $used $files -type d -regex 'crates/[^/]*/out' -prune -o "$@"
)

# Their checksums, in lines of a checksum and a name.
checksums() {
    listed=$(find_sources "$1" -type f -exec sha256sum {} +) || return 1
    printf '%s\n' "$listed" | LC_ALL=C sort
}

# What has changed since a time in seconds, as the system keeps it, which a copy of an old file cannot set. Folders of builds are left out.
changed_since() {
    find_sources '' ! -regex 'crates\(/[^/]*\)?' -newerct "@$1" -print
}

# Asks `rt` for its version, as `toolchain`. Ends where it is another program of that name, as Debian has one: nothing is forgotten before.
ask_toolchain() {
    needs rt
    # Another folder is current where it builds.
    case $(command -v rt) in
        /*) ;;
        *) stop "the path leads to rt by a folder that does not begin with /: $(command -v rt)" ;;
    esac
    toolchain=$(rt --version 2>/dev/null </dev/null) && case $toolchain in
        *"$newline"*) ;;
        rattle-kit-*' logic '*) return 0 ;;
    esac
    said=$(rt --version 2>&1 </dev/null | LC_ALL=C sed -E 's/[[:cntrl:]]//g; s/^(.{80}).*/\1/; q')
    stop "$(command -v rt) is not the toolchain's rt: it says '$said'"
}

# Whether `rt --version` says this. A kit has that in a file, which is read first: Python takes a third of a second to start. Without `rt`
# nothing else can be built.
is_toolchain() {
    rt=$(command -v rt) || return 0
    kit=$(readlink -f "$rt") || exit 1
    kit=${kit%/bin/rt}/KIT-ID
    [ ! -f "$kit" ] || [ "$(cat "$kit")" != "$1" ] || return 0
    ask_toolchain
    [ "$toolchain" = "$1" ]
}

# A program, as its crate builds it.
name_program() {
    made=crates/$1/out/$1 used=''
    program=$root/$made built=$root/${made%/*}/built_of
}

# The program that runs rows of outside values.
name_rows() {
    made=crates/gix_date_rows/out/gix_date_rows used=''
    built=$root/${made%/*}/built_of
}

# Whether all that was built is there, and is of these sources.
is_current() {
    needs cat find readlink sha256sum sort
    [ -f "$built" ] || return 1
    for name in $made; do
        [ -f "$root/$name" ] || return 1
    done
    was=$(cat "$built") && now=$(checksums "$made") || exit 1
    toolchain=${was%%"$newline"*}
    [ "$was" = "$toolchain$newline$now" ] && is_toolchain "$toolchain"
}

# Why that is not so, in words that follow a comma.
why_anew() {
    if [ ! -f "$built" ]; then
        echo 'since nothing says what it was built of'
    elif ! is_toolchain "$(head -n 1 "$built")"; then
        echo 'since the toolchain is another'
    elif [ "$(awk -v made=" $made " 'NR > 1 && !index(made, " " $2 " ")' "$built")" = "$(checksums '')" ]; then
        echo 'since it is not what was built'
    else
        echo 'since its sources have changed'
    fi
}

# Runs a command that builds, and keeps the checksums: `kept` says so. It is empty where a source changed meanwhile, even if it changed back.
build_once() {
    kept=''
    ask_toolchain
    rm -f "$built"
    begun=$(date +%s.%N)
    before=$(checksums '')
    "$@"
    now=$(checksums "$made")
    after=$(checksums '')
    changed=$(changed_since "$begun")
    [ "$before$toolchain" = "$after$(rt --version)" ] && [ -z "$changed" ] || return 0
    # Named by this process, since another may build at the same time.
    leftover=$built.$$
    { printf '%s\n' "$toolchain" "$now" >"$leftover" && mv -f "$leftover" "$built"; } 2>/dev/null || stop "writing $built failed"
    kept=yes
}
