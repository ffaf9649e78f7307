# Answers by a program that `rt try` builds for one call, without proofs, for a script that sources this after scripts/help.sh
# and scripts/progress.sh.
# shellcheck shell=sh disable=SC2034,SC2154

# Copies the lines that are answered: `rt try` has room for 1 MiB of replies, and for as much of messages.
copy_input() {
    head -c $((most_bytes + 1)) >"$work/given"
    head -n "$most_lines" "$work/given" | head -c "$most_bytes" >"$work/asked"
    cmp -s "$work/given" "$work/asked" && return
    more=yes
    # The last line may be cut. Where it is the only one, it is too long for the program.
    [ "$(tail -c 1 "$work/asked" | wc -l)" = 1 ] || [ "$(wc -l <"$work/asked")" = 0 ] || sed -i '$d' "$work/asked"
}

# Ends where a word is not UTF-8, as far as that can be told here: `rt try` takes none.
refuse_bytes() {
    ! command -v iconv >/dev/null || printf '%s' "$*" | iconv -f UTF-8 -t UTF-8 >/dev/null 2>&1 || {
        say 'a word is not UTF-8'
        show_help | sed -n 1p >&2
        exit 2
    }
}

# Answers at most so many lines by the program of a crate, called with the further words. It is built for this call alone, and goes with it.
answer_unproved() {
    needs cat cmp head sed tail wc
    ask_toolchain
    crate=$1 most_lines=$2 most_bytes=262144 more='' status=0 work=$root/out/unproved.$$
    shift 2
    refuse_bytes "$@"
    say 'building the program for this call alone, without proofs; about a minute'
    clear_killed "${work%.*}"
    leftover=$work
    mkdir -p "$work"
    copy_input
    (cd "$root/crates/$crate" && exec rt try -- "$@") <"$work/asked" 2>"$work/said" &
    builder=$!
    wait "$builder" || status=$?
    builder=''
    # What `rt` says of its checks reads as if something were proved.
    [ "$status" -gt 2 ] || sed -i -E '/^(by-macro: |checked: ended |run=ended )/d' "$work/said"
    cat "$work/said" >&2 || :
    [ "$status" -le 2 ] || stop 'rt has no answer without proofs'
    [ "$status" = 2 ] || [ -z "$more" ] || stop "without proofs no more than $most_lines lines and $most_bytes bytes are answered"
    exit "$status"
}
