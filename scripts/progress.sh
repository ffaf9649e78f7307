# Builds by `rt`, and shows how far it is, for a script that sources this after scripts/built.sh.
# shellcheck shell=sh disable=SC2034,SC2154

# How long a build takes where nothing has been proved yet.
how_long='some eight minutes on four cores, ten on two'

# The crates that a crate is built of, lowest first and itself last, by the lines of crates.txt, which come in any order.
crates_of() {
    awk -v top="$1" '
        function visit(name, uses, count, i) {
            if (!(name in line) || visited[name]++) return
            count = split(line[name], uses)
            for (i = 1; i <= count; i++) visit(uses[i])
            crates = crates name " "
        }
        { sub(/#.*/, "") }
        /:/ { name = $1; sub(/:.*/, "", name); sub(/^[^:]*:/, ""); line[name] = $0 }
        END { visit(top); print crates }' "$root/crates.txt"
}

# What the log says last of the crate that is built: how many of its functions are checked, or that another build goes first.
waiting=', waiting for another build'
state() {
    awk -v waiting="$waiting" '
        /^== / { state = "" }
        /^rt: waiting for another rt/ { state = waiting }
        /^so far: [0-9]+ of [0-9]+ functions/ { state = ": " $3 " of " $5 " functions checked" }
        END { print state }' "$log.$$"
}

# On a terminal one line, written anew each second. Elsewhere another build that goes first is told once a crate.
show_progress() {
    if [ -t 2 ]; then
        seconds=$(($(date +%s) - start))
        printf '\r%-78s' "$speaker: $(printf '%d:%02d' $((seconds / 60)) $((seconds % 60))), $place$(state)" >&2
    elif [ -z "$waits" ] && [ "$(state)" = "$waiting" ]; then
        waits=1
        say "$place$waiting"
    fi
}

# Whatever ends the script ends `rt` too, which ends all that it has started; what `leftover` names goes.
builder='' leftover='' log=''
trap 'end_build; [ -z "$leftover" ] || rm -rf "$leftover"; rmdir "$root/out" 2>/dev/null || :' EXIT
trap 'exit 1' HUP INT TERM PIPE

end_build() {
    [ -z "$builder" ] || { kill "$builder" && wait "$builder"; } 2>/dev/null || :
    builder=''
    [ "$log" ] || return 0
    [ ! -t 2 ] || printf '\r%-78s\r' '' >&2 || :
    mv -f "$log.$$" "$log" || :
    log=''
}

# Adds a line to the log, or ends where that takes no more, as on a full disk.
write_log() {
    { echo "$1" >>"$log.$$"; } 2>/dev/null || {
        rm -f "$log.$$"
        failed=$log log=''
        stop "writing $failed failed"
    }
}

# Runs `rt` with words in the folder of a crate. Neither another compiler nor C code comes in by the environment.
run_rt() {
    crate=$1 status=0 waits='' looks=0
    shift
    write_log "== $crate"
    (cd "$root/crates/$crate" && unset RT_BACKEND RT_ALLOW_C && exec rt "$@") </dev/null >>"$log.$$" 2>&1 &
    builder=$!
    while kill -0 "$builder" 2>/dev/null; do
        show_progress || :
        looks=$((looks + 1))
        sleep "$([ "$looks" -gt 20 ] && echo 1 || echo 0.1)"
    done
    wait "$builder" || status=$?
    builder=''
    show_progress || :
    return "$status"
}

# Makes the folder of what a crate builds. What another toolchain has left there goes, since `rt` asks only whether sources have changed.
make_out() {
    by=$root/crates/$1/out/toolchain
    [ ! -s "$by" ] || [ "$(cat "$by")" = "$toolchain" ] || rm -rf "${by%/*}"
    [ -s "$by" ] || { mkdir -p "${by%/*}" && echo "$toolchain" >"$by"; } 2>/dev/null || stop "writing $by failed"
}

# Builds a crate by `rt` with words, after the libraries that it stands on. These go one by one, since `rt` would first read the sources of
# all at once, and choose fewer processors for the small ones. Of a library above large ones it would choose one processor, for memory that
# it does not take. What it prints goes to a log. Where a build fails, the log's last lines but those that list what was done tell why.
build_crate() {
    top=$1 start=$(date +%s) number=0 jobs=$(nproc 2>/dev/null || getconf _NPROCESSORS_ONLN)
    shift
    crates=$(crates_of "$top") || exit 1
    case " $crates" in
        *" $top ") ;;
        *) stop "crates.txt does not name the crate $top" ;;
    esac
    for library in $crates; do
        make_out "$library"
    done
    log=$root/crates/$top/out/build.log
    clear_killed "$log"
    # Named by this process, since another may build at the same time.
    { true >"$log.$$"; } 2>/dev/null || :
    total=$(echo "$crates" | wc -w)
    for library in $crates; do
        number=$((number + 1))
        place="crate $number of $total, $library"
        [ -t 2 ] || say "$place"
        if [ "$library" = "$top" ] && [ "$1" != lib ]; then
            run_rt "$library" "$@"
        else
            run_rt "$library" lib --jobs "$jobs"
        fi || {
            write_log ''
            grep -vE '^(==|statements|so far|by-macro|logic|library|crate|only=0)|^(rt|note): |: proved$|^$' "$log.$$" | tail -n 20 >&2 || :
            say "the build failed; all that it printed is in $log"
            exit 1
        }
    done
    end_build
}

# Builds by a command, so that `made` is of the sources as they are at its end.
build() {
    needs awk date grep
    clear_killed "$built"
    for round in 1 2 3; do
        build_once "$@"
        [ -z "$kept" ] || return 0
        say 'a source has changed meanwhile; once more'
    done
    stop 'the sources change while they are built'
}

# Builds a program, of which the toolchain runs with words what it has built.
build_program() {
    crate_of_program=$1
    shift
    ask_toolchain
    # shellcheck disable=SC2154
    if [ -e "$program" ]; then
        say "proving and building the program anew, $(why_anew); at most $how_long"
    else
        say "proving and building the program, once; $how_long"
    fi
    build build_crate "$crate_of_program" run -- "$@"
}
