# Prints the help and the version of a program, for a script that sources this after scripts/built.sh: `teller` names the crate whose source
# has them, and `added` is what the script adds to the help.
# shellcheck shell=sh disable=SC2154

# The help of the program itself.
program_help() {
    sed -n '/r#"/,/^"#;$/{ s/^.*r#"//; /^"#;$/!p; }' "$root/crates/$teller/src/help.rt"
}

# The help of the script.
show_help() {
    told=$(program_help) && printf '%s\n\n%s\n' "$told" "$added"
}

# Ends where the first word asks for the help or the version. That its reader wants no more is no fault that is told.
explain() {
    case ${1-} in
        --help | -h) (show_help) 2>/dev/null ;;
        --version) sed -n 's/^.* VERSION: .*"\(.*\)\\n";$/\1/p' "$root/crates/$teller/src/help.rt" 2>/dev/null ;;
        *) return 0 ;;
    esac && exit 0
    [ $? -le 128 ] || exit 1
    stop 'writing failed, as to a closed stream or a full disk'
}
