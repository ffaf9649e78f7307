# Builds Git as Debian has its source, and copies of it whose dates are the library's, for tests/git_itself and bench/git-itself.
# shellcheck shell=bash disable=SC2154

git_version=2.39.5
git_settings=(CFLAGS=-O2 NO_CURL=1 NO_EXPAT=1 NO_GETTEXT=1 NO_OPENSSL=1 NO_PYTHON=1 NO_TCLTK=1)

# Whether all is there that builds Git; if not, the words say what is skipped.
can_build_git() {
    has ar "$1" binutils && has cc "$1" gcc && has make "$1" && has dpkg-source "$1" dpkg-dev && has /usr/include/zlib.h "$1" zlib1g-dev
}

# Runs a command that builds, and shows the end of what it says where it fails.
quietly() {
    "$@" >"$room/log" 2>&1 || fail "this fails: $*" "$(tail -n 20 "$room/log")"
}

# Downloads the source package from the machine's own servers, by lists apart from its own. apt checks the signature.
download_git() (
    apt=$room/apt
    mkdir -p "$apt/sources" "$apt/lists/partial" "$apt/cache/archives/partial"
    options=(-o Dir::Etc::SourceList=/dev/null -o "Dir::Etc::SourceParts=$apt/sources" -o "Dir::State::Lists=$apt/lists"
        -o "Dir::Cache=$apt/cache" -o APT::Sandbox::User=root)
    for file in /etc/apt/sources.list /etc/apt/sources.list.d/*.{list,sources}; do
        [ ! -f "$file" ] || sed -E 's/^Types:.*/Types: deb-src/; s/^deb(-src)?([[:space:]])/deb-src\2/' "$file" >"$apt/sources/${file##*/}"
    done
    apt-get "${options[@]}" update || exit 1
    name=$(apt-cache "${options[@]}" showsrc --only-source git | sed -nE "s/^Version: ([0-9]+:$git_version-.*)/\1/p" | sort -V | tail -n 1)
    [ "$name" ] && cd "$apt" && apt-get "${options[@]}" source --download-only "git=$name"
)

# Builds Git as it is, as `built_git`, by words that may come last, or skips what the first says. It is kept for this compiler and these
# settings, and run in copies alone, since tests could change it.
build_git() {
    local key what=$1
    shift
    key=$({ echo "$git_version ${git_settings[*]}" && cc --version; } | sha256sum)
    built_git=${XDG_CACHE_HOME:-$HOME/.cache}/gix_date/git-$git_version-${key:0:16}
    [ ! -d "$built_git" ] || return 0
    download_git >"$room/log" 2>&1 || {
        skip "$what" "the source package of Git $git_version"
        return 1
    }
    quietly dpkg-source --no-check -x "$room"/apt/git_*.dsc "$room/git"
    quietly "$@" make -C "$room/git" -j "$(nproc)" "${git_settings[@]}"
    mkdir -p "${built_git%/*}"
    cp -a "$room/git" "$built_git.$$"
    # Another run may have been first.
    mv -T "$built_git.$$" "$built_git" 2>/dev/null || rm -rf "$built_git.$$"
}

# Copies it, by words that may come last. The wrappers of its commands name its folder.
copy_git() {
    local copy=$1
    shift
    cp -a "$built_git" "$room/$copy"
    rm -r "$room/$copy/bin-wrappers"
    quietly "$@" make -C "$room/$copy" -j "$(nproc)" "${git_settings[@]}"
}

# Puts a file and the library, of which `library` is the path, in the place of the dates of a copy.
put_dates() {
    local top=$PWD
    cp "$2" "$room/$1/date.c"
    (
        cd "$room/$1" || exit
        CPATH=$top/include quietly make "${git_settings[@]}" date.o
        ld -r date.o "$library" -o dates.o
        mv dates.o date.o
        quietly make -j "$(nproc)" "${git_settings[@]}"
        nm git | grep ' git_date_parse_at$' >/dev/null || fail 'Git is not linked with the library'
    )
}
