# Tests the packages of Debian that scripts/deb makes of the archive, for tests/release, which reads this.
# shellcheck shell=bash disable=SC2154

# They are the same bytes again, of a folder at another place, later, and whatever umask and zone are.
same_packages() {
    local package again="$room/packages again"
    debian=(gix-date "libgix-date${version%%.*}" libgix-date-dev)
    [ ! -d "$top/python" ] || debian+=(python3-gix-date)
    prints "$(printf "$again/%s_${version}_amd64.deb\n" "${debian[@]}")" remake_packages "$again" >/dev/null
    for package in "${debian[@]}"; do
        cmp "$debs/${package}_${version}_amd64.deb" "$again/${package}_${version}_amd64.deb" || fail "$package is made of other bytes"
    done
    [ "$(find "$debs" -name '*.deb' | wc -l)" = ${#debian[@]} ] || fail 'these packages are made:' "$(ls "$debs")"
    echo "packages of Debian: ${debian[*]} are the same bytes again"
}

remake_packages() (
    umask 077
    TZ=Asia/Tokyo scripts/deb "$top" "$version" "$time" "$1"
)

# Their form has no error.
have_form() {
    has lintian 'the form of the packages of Debian' || return 0
    lintian --no-cfg --no-user-dirs --profile debian "$debs"/*.deb >"$room/said" 2>&1 || fail 'lintian says of the packages of Debian:' "$(cat "$room/said")"
    echo 'packages of Debian: lintian finds no error'
}

# dpkg for another system, below a folder, where it runs what a package brings without a change of root.
dpkg_there() {
    PATH=$PATH:/usr/sbin:/sbin dpkg --root="$system" --log="$room/dpkg.log" --force-script-chrootless "$@" >"$room/said" 2>&1 ||
        fail "dpkg $1 fails:" "$(cat "$room/said")"
}

# What another system says to have, of the oldest versions that the packages take, and nothing else.
make_system() {
    local name
    mkdir -p "$system/var/lib/dpkg/info" "$system/var/lib/dpkg/updates"
    for name in libc6=2.34 libc6-dev=2.34 python3=3.10; do
        : >"$system/var/lib/dpkg/info/${name%=*}.list"
        printf '%s\n' "Package: ${name%=*}" 'Status: install ok installed' "Version: ${name#*=}" 'Architecture: amd64' 'Maintainer: A <a@b.de>' \
            'Description: as it would be there' ''
    done >"$system/var/lib/dpkg/status"
}

# They are installed by dpkg, work there, and leave nothing behind.
are_installed() {
    local system=$room/system left
    has dpkg 'the packages of Debian as they are installed' || return 0
    [ "$(id -u)" = 0 ] || {
        skip 'the packages of Debian as they are installed' 'to be root'
        return 0
    }
    make_system
    dpkg_there --install "$debs"/*.deb
    dpkg_there --verify "${debian[@]}"
    [ ! -s "$room/said" ] || fail 'dpkg --verify says:' "$(cat "$room/said")"
    work_there "$system/usr"
    dpkg_there --remove "${debian[@]}"
    dpkg_there --purge "${debian[@]}"
    left=$(find "$system" -mindepth 1 -path "$system/var" -prune -o -print)
    [ -z "$left" ] || fail 'packages of Debian leave this behind:' "$left"
    echo 'packages of Debian: dpkg installs them, and nothing of them is left without them'
}

# What they bring works below that folder, and its pages lead to each other.
work_there() {
    local usr=$1 name='packages of Debian'
    check_links "$usr"/share/doc/*/*.md
    ! grep -rlF -e "$room" -e "$PWD/" "$usr" || fail 'these files name a folder of the build'
    answers 0 $'canonical\n' "$usr/bin/gix_date_tool" check <<<'1660874655 +0800'
    answers 1 $'missingEmail: A\n' "$usr/bin/git_ident" --lines <<<A
    as_a_command "$usr"
    links_there "$usr"
    [ ! -d "$top/python" ] || imports_there "$usr/lib/python3/dist-packages"
}

# Python takes the package there, and keeps its modules compiled beside them, which dpkg does not know.
imports_there() {
    local text='import gix_date; from importlib.metadata import version; print(gix_date.parse("1660797906 +0800"), version("gix_date"))'
    PYTHONPATH=$1 PYTHONDONTWRITEBYTECODE='' PYTHONPYCACHEPREFIX='' answers 0 "1660797906 +0800 $version"$'\n' python3 -c "$text"
    [ -d "$1/gix_date/__pycache__" ] || fail 'Python keeps no compiled modules'
    echo "$name: Python takes theirs"
}

# C programs find the library: the shared one, and the static one. Where it is installed no folder has to be named.
links_there() {
    local usr=$1 docs=$1/share/doc/libgix-date-dev folder=$1/lib/x86_64-linux-gnu
    local -x PKG_CONFIG_LIBDIR=$folder/pkgconfig PKG_CONFIG_PATH=''
    has cc 'the library of the packages of Debian' gcc && has pkg-config 'the library of the packages of Debian' || return 0
    [ "$(pkg-config --cflags --libs gix_date | xargs)" = -lgix_date ] || fail "pkg-config says: $(pkg-config --cflags --libs gix_date)"
    local -x PKG_CONFIG_SYSROOT_DIR=${usr%/usr} PKG_CONFIG_ALLOW_SYSTEM_CFLAGS=1 PKG_CONFIG_ALLOW_SYSTEM_LIBS=1
    # shellcheck disable=SC2046
    cc -std=c99 "$docs/examples/now.c" $(pkg-config --cflags --libs gix_date) -o "$room/now"
    LD_LIBRARY_PATH=$folder answers 0 $'1660797906 28800\n' "$room/now" '1660797906 +0800'
    # shellcheck disable=SC2046
    cc -std=c99 -static "$docs/examples/since.c" $(pkg-config --static --cflags --libs gix_date) -o "$room/since"
    [[ "$(TZ=UTC0 "$room/since" noon)" == *' 12:00:00 +0000' ]] || fail 'an example of the packages shows no date'
    echo "$name: C programs find their library"
}

# The packages in a folder, made of an unpacked archive of this version and time in seconds.
test_packages() {
    local top=$1 version=$2 time=$3 debs=$4 debian
    same_packages
    have_form
    are_installed
}
