# Debian's packages, in the system or as files. board/install, core/install, packaging/install,
# page/install and page/toolchain read this by `.`.
#
#     install_packages PACKAGE..      installs packages in the system, by their names or as files
#     open_suite FOLDER KIND SUITE    makes FOLDER, for packages, `deb`, or their sources, `deb-src`
#     of_suite FOLDER apt-get WORD..  runs apt-get or apt-cache over that suite alone
#
# What is installed wants root, and waits while another has apt's lock. What comes of a suite are
# files: nothing of the system changes, its lists neither, and no lock and no root is needed.
#
# They come from where this machine's own sources have Debian: from a mirror, if they name one. A
# machine whose sources name no Debian says where one is: DEBIAN=ADDRESS. apt checks what it fetches
# by Debian's keys, whichever mirror it is.

# Runs apt-get in the system, as root: WORD.. It waits up to five minutes while another has a lock.
# apt-get itself waits for that of dpkg alone, and fails at once where another fetches lists.
system_apt() {
    apt_root=
    [ "$(id -u)" = 0 ] || apt_root=sudo
    apt_tries=60
    while ! { apt_said=$($apt_root env LC_ALL=C DEBIAN_FRONTEND=noninteractive \
        apt-get -o DPkg::Lock::Timeout=300 "$@" 2>&1 >&3); } 3>&2; do
        apt_tries=$((apt_tries - 1))
        case $apt_said in
        *'Could not get lock'*) [ $apt_tries -gt 0 ] && sleep 5 && continue ;;
        esac
        echo "$apt_said" >&2
        return 1
    done
}

install_packages() {
    echo "install: $*; if another program has apt's lock, this waits up to five minutes" >&2
    system_apt update && system_apt install -y --no-install-recommends "$@"
}

# apt with lists and a cache of its own: FOLDER apt-get WORD..
apt_in() {
    apt_folder=$1
    apt_tool=$2
    shift 2
    "$apt_tool" -o Dir::State::Lists="$apt_folder/lists" -o Dir::Cache="$apt_folder/cache" \
        -o APT::Sandbox::User=root -o Debug::NoLocking=1 "$@"
}

of_suite() {
    suite_folder=$1
    suite_tool=$2
    shift 2
    apt_in "$suite_folder" "$suite_tool" -o Dir::Etc::SourceParts=/dev/null \
        -o Dir::Etc::SourceList="$suite_folder/sources.list" "$@"
}

# Prints the first address in this machine's sources that calls itself Debian, or nothing. apt reads
# the sources, in whichever form they stand, and fetches what an archive says of itself: FOLDER.
find_debian() {
    apt_in "$1" apt-get update --print-uris | sed -n "s|^'\(.*/dists/[^']*/InRelease\)' .*|\1|p" |
        while read -r release; do
            rm -f "$1/release"
            /usr/lib/apt/apt-helper download-file "$release" "$1/release" >/dev/null 2>&1
            if grep -q -s -x 'Label: Debian' "$1/release"; then
                echo "${release%%/dists/*}"
                break
            fi
        done
}

open_suite() {
    mkdir -p "$1/lists/partial" "$1/cache/archives/partial" || return
    debian=${DEBIAN:-$(find_debian "$1")}
    [ -n "$debian" ] || {
        echo "install: no source here is a mirror of Debian; name one by DEBIAN=ADDRESS" >&2
        return 1
    }
    keys=/usr/share/keyrings/debian-archive-keyring.gpg
    [ ! -r "$keys" ] || debian="[signed-by=$keys] $debian"
    echo "$2 $debian $3 main" >"$1/sources.list"
    of_suite "$1" apt-get -q update >&2
}
