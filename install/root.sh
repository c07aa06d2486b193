# shellcheck shell=bash disable=SC2016,SC2154
# Functions for tests in a root of a Debian, for install/test_packages and tools/peers. `made` is the test's own folder.

# Says why no root can be made or used here.
may_make_roots() {
    [ "$(id -u)" = 0 ] || { echo "that needs root"; return 1; }
    unshare -mn true 2>/dev/null || { echo "there are no namespaces here"; return 1; }
}

# complete_root FOLDER SUITE PACKAGE..: makes a root where there is none, and installs what it lacks of the packages. It
# needs a network for what is missing alone, and says what fails.
complete_root() {
    local folder=$1 suite=$2 log=$1.log package state missing=()
    shift 2
    if [ ! -e "$folder/etc/debian_version" ] || [ -e "$folder/debootstrap" ]; then
        command -v debootstrap >/dev/null || { echo "there is no debootstrap, and no root at $folder"; return 1; }
        debootstrap --variant=minbase "$suite" "$folder" >"$log" 2>&1 ||
            { echo "debootstrap fails: $(tail -n 1 "$log")"; return 1; }
    fi
    for package; do
        state=$(chroot "$folder" dpkg-query -W -f '${db:Status-Status}' "$package" 2>/dev/null)
        [ "$state" = installed ] || missing+=("$package")
    done
    [ ${#missing[@]} != 0 ] || return 0
    # (apt takes all that npm needs; debootstrap's own way fails at that)
    cp -L /etc/resolv.conf "$folder/etc/resolv.conf" 2>/dev/null
    unshare -m bash -ec '
        folder=$1
        shift
        mount -t proc proc "$folder/proc"
        mount --rbind /dev "$folder/dev"
        export DEBIAN_FRONTEND=noninteractive
        chroot "$folder" apt-get -q update
        chroot "$folder" apt-get -q install -y --no-install-recommends "$@"' root "$folder" "${missing[@]}" >"$log" 2>&1 ||
        { echo "apt-get fails there: $(tail -n 1 "$log")"; return 1; }
}

# copy_root ROOT OVER: mounts a copy of a root at OVER/all; what changes there is in OVER/upper. It is called in a
# namespace of mounts, whose end unmounts all.
copy_root() {
    mount -t tmpfs none "$2"
    mkdir "$2/upper" "$2/work" "$2/all"
    mount -t overlay overlay -o "lowerdir=$1,upperdir=$2/upper,workdir=$2/work" "$2/all"
    mount --rbind /dev "$2/all/dev"
    mount -t proc proc "$2/all/proc"
}
