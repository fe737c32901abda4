# Programs for x86-64, the only machine that the library's archive is for. To be sourced; it defines names and does
# nothing else.
#
#     debian_packages PACKAGE ..          installs what is missing of these if it may; if some still is, prints which
#     x86_ready                           makes sure that such programs can be built and run here; if not, prints what is
#                                         missing
#     x86_place FILE PROGRAM              puts a program for x86-64 where it can be run as it is
#     x86_link COMPILER PROGRAM WORDS ..  the same for what gcc or g++ makes of the words
#     x86_cargo WORDS ..                  cargo for x86-64; x86_release is where it leaves programs
#     x86_python FOLDER                   makes FOLDER/python3, for machines that are not x86-64 themselves
#
# On x86-64 these are the machine's own compilers. On Arm they are Debian's packages below, which x86_ready installs if it
# may, and the programs run on Debian's emulator. Today's toolchain, which builds the archive, runs on x86-64 alone.

if [ "$(uname -m)" = x86_64 ]; then
    x86_prefix= x86_suffix= x86_run= x86_release=release
else
    x86_prefix=x86_64-linux-gnu- x86_suffix=.x86-64 x86_run=qemu-x86_64 x86_release=x86_64-unknown-linux-gnu/release
fi
x86_packages="gcc-x86-64-linux-gnu g++-x86-64-linux-gnu libc6:amd64 libgcc-s1:amd64 qemu-user
    rustc-web cargo-web libstd-rust-web-dev:amd64"
x86_python_packages="python3.11-minimal:amd64 libpython3.11-minimal:amd64 libpython3.11-stdlib:amd64 libffi8:amd64
    libexpat1:amd64 zlib1g:amd64"

x86_native() {
    [ -z "$x86_run" ]
}

# lacking PACKAGE ..: those that are not installed.
lacking() {
    local package
    for package in "$@"; do
        dpkg-query -W -f '${db:Status-Abbrev}' "$package" 2>/dev/null | grep -q '^ii' || echo "$package"
    done
}

debian_packages() {
    if [ -n "$(lacking "$@")" ] && [ "$(id -u)" = 0 ]; then
        { apt-get update && apt-get install -y --no-install-recommends $(lacking "$@"); } >/dev/null 2>&1 || true
    fi
    [ -z "$(lacking "$@")" ] || { echo "missing Debian's packages" $(lacking "$@"); return 1; }
}

x86_ready() {
    if x86_native; then
        command -v gcc >/dev/null || { echo "missing gcc"; return 1; }
        return 0
    fi
    [ "$(id -u)" != 0 ] || dpkg --add-architecture amd64 2>/dev/null || true
    debian_packages $x86_packages
}

# x86_wrap PROGRAM: elsewhere a script of that name, which runs PROGRAM.x86-64.
x86_wrap() {
    x86_native || { printf '#!/bin/sh\nexec %s "$0%s" "$@"\n' "$x86_run" "$x86_suffix" >"$1" && chmod +x "$1"; }
}

x86_place() {
    cp "$1" "$2$x86_suffix" && x86_wrap "$2"
}

x86_link() {
    local compiler=$1 program=$2
    shift 2
    "$x86_prefix$compiler" "$@" -o "$program$x86_suffix" && x86_wrap "$program"
}

# Elsewhere Debian's, which has the x86-64 library; another cargo may stand before it on the path.
x86_cargo() {
    if x86_native; then
        cargo "$@"
        return
    fi
    PATH=/usr/bin:$PATH CARGO_BUILD_TARGET=x86_64-unknown-linux-gnu \
        CARGO_TARGET_X86_64_UNKNOWN_LINUX_GNU_LINKER=${x86_prefix}gcc \
        CARGO_TARGET_X86_64_UNKNOWN_LINUX_GNU_RUNNER=$x86_run cargo "$@"
}

x86_python() {
    [ -x "$1/python3" ] && return
    mkdir -p "$1" && (
        cd "$1" || exit
        rm -f ./*.deb
        apt-get download $x86_python_packages || exit
        for package in *.deb; do
            dpkg -x "$package" . || exit
        done
        printf '#!/bin/sh\nroot=$(dirname "$0")\nPYTHONHOME=$root/usr exec %s -L "$root" "$root/usr/bin/python3.11" "$@"\n' \
            "$x86_run" >python3 && chmod +x python3
    )
}
