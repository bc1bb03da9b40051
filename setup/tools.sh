#!/bin/sh
# Looks for the tools that `make run`, `make sim` or `make test` needs, before it does anything. What is missing is installed from Debian's packages where that may be
# done (by root, with apt-get); else the one command that does it is printed. Until something is missing it uses nothing but the shell and cargo's own version.
#
#     setup/tools.sh run|sim|test
set -eu
command=${1:?run, sim or test}

# The one list: a tool, the package of Debian that has it, and which command needs it (sim needs all that run needs, test needs all). rt itself is a program in Python. What has the
# mark 'else' is for processors other than x86-64, for which the prover compiles: there it is what compiles and runs programs of x86-64. What has the mark 'may' the
# command can do without: a step that has it does more.
tools() {
    while read -r tool package needed mark; do
        if test "$mark" = else && test "$(uname -m)" = x86_64; then continue; fi
        if test "$needed" = run || test "$needed" = "$command" || test "$command" = test; then "$1" "$tool" "$package" "$mark"; fi
    done << 'LIST'
make        make        run
python3     python3     run
sed         sed         run
awk         mawk        test
cmp         diffutils   test
cc          gcc         sim
ar          binutils    sim
nm          binutils    test
readelf     binutils    test
g++         g++         sim
verilator   verilator   sim
yosys       yosys       sim
mypy        mypy        test  may
pkg-config  pkg-config  test
cargo       cargo       test
qemu-x86_64-static           qemu-user-static           run   else
/lib64/ld-linux-x86-64.so.2  libc6:amd64                run   else
x86_64-linux-gnu-gcc         gcc-x86-64-linux-gnu       sim   else
x86_64-linux-gnu-g++         g++-x86-64-linux-gnu       sim   else
x86_64-linux-gnu-ar          binutils-x86-64-linux-gnu  sim   else
rust-for-x86-64              libstd-rust-web-dev:amd64  test  else
LIST
}

# The second program is written in the edition 2024 of Rust, which cargo knows from 1.85 on.
cargo_is_new() {
    set -- $(cargo --version)
    case $2 in
        1.*) set -- "${2#1.}"; test "${1%%.*}" -ge 85 ;;
    esac
}

# Debian's own compiler of Rust, with its library for x86-64; another one that stands before it on the path may have no such library.
rust_for_x86_64() {
    test -x /usr/bin/cargo && root=$(/usr/bin/rustc --print sysroot 2> /dev/null) && test -d "$root/lib/rustlib/x86_64-unknown-linux-gnu/lib"
}

has() {
    case $1 in
        cargo) command -v cargo > /dev/null 2>&1 && cargo_is_new ;;
        rust-for-x86-64) rust_for_x86_64 ;;
        *) command -v "$1" > /dev/null 2>&1 ;;
    esac
}

missing= packages= wished=
note() {
    if has "$1"; then return; fi
    if test "$3" = may; then wished="$wished $2"; else missing="$missing $1"; packages="$packages $2"; fi
}

# Whether packages can be installed from here. What a command can do without is worth one try that does not wait for long.
may_install() {
    command -v apt-get > /dev/null 2>&1 && test "$(id -u)" = 0
}
wish() {
    if test -z "$wished"; then return; fi
    echo "setup: installing what may be had:$wished." >&2
    quick="-o Acquire::Retries=0 -o Acquire::http::Timeout=10"
    { test -n "$missing" || apt-get $quick update -qq >&2; } && apt-get $quick install -y -qq $wished >&2 || echo "setup: going on without:$wished." >&2
}

# No package has the prover, so without it nothing else is worth installing.
if ! has rt; then
    echo "setup: rt is not on the path. It comes with the Rattle kit and cannot be installed from here: unpack the kit and put its folder bin on the path." >&2
    exit 1
fi
tools note
export DEBIAN_FRONTEND=noninteractive
if test -z "$missing"; then
    if may_install; then wish; fi
    exit 0
fi

# Debian 12 has a cargo that is too old, and a new one beside it under another name. gcc alone has no headers of the C library.
named() {
    for package in $packages; do
        case $package in
            cargo) if apt-cache show cargo-web > /dev/null 2>&1; then echo cargo-web; else echo cargo; fi ;;
            gcc) echo gcc libc6-dev ;;
            gcc-x86-64-linux-gnu) echo gcc-x86-64-linux-gnu libc6-dev-amd64-cross ;;
            libstd-rust-web-dev:amd64) if apt-cache show cargo-web > /dev/null 2>&1; then echo rustc-web cargo-web "$package"; else echo rustc cargo libstd-rust-dev:amd64; fi ;;
            *) echo "$package" ;;
        esac
    done
}

# Packages for x86-64 are found once dpkg knows that it may look for them.
foreign() {
    case $packages in
        *:amd64*) echo "$1 dpkg --add-architecture amd64 && $1 apt-get update && " ;;
    esac
}

if ! command -v apt-get > /dev/null 2>&1; then
    echo "setup: missing:$missing (cargo must be 1.85 or newer). This machine has no apt-get: install them by its own means." >&2
    exit 1
fi
if ! may_install; then
    echo "setup: missing:$missing. This installs them: $(foreign sudo)sudo apt-get install -y" $(named) >&2
    exit 1
fi
echo "setup: missing:$missing. Installing." >&2
case $packages in
    *:amd64*) dpkg --add-architecture amd64 ;;
esac
apt-get update -qq >&2
apt-get install -y -qq $(named) >&2
wish

missing= packages= wished=
tools note
if test -n "$missing"; then
    echo "setup: still missing:$missing (cargo must be 1.85 or newer; another cargo may stand before it on the path)." >&2
    exit 1
fi
