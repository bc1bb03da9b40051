#!/bin/sh
# Tries an installation the way another project meets it: builds examples/outside by what pkg-config says, with the shared library and with the archive, runs both,
# runs the program on an example, looks at the man page, makes every call from a SystemVerilog bench, and uses the Python package, as it is installed and as pip installs it.
#
#     packaging/try.sh PREFIX WORK PYTHON_DIR     WORK is a directory for what is made on the way, PYTHON_DIR where the package is
#
# CC and CXX are the compilers; EMULATOR runs what they compile, where the machine itself does not.
set -eu
prefix=$1
work=$2
packages=$3
examples=$(cd "$(dirname "$0")/../examples" && pwd)
source=$(cd "$(dirname "$0")/../python" && pwd)

if ! command -v pkg-config > /dev/null; then
    echo "packaging/try.sh needs pkg-config (Debian: apt-get install pkg-config)" >&2
    exit 1
fi

# The source is built away from this repository's header and archive.
mkdir -p "$work"
cp "$examples/outside/main.c" "$work"
cd "$work"
PKG_CONFIG_PATH=$prefix/lib/pkgconfig
export PKG_CONFIG_PATH
${CC:-cc} main.c $(pkg-config --cflags --libs slt) -o shared
LD_LIBRARY_PATH=$prefix/lib ${EMULATOR-} ./shared > printed
cmp printed "$examples/outside/stdout"
${CC:-cc} main.c $(pkg-config --cflags slt) "$(pkg-config --variable=archive slt)" -o archive
${EMULATOR-} ./archive > printed
cmp printed "$examples/outside/stdout"

# Each is linked with what it should be: the loader is told the library's name, or it is not.
if ! grep -q libslt.so shared || grep -q libslt.so archive; then
    echo "the outside program is not linked with the library that it asked for" >&2
    exit 1
fi

${EMULATOR-} "$prefix/bin/slotline" < "$examples/three_kinds.slt" | cmp - "$examples/three_kinds.txt"

# A machine without groff has no man pages to show.
page=$prefix/share/man/man1/slotline.1
test -s "$page"
if command -v groff > /dev/null; then
    warnings=$(groff -man -Tascii -ww "$page" 2>&1 > /dev/null)
    test -z "$warnings" || { echo "$warnings" >&2; exit 1; }
fi

# What a SystemVerilog bench needs stands where pkg-config says.
svdir=$(pkg-config --variable=svdir slt)
sh "$examples/../sim/dpi/try.sh" "$svdir/slt_pkg.sv" "$svdir/slt_dpi.c" "$(pkg-config --variable=libdir slt)/libslt.a" \
    "$(pkg-config --variable=includedir slt)" systemverilog

# The package finds the library that was installed with it, and so does what pip makes of the source without a network. A machine without pip has nothing to try there;
# one of another processor cannot load the library.
python_prints() {
    (unset SLT_LIBRARY && PYTHONDONTWRITEBYTECODE=1 PYTHONPATH=$1 python3 -m slt map slot format=1 slot=1 tpc=1 data=10 tfci=01) > printed
    echo 1101101100 | cmp - printed
}
if test -z "${EMULATOR-}"; then
    python_prints "$packages"
    if python3 -m pip --version > /dev/null 2>&1; then
        PIP_CONFIG_FILE=/dev/null PIP_ROOT_USER_ACTION=ignore python3 -m pip --disable-pip-version-check install --quiet --no-index --target pip --upgrade "$source"
        python_prints pip
    fi
fi
echo "package: slt $(pkg-config --modversion slt) builds an outside program with either library, and it prints what it should; so does Python"
