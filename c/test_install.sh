#!/bin/sh
# Installs the built library into an empty folder, builds programs there through pkg-config, with the archive and with the shared library, and runs them. Takes make, a
# C compiler and pkg-config.
set -eu
cd "$(dirname "$0")"

# Stops where what was found, the second word, is not what is wanted, the third.
same()
{
    [ "$2" = "$3" ] && return
    echo "test_install.sh: $1 are [$2], and not [$3]" >&2
    exit 1
}

prefix=$(mktemp -d)
trap 'rm -rf "$prefix"' EXIT
"${MAKE:-make}" --no-print-directory all install DESTDIR= PREFIX="$prefix" >/dev/null

interface=$(sed -n 's/^#define TBSON_VERSION //p' tbson.h)
shared=libtbson.so.$interface
same "the files" "$(cd "$prefix" && find . -type f | sort | tr '\n' ' ')" "./include/tbson.h ./lib/libtbson.a ./lib/$shared ./lib/pkgconfig/tbson.pc "
same "the links" "$(readlink "$prefix/lib/libtbson.so")" "$shared"
export PKG_CONFIG_PATH="$prefix/lib/pkgconfig"
same "the versions" "$(pkg-config --modversion tbson)" "$(cat ../VERSION)"
same "the names that programs look for" "$(objdump -p "$prefix/lib/$shared" | awk '$1 == "SONAME" { print $2 }')" "$shared"

# The names that the archive, and the shared library beside it, give to a program: the calls of the header, and no others.
calls=$(sed -n 's/^\(uint32_t\|tbson_[a-z_]*\) \(tbson_[a-z_]*\)(.*/\2/p' tbson.h | sort | tr '\n' ' ')
names() { awk 'NF == 3 { print $3 }' | sort | tr '\n' ' '; }
same "the names of the archive" "$(nm --defined-only --extern-only "$prefix/lib/libtbson.a" | names)" "$calls"
same "the names of the shared library" "$(nm --dynamic --defined-only "$prefix/lib/$shared" | names)" "$calls"

# From another folder, so that nothing but what was installed is found.
cp example.c "$prefix"
cd "$prefix"
compile() { ${CC:-cc} -std=c99 $(pkg-config --cflags tbson) -o "$@"; }
compile with_archive example.c lib/libtbson.a
compile with_shared example.c $(pkg-config --libs tbson) -Wl,-rpath,"$prefix/lib"
same "the libraries" "$(objdump -p with_shared | awk '$1 == "NEEDED" && /tbson/ { print $2 }')" "$shared"
for program in with_archive with_shared
do
    same "the bytes" "$(printf '\014\0\0\0\020n\0\007\0\0\0\0' | "./$program" '{n:u32}')" "10 00 00 00 12 6e 00 07 00 00 00 00 00 00 00 00"
done
echo "test_install.sh: the header, the archive, the shared library and pkg-config serve a program, which prints the recast document"
