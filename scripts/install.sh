#!/bin/sh
# Proves and builds the library, and leaves it for C programs under a folder: scripts/install.sh PREFIX
#   PREFIX/lib/libsca.a, PREFIX/include/sca.h, PREFIX/lib/pkgconfig/sca.pc
# A package is made with DESTDIR set: all is written under it, and the pkg-config file still says PREFIX.
prefix=${1:?usage: scripts/install.sh PREFIX}
case $prefix in /*) ;; *) prefix=$PWD/$prefix ;; esac
cd "$(dirname "$0")/.." || exit

# An archive that is newer than all sources is taken as it is.
. scripts/program.sh
is_new "$archive" || archive_build || exit

# The header's version, as a text.
version=$(sed -n 's/^#define SCA_VERSION \(0x[0-9A-Fa-f]*\)$/\1/p' include/sca.h)
version=$((version >> 16)).$((version >> 8 & 0xFF)).$((version & 0xFF))

lib=${DESTDIR:-}$prefix/lib include=${DESTDIR:-}$prefix/include
install -d "$lib/pkgconfig" "$include" &&
    install -m 644 "$archive" "$lib" &&
    install -m 644 include/sca.h "$include" &&
    cat >"$lib/pkgconfig/sca.pc" <<END
prefix=$prefix
Name: sca
Description: A software stand-in for the GBT-SCA slow control adapter
Version: $version
Cflags: -I\${prefix}/include
Libs: -L\${prefix}/lib -lsca
END
