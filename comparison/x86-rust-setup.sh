#!/bin/sh
# x86-rust-setup.sh DIR: makes below DIR a Rust compiler for an x86_64 machine that has none. It links the
# archives of `rt lib`. Debian's rustc is fetched by apt-get with a state of its own and unpacked below
# DIR: no root, nothing of the system is changed. Linker and C library are the Rattle kit's.
# Needs: Debian 12 with a mirror in its sources, apt-get, apt-cache, dpkg-deb; the kit at
# $RATTLE_HOME or beside the guide that `rt doc` names. About 110 MB fetched, 550 MB on disk.
set -eu
[ $# -eq 1 ] || { echo "usage: x86-rust-setup.sh DIR" >&2; exit 2; }
mkdir -p "$1"; D=$(cd "$1" && pwd -P)
KIT=${RATTLE_HOME:-$(dirname "$(rt doc)")}
[ "$(uname -m)" = x86_64 ] || { echo "no recipe for $(uname -m)" >&2; exit 2; }
T=$KIT/toolchain
A=$D/apt
mkdir -p "$A/state/lists/partial" "$A/cache/archives/partial" "$D/debs" "$D/root" "$D/link" "$D/bin"
: >"$A/status"
me=$(id -un)
opts="-o Dir::State=$A/state -o Dir::State::status=$A/status -o Dir::Cache=$A/cache -o APT::Architectures::=amd64 -o Debug::NoLocking=1 -o APT::Sandbox::User=$me -o Acquire::http::Timeout=20 -o Acquire::https::Timeout=20 -o Acquire::Retries=0"
apt-get $opts -q update
std=$(apt-cache $opts depends libstd-rust-dev:amd64 | sed -n 's/^ *Depends: \(libstd-rust-[0-9.]*\).*/\1/p' | head -1)
[ -n "$std" ] || { echo "no libstd-rust of amd64 in the sources" >&2; exit 1; }
# what the compiler's own libraries need, all but the C library
need=$(apt-cache $opts depends --recurse --no-recommends --no-suggests --no-conflicts --no-breaks --no-replaces --no-enhances "$std:amd64" |
    sed -n 's/^\([a-z0-9][^ ]*\)$/\1/p' | sed 's/:.*//' | sort -u | grep -v -x -e libc6 -e libcrypt1 -e 'gcc-[0-9]*-base' -e 'debconf.*' -e 'cdebconf.*')
(cd "$D/debs" && apt-get $opts -q download rustc:amd64 libstd-rust-dev:amd64 $(for p in $need; do echo "$p:amd64"; done))
for f in "$D"/debs/*.deb; do dpkg-deb -x "$f" "$D/root"; done
# names by which a linker asks for the kit's x86-64 C library
L=$T/lib
echo "INPUT($L/libc.so.6 $L/libc_nonshared.a AS_NEEDED($L/ld-linux-x86-64.so.2))" >"$D/link/libc.so"
echo "INPUT($L/libgcc_s.so.1 $L/libgcc.a)" >"$D/link/libgcc_s.so"
echo "INPUT($L/libm.so.6)" >"$D/link/libm.so"
for l in util rt pthread dl; do printf '!<arch>\n' >"$D/link/lib$l.a"; done
multi=x86_64-linux-gnu
cat >"$D/bin/xrustc" <<END
#!/bin/sh
# rustc for x86-64 Linux, linked by the Rattle kit's linker against the kit's C library
LD_LIBRARY_PATH=$D/root/usr/lib/$multi:$D/root/lib/$multi\${LD_LIBRARY_PATH:+:\$LD_LIBRARY_PATH}
export LD_LIBRARY_PATH
exec $D/root/usr/bin/rustc --target x86_64-unknown-linux-gnu -C linker=$T/bin/ld.lld -C linker-flavor=ld.lld \\
  -C link-args="-pie -dynamic-linker /lib64/ld-linux-x86-64.so.2 $L/Scrt1.o $L/crti.o $L/crtbeginS.o" \\
  -C link-args="-L$D/link $L/crtendS.o $L/crtn.o" "\$@"
END
cat >"$D/bin/xrun" <<END
#!/bin/sh
# runs a program that xrustc built on the kit's loader and C library
exec $L/ld-linux-x86-64.so.2 --library-path $L "\$@"
END
chmod +x "$D/bin/xrustc" "$D/bin/xrun"
"$D/bin/xrustc" -V
