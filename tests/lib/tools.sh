# Read after program.sh by the scripts that use what a machine may lack.

# has TEST PACKAGE..: whether the test holds. If it does not, a line says what is skipped for want of
# Debian's packages, and so does one of the file SKIPPED, if that is set. Where INSTALL=yes is set, as
# .ci/run does if CI=true is, root has them installed first; of scripts that run side by side one
# installs at a time
has() {
    local name=${0##*/}
    name=${name%.sh}
    if ! eval "$1" >/dev/null 2>&1 && [ "${INSTALL:-}" = yes ] && [ "$(id -u)" = 0 ] && command -v apt-get >/dev/null; then
        echo "$name: installing ${*:2}"
        (
            flock 9
            timeout 60 apt-get -qq update >/dev/null 2>&1 || true
            DEBIAN_FRONTEND=noninteractive timeout 300 \
                apt-get -qq install -y --no-install-recommends "${@:2}" </dev/null >/dev/null 2>&1 || true
        ) 9>"${TMPDIR:-/tmp}/latchsym-installs"
    fi
    eval "$1" >/dev/null 2>&1 || {
        echo "$name: skips what needs ${*:2} (Debian: apt-get install ${*:2})" | tee -a "${SKIPPED:-/dev/null}"
        return 1
    }
}

# runs_on_old_glibc TOOLS LIBRARY: the library asks for nothing but glibc, and no symbol of a version
# after 2.17, as a wheel of manylinux_2_17 may; objdump and readelf are those of TOOLS
runs_on_old_glibc() {
    local newest needed
    needed=$("${1}readelf" -dW "$2" | sed -nE 's/.*\(NEEDED\).*\[(.*)\]/\1/p' |
        grep -vxE 'libc\.so\.6|ld-linux-.*' || true)
    newest=$({ echo GLIBC_2.17; "${1}objdump" -T "$2" | grep -oE 'GLIBC_[0-9.]+'; } | sort -V | tail -n 1)
    [ -z "$needed" ] && [ "$newest" = GLIBC_2.17 ]
}
