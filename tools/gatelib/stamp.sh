#!/usr/bin/env bash
# The stamp of the proved program, which says what it was built from. `./run` uses the program only with a stamp of the present sources.
#
#   tools/gatelib/stamp.sh sources      prints a checksum of the sources
#   tools/gatelib/stamp.sh write SUM    stamps the built program, which was built from the sources with this checksum

stamp_root=$(dirname "$(readlink -f "${BASH_SOURCE[0]}")")/../..
stamped_program=$stamp_root/crates/syn_canon/out/syn_canon
stamp=$stamp_root/crates/syn_canon/out/run.stamp

# A checksum of all sources.
sources() {
    (
        cd "$stamp_root" && {
            find crates/*/src crates/*/specs crates/*/proofs -type f -print0
            printf '%s\0' crates.txt HANDLES
        } 2>/dev/null | LC_ALL=C sort -z | xargs -0 sha256sum 2>/dev/null | sha256sum | cut -d ' ' -f 1
    )
}

# A checksum of the kit; if there is none, of the kit that built the program.
kit_now() {
    local rt
    if rt=$(readlink -f "$(command -v rt)") && [ -f "$rt" ]; then
        sha256sum <"${rt%/*/*}/KIT-ID"
    else
        sed -n 2p "$stamp"
    fi
}

# The text of the stamp after a build from the sources with the checksum $1.
stamped() { printf '%s\n' "$1" "$(kit_now)" "$(sha256sum <"$stamped_program")"; }

# Whether the proved program is built from the present sources.
is_built() { [ -x "$stamped_program" ] && [ -f "$stamp" ] && [ "$(stamped "$(sources)")" = "$(cat "$stamp")" ]; }

if [ "${BASH_SOURCE[0]}" = "$0" ]; then
    case $1 in
    sources) sources ;;
    write) stamped "$2" >"$stamp" ;;
    *) exit 2 ;;
    esac
fi
