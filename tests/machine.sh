# Sourced, in the repository's root, by what compiles C beside the proved code. The caller has set `built`, a folder for
# what it builds. Sets `compiler`. The kit and what it builds are for x86-64 alone: the older kit was there for Arm too,
# with an emulator for the programs; today's has no checker for another processor, and no emulator.
# shellcheck shell=bash disable=SC2154

fail() {
  printf '%s: %s\n' "$0" "$1" >&2
  exit 1
}

add_packages() { # NAME...
  printf '%s: installing %s\n' "$0" "$*"
  {
    DEBIAN_FRONTEND=noninteractive apt-get -q update &&
      DEBIAN_FRONTEND=noninteractive apt-get -q -y install --no-install-recommends "$@"
  } >"$built/apt.log" 2>&1 || { tail -n 20 "$built/apt.log" >&2; fail "cannot install $*"; }
}

# Whether a compiler is there, with its headers and its C library.
compiles() { # COMPILER FLAGS...
  command -v "$1" >/dev/null &&
    printf '#include <stdio.h>\nint main(void) { return puts("") < 0; }\n' | "$@" -x c -o "$built/try" - 2>/dev/null
}

# rt leaves the archive in the crate's out/; here it has the place that C callers know. One that is older than a source
# of the proved code says nothing.
make_archive() { # NAME
  local archive=target/staticlib/lib$1.a
  if [ ! -f "$archive" ] ||
    [ -n "$(find crates.txt crates -name out -prune -o -type f -newer "$archive" -print -quit)" ]; then
    (cd "crates/$1" && rt lib) >"$built/$1.log" 2>&1 || { tail -n 20 "$built/$1.log" >&2; fail "rt lib in crates/$1"; }
    mkdir -p target/staticlib
    cp "crates/$1/out/lib$1.a" "$archive"
  fi
}

mkdir -p "$built"
[ "$(uname -m)" = x86_64 ] || fail 'the kit is for x86-64 alone'
compiler=(gcc)
compiles "${compiler[@]}" || add_packages gcc libc6-dev
compiles "${compiler[@]}" || fail 'no working C compiler'
compiler+=(-std=c99 -O2 -Wall -Wextra -Werror)
