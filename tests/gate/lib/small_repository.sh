# shellcheck shell=bash
# Sourced by a script of tests/gate that stands at the top of the checkout: a small repository with a stand-in for rt.

# Makes a repository of five crates: two between the lowest and the program, and one that the program doesn't stand on. The stand-in is put
# into a folder for the path, and its toolchain's text beside that.
small_repository() { # the stand-in's folder, the repository
  local bin=${1:?} repo=${2:?} crate
  mkdir -p "$bin" "$repo/tools" "$repo/docs" "$repo/contrib"
  cp tests/gate/lib/stand_in_rt.py "$bin/rt"
  chmod +x "$bin/rt"
  echo "one toolchain" >"$bin/../WHAT"
  cp safetynet build.py early.py "$repo"
  printf '%s\n' '# crate: what it stands on' 'low: byteorder' 'left: low' 'right: low' 'aside: low' 'safetynet_program: low left right itoa' >"$repo/crates.txt"
  echo "Handles allowed: Wait." >"$repo/HANDLES"
  for crate in low left right aside safetynet_program; do
    mkdir -p "$repo/crates/$crate/src"
    echo "first" >"$repo/crates/$crate/src/lib.rt"
  done
  cp -r crates/safetynet_program/pages "$repo/crates/safetynet_program"
  # what is installed and handed on beside the program
  cp tools/install.py tools/release tools/pages.py "$repo/tools"
  cp docs/safetynet.1 "$repo/docs"
  cp contrib/completion.bash "$repo/contrib"
}
