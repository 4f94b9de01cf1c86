#!/usr/bin/env bash
# Shows what tools/packages says and does, with a stand-in for apt-get: nothing is installed here.
set -u
cd "$(dirname "$0")/../.." || exit 1
. tests/gate/lib/checks.sh

# No other command is on the path than these, so no real apt-get and no tool that is there already.
bin=$work/bin
mkdir "$bin"
for tool in bash env id sed; do ln -s "$(command -v "$tool")" "$bin/$tool"; done
lays() { # files that are commands there
  for tool in "$@"; do printf '#!/usr/bin/env bash\n' >"$bin/$tool" && "$chmod" +x "$bin/$tool"; done
}
chmod=$(command -v chmod)
# The words of its calls are kept. A package of the file HAS is installed, by a command of its name; the lists are fetched where LISTS is there.
cat >"$work/apt-get" <<END
#!/usr/bin/env bash
echo "\${*:8}" >>"$work/calls"
case \$8 in
  update) [ -e "$work/LISTS" ] ;;
  install)
    while read -r package command; do
      [ "\$package" != "\${10}" ] || { printf '#!/bin/sh\n' >"$bin/\$command" && "$chmod" +x "$bin/\$command"; exit; }
    done <"$work/HAS"
    exit 100
    ;;
esac
END
"$chmod" +x "$work/apt-get"
: >"$work/HAS"

# A package that has no command is there or isn't, whatever the path is: what is said of it is left out here.
filed='\(bash-completion\|fonts-dejavu-core\|python3-[a-z]*\)'
packages() { # what it shows, the lines
  : >"$work/calls"
  PATH=$bin "$BASH" tools/packages >"$work/out" 2>&1
  is_so "$1: $(cat "$work/out")" diff <(printf '%s\n' "$2") <(sed "/install\(ed\)\? $filed\$/d; s/ $filed//g" "$work/out")
}
packages "without apt-get" "# packages: lacking: man-db groff-base mandoc shellcheck mypy chromium chromium-driver gcc-riscv64-unknown-elf snakemake slurm-wlm munge
# packages: apt-get isn't there; nothing was installed"
ln -s "$work/apt-get" "$bin/apt-get"
if [ "$(id -u)" = 0 ]; then
  packages "without a network" "# packages: lacking: man-db groff-base mandoc shellcheck mypy chromium chromium-driver gcc-riscv64-unknown-elf snakemake slurm-wlm munge
# packages: the lists of packages can't be fetched; those that are here serve
# packages: can't install man-db
# packages: can't install groff-base
# packages: can't install mandoc
# packages: can't install shellcheck
# packages: can't install mypy
# packages: can't install chromium
# packages: can't install chromium-driver
# packages: can't install gcc-riscv64-unknown-elf
# packages: can't install snakemake
# packages: can't install slurm-wlm
# packages: can't install munge"
  : >"$work/LISTS"
  printf '%s\n' "man-db man" "groff-base groff" "mypy other" "shellcheck shellcheck" >"$work/HAS"
  lays mandoc chromium riscv64-unknown-elf-gcc snakemake sbatch munged
  packages "what lacks is installed, each by itself" "# packages: lacking: man-db groff-base shellcheck mypy chromium-driver
# packages: installed man-db
# packages: installed groff-base
# packages: installed shellcheck
# packages: can't install mypy
# packages: can't install chromium-driver"
  is_so "by these calls" diff <(grep -v " $filed\$" "$work/calls") - <<'END'
update
install --no-install-recommends man-db
install --no-install-recommends groff-base
install --no-install-recommends shellcheck
install --no-install-recommends mypy
install --no-install-recommends chromium-driver
END
else
  packages "without the right to install" "# packages: lacking: man-db groff-base mandoc shellcheck mypy chromium chromium-driver gcc-riscv64-unknown-elf snakemake slurm-wlm munge
# packages: only root may install them; nothing was installed"
  is_so "apt-get isn't called" [ ! -s "$work/calls" ]
fi

told packages
