# Sourced by ./play, ./check and tools: asks for a Rattle kit that the proofs were made with, and whether what was built
# is of the sources as they are.
WANTED_KITS="rattle-kit-13f rattle-kit-13b"
TOP=$(cd "$(dirname "${BASH_SOURCE[0]}")/.." && pwd)

need_kit() {
  if ! command -v rt >/dev/null 2>&1; then
    echo "$1: the Rattle kit isn't there: no command 'rt' on the PATH (wanted: ${WANTED_KITS// / or }; README.md," \
      "'A first run', says from whom)" >&2
    exit 2
  fi
  local version
  version=$(rt version 2>/dev/null | head -n 1)
  case " $WANTED_KITS " in
    *" ${version%% *} "*) ;;
    *)
      echo "$1: this repository is proved with ${WANTED_KITS// / or }, and 'rt version' says: ${version:-nothing}" >&2
      exit 2
      ;;
  esac
}

sources_of() { # sources_of CRATE: the folders of its sources and of those below it
  python3 -B - "$TOP" "$1" <<'END'
import sys
from pathlib import Path

top, crate = Path(sys.argv[1]), sys.argv[2]
sys.path.insert(0, str(top / "tools"))
from wrong_bodies_lib.sums import below, listed

names = [*below(listed((top / "crates.txt").read_text()), crate), crate]
parts = [top / "crates" / name / part for name in names for part in ("src", "specs", "proofs")]
print("\n".join(str(it) for it in parts if it.is_dir()))
END
}

# is_current FILE: whether a crate's file in out/ was built of the sources as they are: none of them is newer
is_current() {
  local crate=${1##*crates/} folders
  [ -e "$1" ] || return 1
  mapfile -t folders < <(sources_of "${crate%%/*}")
  [ -z "$(find "$TOP/crates.txt" "${folders[@]}" -newer "$1" -type f -print -quit)" ]
}

python_that_builds() { # a Python that can build bindings/python: of 3.11 or later, with its headers and setuptools
  local candidate asks
  asks='import os, sys, sysconfig, setuptools
sys.exit(sys.version_info < (3, 11) or not os.path.exists(os.path.join(sysconfig.get_path("include"), "Python.h")))'
  for candidate in "${PYTHON:-python3}" /usr/bin/python3; do
    "$candidate" -c "$asks" 2>/dev/null && echo "$candidate" && return
  done
  return 1
}
