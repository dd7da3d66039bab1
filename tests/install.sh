# ./install: what it puts in place works from there, and all of it is taken away again; and so as a Debian package.

# Checks that program, man page, completion and client of a prefix are found and work, without the Rattle kit.
works_from() {  # works_from PREFIX FOLDER-OF-PYTHON-MODULES
  local path=$1/bin:/usr/bin:/bin
  same "the version" "$(env -i PATH="$path" ckpt --version)" "$("$ckpt" --version)" || return 1
  if command -v man > found; then
    same "the man page" "$(MANPATH=$1/share/man man -w ckpt)" "$1/share/man/man1/ckpt.1" || return 1
  fi
  same "its text" "$(cat "$1/share/man/man1/ckpt.1")" "$(cat "$here/../docs/ckpt.1")" || return 1
  same "the completion" "$(bash -c ". '$1/share/bash-completion/completions/ckpt' && complete -p ckpt")" \
    "complete -o filenames -F _ckpt ckpt" || return 1
  same "the client" "$(cd / && PYTHONPATH=$2 python3 -B -c 'import devontsira; print(devontsira.__file__)')" \
    "$2/devontsira/__init__.py" || return 1
  case $("$ckpt" --version) in
    "ckpt "*) saves_by_client "$path" "$2" ;;
  esac
}

# The client makes a checkpoint by the program that is on the PATH.
saves_by_client() {  # saves_by_client PATH FOLDER-OF-PYTHON-MODULES
  rm -rf saved
  same "what the client saved" "$(env -i PATH="$1" PYTHONPATH="$2" python3 -B - << 'PYTHON'
import devontsira
with devontsira.open("saved") as store:
    store.mmap(1, 0x10000, 4096, "rw")
    store.write(1, 0x10000, b"hello")
    print(store.checkpoint())
PYTHON
)" 1
}

# Where the client for Python stands below a prefix.
modules_of() {  # modules_of PREFIX
  dirname "$(dirname "$(find "$1" -path '*/devontsira/__init__.py')")"
}

installs_and_uninstalls() {
  needs_python || return
  local prefix
  mkdir home
  prefix=$(realpath -m home/.local)
  HOME=$(realpath home) "$here/../install" --program "$ckpt" > told || { cat told; return 1; }
  has "what was installed" "$(cat told)" "in $prefix" || return 1
  works_from "$prefix" "$(modules_of "$prefix")" || return 1
  PYTHONPATH=$(modules_of "$prefix") python3 -c 'import devontsira' || return 1
  HOME=$(realpath home) "$here/../install" --program "$ckpt" > told || { cat told; return 1; }
  HOME=$(realpath home) "$here/../install" --uninstall || return 1
  same "what is left" "$(find home -mindepth 1)" "" || return 1
  ends_with 1 "" "install: nothing is installed in $prefix" "$here/../install" --uninstall "$prefix" || return 1
  "$here/../install" --program "$ckpt" home/a/b > told || { cat told; return 1; }
  "$here/../install" --uninstall home/a/b || return 1
  same "what is left of a deep prefix" "$(find home -mindepth 1)" ""
}

installs_beside_files_of_others() {
  needs_python || return
  mkdir -p own/bin own/share/man
  echo mine > own/bin/other
  "$here/../install" --program "$ckpt" own > told || { cat told; return 1; }
  "$here/../install" --uninstall own || return 1
  same "what is left" "$(cd own && find . -mindepth 1 | sort | tr '\n' ' ')" "./bin ./bin/other ./share ./share/man " \
    || return 1
  echo mine > own/bin/ckpt
  ends_with 1 "" "install: $(realpath own)/bin/ckpt is there, and wasn't installed by this" \
    "$here/../install" --program "$ckpt" own || return 1
  same "the file of another" "$(cat own/bin/ckpt)" mine || return 1
  same "what else is there" "$(find own -type f | sort | tr '\n' ' ')" "own/bin/ckpt own/bin/other "
}

install_reports_what_is_missing() {
  ends_with 1 "" "install: $(realpath .)/missing: no program" "$here/../install" --program missing own || return 1
  [ ! -e own ] || { echo "a prefix was made"; return 1; }
  same "the status of an option that isn't there" "$(ends "$here/../install" --unknown)" 2 || return 1
  has "its cause" "$(cat err)" "install: usage: ./install "
}

debian_package_has_the_same() {
  needs_python || return
  command -v dpkg-deb > found || { echo "needs dpkg-deb"; return 77; }
  "$here/../install" --program "$ckpt" --deb devontsira.deb > told 2>&1 || { cat told; return 1; }
  dpkg-deb -x devontsira.deb tree || return 1
  works_from "$(realpath tree/usr)" "$(realpath tree/usr/lib/python3/dist-packages)" || return 1
  "$here/../install" --program "$ckpt" own > told || { cat told; return 1; }
  same "the files" "$(find tree/usr -type f | sed -E 's|^tree/usr/||; s|lib/python3/dist-packages||' | sort)" \
    "$(find own -type f ! -name installed | sed -E 's|^own/||; s|lib/python[0-9.]+/site-packages||' | sort)" || return 1
  same "the version" "$(dpkg-deb -f devontsira.deb Version)" \
    "$(sed -nE 's/^## ([0-9.]+),.*/\1/p' "$here/../docs/CHANGELOG.md" | head -n 1)"
}

try installs_and_uninstalls
try installs_beside_files_of_others
try install_reports_what_is_missing
try debian_package_has_the_same
