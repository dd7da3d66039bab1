# Completion of ckpt for bash: source docs/ckpt.bash

# The place of the program's name among the words before the one that is typed: the first that is no option. 0: none.
_ckpt_program() {
  local place
  for ((place = 1; place < COMP_CWORD; place++)); do
    [[ ${COMP_WORDS[place]} == -* ]] || { echo "$place"; return; }
  done
  echo 0
}

# Whether DIR stands among the words after the program's name: a word that is no option and no option's value.
_ckpt_has_dir() {  # _ckpt_has_dir PLACE-OF-PROGRAM
  local place
  for ((place = $1 + 1; place < COMP_CWORD; place++)); do
    case ${COMP_WORDS[place - 1]} in
      --check | --stats | --notes | --checkpoint | --at-least | --since | --space | --rounds) continue ;;
    esac
    [[ ${COMP_WORDS[place]} == -* ]] || return 0
  done
  return 1
}

# Offers the words of a list, files or folders that begin as the word that is typed.
_ckpt_offer() {  # _ckpt_offer OPTION-OF-COMPGEN..
  mapfile -t COMPREPLY < <(compgen "$@" -- "${COMP_WORDS[COMP_CWORD]}")
}

_ckpt() {
  local word=${COMP_WORDS[COMP_CWORD]} before=${COMP_WORDS[COMP_CWORD - 1]} program options=
  local programs="run shell merge mutate restore list verify history diff drop show export import send receive"
  local place
  place=$(_ckpt_program)
  COMPREPLY=()
  if [ "$place" -eq 0 ]; then
    _ckpt_offer -W "$programs help --quiet --verbose --help --version"
    return
  fi
  program=${COMP_WORDS[place]}
  case $program in
    run) options="--restore --strict --stats --summary --check" ;;
    show | list | history | diff) options="--json" ;;
    restore) options="--checkpoint --json" ;;
    verify) options="--checkpoint --at-least --json" ;;
    export) options="--checkpoint --force --notes --space" ;;
    drop) options="--force" ;;
    send) options="--follow --json --since" ;;
    receive) options="--json --tip" ;;
    import) options="--rounds --space --stats --summary" ;;
    merge) options="--stats --summary" ;;
    help)
      _ckpt_offer -W "$programs"
      return
      ;;
  esac
  case $before in
    --stats | --notes | --check) _ckpt_offer -f; return ;;
    --checkpoint | --at-least | --since | --space | --rounds) return ;;
  esac
  if [[ $word == -* ]]; then
    _ckpt_offer -W "$options --quiet --verbose --help"
    return
  fi
  if ! _ckpt_has_dir "$place"; then
    _ckpt_offer -d
    return
  fi
  # After DIR come files, a folder, numbers or nothing.
  case $program in
    run | import) _ckpt_offer -f ;;
    export) _ckpt_offer -d ;;
  esac
}

complete -o filenames -F _ckpt ckpt
