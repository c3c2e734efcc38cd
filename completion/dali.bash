# Completes the words of dali: the first word, then a journal's path, and for init the sizes of some journals.
_dali() {
  local word=${COMP_WORDS[COMP_CWORD]}
  COMPREPLY=()
  if [ "$COMP_CWORD" -eq 1 ]; then
    mapfile -t COMPREPLY < <(compgen -W 'init day check export gen trial raise gate ship follow' -- "$word")
  elif [ "$COMP_CWORD" -eq 2 ]; then
    case ${COMP_WORDS[1]} in
      init | day | export | raise | gate | ship | follow)
        mapfile -t COMPREPLY < <(compgen -f -- "$word")
        compopt -o filenames 2> /dev/null
        ;;
    esac
  elif [ "$COMP_CWORD" -eq 3 ] && [ "${COMP_WORDS[1]}" = init ]; then
    mapfile -t COMPREPLY < <(compgen -W '1048576 67108864 1073741824' -- "$word")
  fi
}
complete -F _dali dali
