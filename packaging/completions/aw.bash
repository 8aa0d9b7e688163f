# Completions of bash for aw(1) and the programs beside it.
_aw() {
  local word=${COMP_WORDS[COMP_CWORD]} command=${COMP_WORDS[1]}
  if [ "$COMP_CWORD" -eq 1 ]; then
    mapfile -t COMPREPLY < <(compgen -W "check replay plain trial node courier" -- "$word")
  elif [ "$command" = node ] && [ "$COMP_CWORD" -eq 4 ]; then
    mapfile -t COMPREPLY < <(compgen -W "kept" -- "$word")
  fi
}
_aw_companion() {
  local word=${COMP_WORDS[COMP_CWORD]} options
  case ${COMP_WORDS[0]##*/} in
    aw_post) options="--office --at --broker --from --metrics --interval --longest --timeout --help --version" ;;
    aw_guard) options="--node --idle --session --peers --systems --help --version" ;;
    aw_desk) options="--listen --node --logins --journals --without --systems --help --version" ;;
    aw_desk_tty) options="--node --systems --clerk --help --version" ;;
    *) options="--help --version" ;;
  esac
  case $word in
    -*) mapfile -t COMPREPLY < <(compgen -W "$options" -- "$word") ;;
    *) mapfile -t COMPREPLY < <(compgen -f -- "$word") ;;
  esac
}
_aw_book() {
  local word=${COMP_WORDS[COMP_CWORD]}
  if [ "$COMP_CWORD" -eq 1 ]; then
    mapfile -t COMPREPLY < <(compgen -W "spec check events tasks join cases --help --version" -- "$word")
  elif [[ $word == -* ]]; then
    mapfile -t COMPREPLY < <(compgen -W "--digest --redo --begins-with --open --case --follow --settled --without --first --reach --help" -- "$word")
  else
    mapfile -t COMPREPLY < <(compgen -f -- "$word")
  fi
}
complete -F _aw aw
complete -o filenames -F _aw_book aw_book
complete -o filenames -F _aw_companion aw_post aw_guard aw_carry_over aw_explain aw_lint aw_draw aw_fmt aw_desk aw_desk_tty
