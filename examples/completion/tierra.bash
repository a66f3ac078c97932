# Completion of the words of `tierra` for bash:
#
#   source examples/completion/tierra.bash
#
# or copy it to ~/.local/share/bash-completion/completions/tierra.

# The options of an action, or all.
_tierra_options() {
  case ${1-} in
    # options: made by docs/make_tables
    grow | run | probe) echo '--quanta --workers' ;;
    bank | asm | dis) ;;
    dump) echo '--quanta' ;;
    curve | hold) echo '--quanta --every' ;;
    watch) echo '--quanta --workers --looks' ;;
    isles) echo '--quanta --workers --isles --epochs' ;;
    drill) echo '--quanta --number' ;;
    *) echo '--quanta --workers --number --every --looks --isles --epochs' ;;
    # end of options
  esac
}

_tierra() {
  # actions: made by docs/make_tables
  local actions='grow run bank probe dump curve hold watch isles drill asm dis'
  # end of actions
  local current=${COMP_WORDS[COMP_CWORD]} before=${COMP_WORDS[COMP_CWORD - 1]} action='' word options=''
  case $before in
    *'<' | *'>') return ;; # a file, as bash does it
  esac
  compopt +o default
  case " $(_tierra_options) " in
    *" $before "*) return ;;
  esac
  for word in "${COMP_WORDS[@]:1:COMP_CWORD-1}"; do
    case " $actions " in
      *" $word "*) action=$word ;;
    esac
  done
  for word in $(_tierra_options "$action"); do
    case " ${COMP_WORDS[*]} " in
      *" $word "*) ;;
      *) options+=" $word" ;;
    esac
  done
  if [ -n "$action" ] || [[ $current == -* ]]; then
    mapfile -t COMPREPLY < <(compgen -W "$options" -- "$current")
  else
    mapfile -t COMPREPLY < <(compgen -W "$actions" -- "$current")
  fi
}

complete -o default -F _tierra tierra ./tierra ../tierra
