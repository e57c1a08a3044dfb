# Completions of panad for bash.

_panad_options() {
  case $1 in
    run) printf '%s\n' --journal --log --patience --stale --help ;;
    show) printf '%s\n' --journal --log --patience --port --family --split --help ;;
    status) printf '%s\n' --journal --log --patience --port --all --quiet --json --help ;;
    may-overwrite) printf '%s\n' --journal --log --patience --port --by --help ;;
    why) printf '%s\n' --journal --log --patience --port --help ;;
    history) printf '%s\n' --journal --log --patience --port --svg --help ;;
    watch) printf '%s\n' --port --from --help ;;
    report) printf '%s\n' --journal --log --patience --port --by --sum --heir --help ;;
    log) printf '%s\n' --from --to --patience --help ;;
    load | compare) printf '%s\n' --help ;;
    scan) printf '%s\n' --verbose --help ;;
    track) printf '%s\n' --journal --log --patience --port --sums --empty --ignore --read-all --one-file-system --verbose --quiet --json --help ;;
    serve)
      printf '%s\n' --port --sessions --journal --log --patience --stale --track --every --ignore --one-file-system --hurry --idle --help
      ;;
  esac
}

_panad_reports='register duplicate edit reconcile merge relocate remove note confirm withdraw found missing'

_panad() {
  local word=${COMP_WORDS[COMP_CWORD]} before=${COMP_WORDS[COMP_CWORD - 1]} command=${COMP_WORDS[1]}
  COMPREPLY=()
  # Of DEVICE=DIR bash makes three words.
  [ "$word" != = ] || before== word=
  if [ "$COMP_CWORD" -eq 1 ]; then
    mapfile -t COMPREPLY < <(compgen -W 'run show load scan compare track status may-overwrite why history report watch serve log --help --version' -- "$word")
    return
  fi
  case $before in
    --journal | --sums | --svg | --to)
      mapfile -t COMPREPLY < <(compgen -f -- "$word")
      return
      ;;
    =)
      mapfile -t COMPREPLY < <(compgen -d -- "$word")
      return
      ;;
    --log | --patience | --port | --sessions | --every | --ignore | --hurry | --idle | --by | --sum | --heir | --family | --from) return ;;
  esac
  if [[ $word == -* ]]; then
    mapfile -t COMPREPLY < <(compgen -W "$(_panad_options "$command")" -- "$word")
  elif [ "$command" = show ] || [ "$command" = load ]; then
    mapfile -t COMPREPLY < <(compgen -f -- "$word")
  elif [ "$command" = log ] && [ "$COMP_CWORD" -eq 2 ]; then
    mapfile -t COMPREPLY < <(compgen -W copy -- "$word")
  elif [ "$command" = report ] && [ "$COMP_CWORD" -eq 2 ]; then
    mapfile -t COMPREPLY < <(compgen -W "$_panad_reports" -- "$word")
  elif [ "$command" = scan ] && [ "$COMP_CWORD" -eq 3 ]; then
    mapfile -t COMPREPLY < <(compgen -d -- "$word")
  fi
}

complete -o filenames -F _panad panad
