# Completes the words of rollgorge in bash. Made by .ci/words.
_rollgorge() {
  local word=${COMP_WORDS[COMP_CWORD]}
  COMPREPLY=()
  case ${COMP_WORDS[COMP_CWORD - 1]} in
    --sp-file) COMPREPLY=($(compgen -f -X '!*.cocci' -- "$word") $(compgen -d -- "$word")); return ;;
    --unread) COMPREPLY=($(compgen -W 'all needed none' -- "$word")); return ;;
    --iso-file) COMPREPLY=($(compgen -f -X '!*.iso' -- "$word") $(compgen -d -- "$word")); return ;;
    --define) COMPREPLY=(); return ;;
    --jobs) COMPREPLY=(); return ;;
    --generate) COMPREPLY=(); return ;;
    --functions) COMPREPLY=(); return ;;
  esac
  case $word in
    -*) COMPREPLY=($(compgen -W '--sp-file --in-place --tidy --witnesses --check --quiet --unread --iso-file --define --jobs --generate --functions --help --version' -- "$word")) ;;
    *) COMPREPLY=($(compgen -f -X '!*.[ch]' -- "$word") $(compgen -d -- "$word")) ;;
  esac
}
complete -o filenames -F _rollgorge rollgorge
