# Completion for bash of the words that safetynet takes.
#
# Source this file, or put it under the name `safetynet` where bash-completion looks for it, as `./safetynet install` does. Its words are
# those of the program's pages, and the gate holds them against these. It needs no other file.

# Of each command what stands behind its options, and the options: one that ends with = takes a value.
declare -gA _safetynet_operands=(
  [replay]='PROGRAM SCRIPT'
  [drive]='PROGRAM'
  [roll]='PROGRAM SCRIPT CONTROL'
  [save]='PROGRAM SCRIPT'
  [resume]='PROGRAM SAVE SCRIPT'
  [run]='PROGRAM'
  [monitor]='PROGRAM'
  [check]='PROGRAM TRACE'
  [judge]='ACCESSES'
  [demo]='SIZE'
  [asm]='TEXT'
  [dis]='PROGRAM'
)
declare -gA _safetynet_options=(
  [replay]='--nodes= --sets= --ways= --log= --watch= --only= --trace --states --statistics --accesses'
  [drive]='--nodes= --sets= --ways= --log= --watch= --states'
  [roll]='--nodes= --sets= --ways= --log= --watch='
  [save]='--nodes= --sets= --ways= --log='
  [resume]='--watch='
  [run]='--nodes= --sets= --ways= --log= --interval= --wait= --budget= --lose-every= --kill= --seed= --order= --watch= --trace --journal --accesses --statistics --seeds='
  [monitor]='--nodes= --sets= --ways= --log= --interval= --wait= --budget= --lose-every= --kill= --seed= --watch='
  [check]='--nodes='
  [judge]=''
  [demo]=''
  [asm]=''
  [dis]=''
)
_safetynet_topics='events formats statuses'

# Offers those of some words that begin like the one at the cursor.
_safetynet_offer() { # the word at the cursor, the words, what the cursor's word has before the part that is completed
  mapfile -t COMPREPLY < <(compgen -P "${3-}" -W "$2" -- "$1")
}

# Offers an option's values, where they are few.
_safetynet_offer_values() { # option, the value's beginning, what stands before it in the cursor's word
  case $1 in
    --nodes | --ways) _safetynet_offer "$2" "$(echo {1..16})" "${3-}" ;;
    --order) _safetynet_offer "$2" 'threads round drawn' "${3-}" ;;
  esac
}

# Offers the options of a command that weren't given, and calls for its page where nothing was.
_safetynet_offer_options() { # the word at the cursor, command, the words between
  local option offered=() given=" ${*:3} "
  for option in ${_safetynet_options[$2]}; do
    # a report has the trace, the journal, the states, the statistics or the accesses
    [[ $option == --@(trace|journal|states|statistics|accesses) && $given == *' --'@(trace|journal|states|statistics|accesses)' '* ]] && continue
    [[ $given == *" ${option%=}"[\ =]* ]] || offered+=("${option%=}")
  done
  [ $# -gt 2 ] || offered+=(--help -h --version)
  _safetynet_offer "$1" "${offered[*]}"
}

# Offers files where the next operand is one.
_safetynet_offer_operand() { # the word at the cursor, command, the words between
  local word skips='' place=0 operands
  read -ra operands <<<"${_safetynet_operands[$2]}"
  for word in "${@:3}"; do
    if [ "$skips" ]; then
      skips=''
    elif [[ $word == --* ]]; then
      [[ " ${_safetynet_options[$2]} " != *" $word= "* ]] || skips=1
    else
      place=$((place + 1))
    fi
  done
  [ "${operands[place]-SIZE}" != SIZE ] || return 0
  mapfile -t COMPREPLY < <(compgen -f -- "$1")
  # outside of a completion this says so
  compopt -o filenames 2>/dev/null
}

_safetynet() {
  local words=() word cursor command before=''
  COMPREPLY=()
  # bash parts an option from its value at `=`
  for word in "${COMP_WORDS[@]:1:COMP_CWORD}"; do
    if [ ${#words[@]} -gt 0 ] && [[ $word == = || ${words[-1]} == --*= ]]; then
      words[-1]+=$word
    else
      words+=("$word")
    fi
  done
  cursor=${words[-1]-} command=${words[0]-}
  [ ${#words[@]} -le 1 ] || before=${words[-2]}
  if [ ${#words[@]} -le 1 ]; then
    _safetynet_offer "$cursor" "${!_safetynet_operands[*]} help --help -h --version"
  elif [ "$command" = help ]; then
    [ ${#words[@]} -gt 2 ] || _safetynet_offer "$cursor" "${!_safetynet_operands[*]} $_safetynet_topics"
  elif [ "${_safetynet_operands[$command]-}" ]; then
    if [[ $cursor == --*=* ]]; then
      # the value alone is the cursor's word, but where bash parts no words at `=`
      [[ ${COMP_WORDS[COMP_CWORD]} == --* ]] && word=${cursor%%=*}= || word=''
      _safetynet_offer_values "${cursor%%=*}" "${cursor#*=}" "$word"
    elif [[ " ${_safetynet_options[$command]} " == *" $before= "* ]]; then
      _safetynet_offer_values "$before" "$cursor"
    elif [[ $cursor == -* ]]; then
      _safetynet_offer_options "$cursor" "$command" "${words[@]:1:${#words[@]}-2}"
    else
      _safetynet_offer_operand "$cursor" "$command" "${words[@]:1:${#words[@]}-2}"
    fi
  fi
}

complete -F _safetynet safetynet
