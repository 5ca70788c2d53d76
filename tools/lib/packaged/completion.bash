# Completes dali-commission, dali-sim and dali-view in bash, by their help.
_yolgibat() {
    local call=${COMP_WORDS[0]} now=${COMP_WORDS[COMP_CWORD]} before=${COMP_WORDS[COMP_CWORD-1]} all one words
    all=$("$call" --help 2> /dev/null)
    one=$("$call" help "${COMP_WORDS[1]}" 2> /dev/null) || one=$all
    words=$(grep -oE -e '--[a-z]+(-[a-z]+)*' <<< "$one")
    [ "$COMP_CWORD" -gt 1 ] || words+=" $(sed -nE 's/^  ([a-z]+)  +[A-Z].*/\1/p' <<< "$all")"
    # Behind an option stand its choices, or files.
    case $before in
    --driver) words='adapters/daliserver adapters/simulated adapters/spi' ;;
    --*) grep -qE -e "$before [<A-Za-z]+[A-Z|]" <<< "$one" && words=$(sed -nE "s/^ *$before ([a-z]+(\|[a-z]+)+) .*/\1/p" <<< "$all") ;;
    esac
    COMPREPLY=($(compgen -W "${words//|/ }" -- "$now"))
    [ "${#COMPREPLY[@]}" -gt 0 ] || COMPREPLY=($(compgen -f -- "$now"))
}
complete -o filenames -F _yolgibat dali-commission dali_commission dali-sim dali_sim dali-view dali_view
