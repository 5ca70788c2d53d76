#compdef dali-commission dali_commission dali-sim dali_sim dali-view dali_view
# Completes them in zsh, by their help.
local all one
local -a found
all=$($words[1] --help 2> /dev/null)
one=$($words[1] help $words[2] 2> /dev/null) || one=$all
(( CURRENT > 2 )) || found=($(sed -nE 's/^  ([a-z]+)  +[A-Z].*/\1/p' <<< $all))
compadd -- $found $(grep -oE -e '--[a-z]+(-[a-z]+)*' <<< $one)
_files
