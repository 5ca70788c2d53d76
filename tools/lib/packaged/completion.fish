# Completes dali-commission, dali-sim and dali-view in fish, by their help.
function __yolgibat
    set -l words (commandline -opc)
    set -l all ($words[1] --help)
    test (count $words) -gt 1; or string match -rg '^  ([a-z]+)  +[A-Z]' $all
    set -l one ($words[1] help $words[2] 2> /dev/null); or set one $all
    string match -rga -- '(--[a-z]+(?:-[a-z]+)*)' $one
end
for name in dali-commission dali_commission dali-sim dali_sim dali-view dali_view
    complete -c $name -a '(__yolgibat)'
end
