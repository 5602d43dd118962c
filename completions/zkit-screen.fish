# Completes the words of zkit-screen in fish. tools/options.py --write makes this file of the table of options.

# Prints folders, and the files with some endings, or all files if there are none of these.
function __zkit_screen_files
    set -l all (complete -C "__fish_command_without_completions "(commandline -ct) | string replace -r '\t.*' '')
    set -l meant (string match -ri "^.*\.(?:$argv[1])\$" -- $all)
    set -q meant[1]; and printf '%s\n' $meant (string match '*/' -- $all); or printf '%s\n' $all
end

complete -c zkit-screen -f
complete -c zkit-screen -l seed -x -d 'Takes this seed for random numbers; without it the clock gives one'
complete -c zkit-screen -l saves -x -a '(__fish_complete_directories)' -d 'Keeps saved games and transcripts there; without it in the current folder'
complete -c zkit-screen -l plain -d 'Shows no bold and no italic letters'
complete -c zkit-screen -l help -d 'Shows help'
complete -c zkit-screen -l version -d 'Shows the version'
complete -c zkit-screen -a '(__zkit_screen_files "z3|z4|z5|z8|zblorb|zlb|blorb|blb")'
