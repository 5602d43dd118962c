#compdef zkit-screen
# Completes the words of zkit-screen in zsh. tools/options.py --write makes this file of the table of options.

_arguments \
    '--seed=[Takes this seed for random numbers; without it the clock gives one]:n: ' \
    '--saves=[Keeps saved games and transcripts there; without it in the current folder]:folder:_files -/' \
    '--plain[Shows no bold and no italic letters]' \
    '(- *)--help[Shows help]' \
    '(- *)--version[Shows the version]' \
    '1:story:_files -g "(#i)*.(z3|z4|z5|z8|zblorb|zlb|blorb|blb)(-.)"'
