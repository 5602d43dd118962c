#compdef zkit
# Completes the words of zkit in zsh. tools/options.py --write makes this file of the table of options.

local context state state_descr line
typeset -A opt_args
local -a commands=(
    'play:Plays a story'
    'info:Lists the tables of stories; without an option, their headers'
    'disasm:Disassembles the code reachable from the start'
    'check:Checks stories for damage and mistakes, and ends with status 6 if it finds any'
    'test:Plays walkthroughs and compares the output with their transcripts'
    'cover:Tells what plays have run, by coverage files'
    'page:Makes a page for browsers that plays a story'
    'unpack:Takes the story out of a Blorb file'
    'help:Shows help'
)
_arguments -C '(- *)--help[Shows help]' '(- *)--version[Shows the version]' '1: :->command' '*:: :->words' && return
if [[ $state = command ]]; then
    _describe -t commands command commands
    return
fi
case $words[1] in
    play)
        _arguments \
            '--frames=[The most routines that may be open at once, 1 to 65535]:n: ' \
            '--words=[The most words that the open routines may hold, 0 to 65535]:n: ' \
            '--undo=[How many undo states are kept, 0 to 64]:n: ' \
            '--steps=[The most instructions a story may run between two inputs, 1 to 1000000000]:n: ' \
            '--seed=[Seed for random numbers, 0 to 18446744073709551615; any takes one from the clock]:n|any:(any)' \
            '--save=[Saves to and restores from this file, which each save overwrites]:file:_files' \
            '--saves=[Keeps saved games in this folder, and asks for a name each time]:folder:_files -/' \
            '--script=[Writes the story'\''s transcript to this file, emptied first]:file:_files' \
            '--upper[Shows the status line and the upper window, on lines of their own]' \
            '--boxes[Shows the status line and the upper window above the prompt, including quotation boxes]' \
            '--width=[Wraps lines at this many columns, 20 to 255; auto uses the terminal'\''s width]:n|auto:(auto)' \
            '--page=[Pauses after this many lines at a terminal, 2 to 1000; auto fits its height]:n|auto:(auto)' \
            '--styles[Shows bold, italic and reverse text at a terminal]' \
            '--echo[Repeats each line of input, for input from a pipe]' \
            '--record=[Records the commands to this file as a walkthrough, emptied first]:file:_files' \
            '--calls[Prints the call stack after a fault or limit]' \
            '--cover=[Adds the addresses of executed instructions to this coverage file]:file:_files' \
            '--names=[Takes names and lines of the source from this debugging file, which `inform6 -k` writes]:file:_files' \
            '(- *)--help[Shows help]' \
            '1:story:_files -g "(#i)*.(z3|z4|z5|z8|zblorb|zlb|blorb|blb)(-.)"'
        ;;
    info)
        _arguments \
            '--header[Lists the header]' \
            '--map[Lists where the parts of the story begin]' \
            '--abbreviations[Lists the abbreviations]' \
            '--dictionary[Lists the words of the dictionary]' \
            '--objects[Lists the objects with their properties]' \
            '--tree[Lists the tree of objects]' \
            '--ifid[Lists the IFID, by which catalogues name the story]' \
            '--strings[Lists the strings in high memory]' \
            '--properties[Lists the properties of the objects with their bytes]' \
            '--globals[Lists the global variables with their first values]' \
            '--alphabets[Lists the letters of the alphabets, and the extra characters]' \
            '--extension[Lists the header extension table]' \
            '--names=[Takes names and lines of the source from this debugging file, which `inform6 -k` writes]:file:_files' \
            '--notes[Adds explanations]' \
            '--graph[Prints the tree of objects as a Graphviz graph]' \
            '--svg[Prints the map as an SVG picture]' \
            '--rows[Prints tab-separated rows, one fact a line, the path first]' \
            '--json[Prints one JSON object a story, each on a line]' \
            '--recursive[Searches folders, and the folders in them]' \
            '--files-from=[Reads paths from this file, or from standard input for -, separated by new lines or zero bytes]:file:_files' \
            '(- *)--help[Shows help]' \
            '*:story:_files -g "(#i)*.(z3|z4|z5|z8|zblorb|zlb|blorb|blb)(-.)"'
        ;;
    disasm)
        _arguments \
            '--all[Also lists unreached routines]' \
            '*--at=[Also disassembles from the instruction at this byte address; with --names, at this FILE\:LINE]:address: ' \
            '*--routine=[Also disassembles the routine at this byte address; with --names, of this name]:address: ' \
            '--only[Lists only the routines that --routine names, or that have an instruction of --at]' \
            '--cover=[Also disassembles from the addresses in this coverage file, and marks them]:file:_files' \
            '--names=[Takes names and lines of the source from this debugging file, which `inform6 -k` writes]:file:_files' \
            '*--source=[Shows the lines of the source, from the files in this folder; needs --names]:folder:_files -/' \
            '--callers[Heads each routine with the instructions that call it]' \
            '--notes[Adds explanations]' \
            '--graph[Prints the call graph, for Graphviz]' \
            '--around=[With --graph, draws only this routine, what calls it and what it calls]:routine: ' \
            '--depth=[How many calls away --around goes, 1 to 99; without this option 1]:n: ' \
            '(- *)--help[Shows help]' \
            '1:story:_files -g "(#i)*.(z3|z4|z5|z8|zblorb|zlb|blorb|blb)(-.)"'
        ;;
    check)
        _arguments \
            '--names=[Takes names and lines of the source from this debugging file, which `inform6 -k` writes]:file:_files' \
            '--notes[Adds explanations]' \
            '--summary[Adds a count of all findings, by kind]' \
            '--rows[Prints tab-separated rows, one fact a line, the path first]' \
            '--json[Prints one JSON object a story, each on a line]' \
            '--recursive[Searches folders, and the folders in them]' \
            '--files-from=[Reads paths from this file, or from standard input for -, separated by new lines or zero bytes]:file:_files' \
            '(- *)--help[Shows help]' \
            '*:story:_files -g "(#i)*.(z3|z4|z5|z8|zblorb|zlb|blorb|blb)(-.)"'
        ;;
    test)
        _arguments \
            '--files-from=[Reads paths from this file, or from standard input for -, separated by new lines or zero bytes]:file:_files' \
            '--story=[Default story, for walkthroughs that name none]:file:_files' \
            '--bless[Writes the expected transcripts instead of comparing them]' \
            '--cover=[Adds the addresses of executed instructions to this coverage file]:file:_files' \
            '--names=[Takes names and lines of the source from this debugging file, which `inform6 -k` writes]:file:_files' \
            '--strict[Plays once more, slowly, and fails at accesses outside arrays and other misuses]' \
            '(- *)--help[Shows help]' \
            '*:path:_files -g "(#i)*.(walkthrough)(-.)"'
        ;;
    cover)
        _arguments \
            '--names=[Takes names and lines of the source from this debugging file, which `inform6 -k` writes]:file:_files' \
            '*--source=[Looks for the files of the source in this folder]:folder:_files -/' \
            '--lcov=[Writes the coverage to this file, for lcov]:file:_files' \
            '--html=[Writes the coverage to this file, as a page for browsers]:file:_files' \
            '(- *)--help[Shows help]' \
            '*:cover... story:_files -g "(#i)*.(txt|z3|z4|z5|z8|zblorb|zlb|blorb|blb)(-.)"'
        ;;
    page)
        _arguments \
            '--title=[The story'\''s title]:text: ' \
            '--author=[Who wrote the story]:text: ' \
            '--blurb=[Shows the text of this file before the story begins]:file:_files' \
            '--cover=[Shows this picture, PNG or JPEG, before the story begins]:file:_files' \
            '--walkthrough=[Offers to play the commands of this file]:file:_files' \
            '(- *)--help[Shows help]' \
            '*:story out:_files -g "(#i)*.(z3|z4|z5|z8|zblorb|zlb|blorb|blb|html)(-.)"'
        ;;
    unpack)
        _arguments \
            '(- *)--help[Shows help]' \
            '*:file:_files -g "(#i)*.(zblorb|zlb|blorb|blb)(-.)"'
        ;;
    help) _describe -t commands command commands ;;
esac
