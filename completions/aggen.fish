# Completions of aggen for fish. tools/completions makes this file from the program's help.

# __aggen_is_at COMMAND [NUMBER]: whether the words before the cursor have this command, and this number of its arguments
function __aggen_is_at
    set -l words (commandline -opc)
    set -e words[1]
    set -l command ''
    set -l place 0
    set -l is_value no
    for word in $words
        if test $is_value = yes
            set is_value no
        else if string match -q -- '-?*' $word
            if contains -- "$command$word" --color run--color run-o run--output run--out-dir run--work eval--color eval-o eval--output eval--work value--color check--color check--most plan--color plan--most why--color code--color parse--color show--color show--depth show--node show--only show--width explain--color explain--node explain--width explain--sentence explain--at upgrade--color
                set is_value yes
            end
        else if test -z "$command"
            set command $word
        else
            set place (math $place + 1)
        end
    end
    test "$command" = "$argv[1]"
    and begin
        test (count $argv) -lt 2
        or test $place = $argv[2]
    end
end

complete -c aggen -f
complete -c aggen -n "__aggen_is_at ''" -a run -d 'Translates a sentence by a grammar, and prints the translation with no newline added'
complete -c aggen -n "__aggen_is_at ''" -a eval -d 'Translates the tree in a tree file that `parse` wrote, and prints the translation'
complete -c aggen -n "__aggen_is_at ''" -a value -d 'Computes an expression, and prints its value'
complete -c aggen -n "__aggen_is_at ''" -a check -d 'Checks a grammar, and prints the number of its symbols and of its productions'
complete -c aggen -n "__aggen_is_at ''" -a plan -d 'Prints the passes that a grammar needs, and the attributes that each of them computes'
complete -c aggen -n "__aggen_is_at ''" -a why -d 'Prints why a grammar needs each of its passes, rule by rule'
complete -c aggen -n "__aggen_is_at ''" -a code -d 'Prints the instructions that each pass executes at a node of each production'
complete -c aggen -n "__aggen_is_at ''" -a parse -d 'Parses a sentence, writes its tree to a tree file, and prints the number of nodes'
complete -c aggen -n "__aggen_is_at ''" -a show -d 'Prints the tree in a tree file, a line for each node with its production and its values'
complete -c aggen -n "__aggen_is_at ''" -a explain -d 'Prints which rule computed each value of a node in a tree file, and what the rule used'
complete -c aggen -n "__aggen_is_at ''" -a upgrade -d 'Converts a tree file of version 1 to version 2, and prints the number of nodes'
complete -c aggen -n "__aggen_is_at ''" -a help -d 'Print this message or the help of the given subcommand(s)'
complete -c aggen -n "__aggen_is_at ''" -l color -x -a 'auto always never' -d 'Marks the number and the place in messages; without it, on a terminal only'
complete -c aggen -n "__aggen_is_at ''" -s q -l quiet -d 'Shows no progress, and prints no refusal but those of the command line'
complete -c aggen -n "__aggen_is_at ''" -s h -l help -d 'Print help'
complete -c aggen -n "__aggen_is_at ''" -s V -l version -d 'Print version'
complete -c aggen -n "__aggen_is_at 'run'" -l color -x -a 'auto always never' -d 'Marks the number and the place in messages; without it, on a terminal only'
complete -c aggen -n "__aggen_is_at 'run'" -s o -l output -r -F -d 'Writes the translation to FILE, and only a whole one; `-` is standard output'
complete -c aggen -n "__aggen_is_at 'run'" -l out-dir -x -a '(__fish_complete_directories)' -d 'Writes the translation of each PATH/NAME to NAME.out in the existing folder DIR'
complete -c aggen -n "__aggen_is_at 'run'" -s q -l quiet -d 'Shows no progress, and prints no refusal but those of the command line'
complete -c aggen -n "__aggen_is_at 'run'" -l work -x -a '(__fish_complete_directories)' -d 'Writes the tree files a.agt and b.agt to the existing folder DIR, and keeps them'
complete -c aggen -n "__aggen_is_at 'run'" -s h -l help -d 'Print help'
complete -c aggen -n '__aggen_is_at run 0' -k -a '(__fish_complete_suffix .ag)'
complete -c aggen -n '__aggen_is_at run' -F
complete -c aggen -n "__aggen_is_at 'eval'" -l color -x -a 'auto always never' -d 'Marks the number and the place in messages; without it, on a terminal only'
complete -c aggen -n "__aggen_is_at 'eval'" -s o -l output -r -F -d 'Writes the translation to FILE, and only a whole one; `-` is standard output'
complete -c aggen -n "__aggen_is_at 'eval'" -s q -l quiet -d 'Shows no progress, and prints no refusal but those of the command line'
complete -c aggen -n "__aggen_is_at 'eval'" -l work -x -a '(__fish_complete_directories)' -d 'Writes the tree files a.agt and b.agt to the existing folder DIR, and keeps them'
complete -c aggen -n "__aggen_is_at 'eval'" -s h -l help -d 'Print help'
complete -c aggen -n '__aggen_is_at eval 0' -k -a '(__fish_complete_suffix .ag)'
complete -c aggen -n '__aggen_is_at eval 1' -F
complete -c aggen -n "__aggen_is_at 'value'" -l color -x -a 'auto always never' -d 'Marks the number and the place in messages; without it, on a terminal only'
complete -c aggen -n "__aggen_is_at 'value'" -s q -l quiet -d 'Shows no progress, and prints no refusal but those of the command line'
complete -c aggen -n "__aggen_is_at 'value'" -s h -l help -d 'Print help'
complete -c aggen -n "__aggen_is_at 'check'" -l all -d 'Lists all faults of the grammar, not only the first'
complete -c aggen -n "__aggen_is_at 'check'" -l color -x -a 'auto always never' -d 'Marks the number and the place in messages; without it, on a terminal only'
complete -c aggen -n "__aggen_is_at 'check'" -l most -x -d 'Lists at most N faults, 100 without it'
complete -c aggen -n "__aggen_is_at 'check'" -s q -l quiet -d 'Shows no progress, and prints no refusal but those of the command line'
complete -c aggen -n "__aggen_is_at 'check'" -l json -d 'Prints each fault as a JSON object in one line, on standard output'
complete -c aggen -n "__aggen_is_at 'check'" -s h -l help -d 'Print help'
complete -c aggen -n '__aggen_is_at check 0' -k -a '(__fish_complete_suffix .ag)'
complete -c aggen -n "__aggen_is_at 'plan'" -l all -d 'Lists all faults of the grammar, not only the first'
complete -c aggen -n "__aggen_is_at 'plan'" -l color -x -a 'auto always never' -d 'Marks the number and the place in messages; without it, on a terminal only'
complete -c aggen -n "__aggen_is_at 'plan'" -l most -x -d 'Lists at most N faults, 100 without it'
complete -c aggen -n "__aggen_is_at 'plan'" -s q -l quiet -d 'Shows no progress, and prints no refusal but those of the command line'
complete -c aggen -n "__aggen_is_at 'plan'" -l json -d 'Prints each fault as a JSON object in one line, on standard output'
complete -c aggen -n "__aggen_is_at 'plan'" -s h -l help -d 'Print help'
complete -c aggen -n '__aggen_is_at plan 0' -k -a '(__fish_complete_suffix .ag)'
complete -c aggen -n "__aggen_is_at 'why'" -l color -x -a 'auto always never' -d 'Marks the number and the place in messages; without it, on a terminal only'
complete -c aggen -n "__aggen_is_at 'why'" -s q -l quiet -d 'Shows no progress, and prints no refusal but those of the command line'
complete -c aggen -n "__aggen_is_at 'why'" -s h -l help -d 'Print help'
complete -c aggen -n '__aggen_is_at why 0' -k -a '(__fish_complete_suffix .ag)'
complete -c aggen -n "__aggen_is_at 'code'" -l color -x -a 'auto always never' -d 'Marks the number and the place in messages; without it, on a terminal only'
complete -c aggen -n "__aggen_is_at 'code'" -s q -l quiet -d 'Shows no progress, and prints no refusal but those of the command line'
complete -c aggen -n "__aggen_is_at 'code'" -s h -l help -d 'Print help'
complete -c aggen -n '__aggen_is_at code 0' -k -a '(__fish_complete_suffix .ag)'
complete -c aggen -n "__aggen_is_at 'parse'" -l color -x -a 'auto always never' -d 'Marks the number and the place in messages; without it, on a terminal only'
complete -c aggen -n "__aggen_is_at 'parse'" -s q -l quiet -d 'Shows no progress, and prints no refusal but those of the command line'
complete -c aggen -n "__aggen_is_at 'parse'" -s h -l help -d 'Print help'
complete -c aggen -n '__aggen_is_at parse 0' -k -a '(__fish_complete_suffix .ag)'
complete -c aggen -n '__aggen_is_at parse 1' -F
complete -c aggen -n '__aggen_is_at parse 2' -F
complete -c aggen -n "__aggen_is_at 'show'" -l color -x -a 'auto always never' -d 'Marks the number and the place in messages; without it, on a terminal only'
complete -c aggen -n "__aggen_is_at 'show'" -l depth -x -d 'Prints only N levels; a node whose children are left out gets the number of nodes below it'
complete -c aggen -n "__aggen_is_at 'show'" -l node -x -d 'The node at this path: `/2/1` is the first child of the root\'s second child, `/1*9` nine times the first'
complete -c aggen -n "__aggen_is_at 'show'" -s q -l quiet -d 'Shows no progress, and prints no refusal but those of the command line'
complete -c aggen -n "__aggen_is_at 'show'" -l only -x -d 'Prints only this attribute, and only nodes that have it; can be repeated'
complete -c aggen -n "__aggen_is_at 'show'" -l width -x -d 'Prints at most N characters of a value, 60 without it; 0 prints whole values. Numbers are printed whole'
complete -c aggen -n "__aggen_is_at 'show'" -l json -d 'Prints each node as a JSON object in one line, with whole values'
complete -c aggen -n "__aggen_is_at 'show'" -s h -l help -d 'Print help'
complete -c aggen -n '__aggen_is_at show 0' -k -a '(__fish_complete_suffix .ag)'
complete -c aggen -n '__aggen_is_at show 1' -F
complete -c aggen -n "__aggen_is_at 'explain'" -l color -x -a 'auto always never' -d 'Marks the number and the place in messages; without it, on a terminal only'
complete -c aggen -n "__aggen_is_at 'explain'" -l node -x -d 'The node at this path: `/2/1` is the first child of the root\'s second child, `/1*9` nine times the first'
complete -c aggen -n "__aggen_is_at 'explain'" -s q -l quiet -d 'Shows no progress, and prints no refusal but those of the command line'
complete -c aggen -n "__aggen_is_at 'explain'" -l width -x -d 'Prints at most N characters of a value, 60 without it; 0 prints whole values. Numbers are printed whole'
complete -c aggen -n "__aggen_is_at 'explain'" -l sentence -r -F -d 'The file with the sentence of the tree, `-` for standard input'
complete -c aggen -n "__aggen_is_at 'explain'" -l at -x -d 'The innermost node of a symbol (not of a token) at this place of the sentence, counted from 1'
complete -c aggen -n "__aggen_is_at 'explain'" -l errors -d 'Prints the rules of the whole tree in which errors arise, and their number'
complete -c aggen -n "__aggen_is_at 'explain'" -s h -l help -d 'Print help'
complete -c aggen -n '__aggen_is_at explain 0' -k -a '(__fish_complete_suffix .ag)'
complete -c aggen -n '__aggen_is_at explain 1' -F
complete -c aggen -n "__aggen_is_at 'upgrade'" -l color -x -a 'auto always never' -d 'Marks the number and the place in messages; without it, on a terminal only'
complete -c aggen -n "__aggen_is_at 'upgrade'" -s q -l quiet -d 'Shows no progress, and prints no refusal but those of the command line'
complete -c aggen -n "__aggen_is_at 'upgrade'" -s h -l help -d 'Print help'
complete -c aggen -n '__aggen_is_at upgrade 0' -k -a '(__fish_complete_suffix .ag)'
complete -c aggen -n '__aggen_is_at upgrade 1' -F
complete -c aggen -n '__aggen_is_at upgrade 2' -F
complete -c aggen -n '__aggen_is_at help 0' -a 'run eval value check plan why code parse show explain upgrade help'
