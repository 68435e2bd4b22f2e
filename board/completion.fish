# Fish completion of puzzles, puzzles-json, puzzles-play, puzzles-page, puzzles-sheet and puzzles-check: games, options that were not used yet, and files where there may be one.

# The options that have a value.
set -g __puzzles_valued --id --load --save --size --grade --seed --count --ids --per-page --answers --title --paper --output --pdf --browser --certificate --seconds --megabytes

# The grades of both games.
set -g __puzzles_grades trivial easy tricky hard extreme unreasonable recursive

# Whether one of these words was named. The number of a game is none.
function __puzzles_has
    set -l before
    for word in (commandline -opc)
        contains -- $word $argv; and test "$before" != number; and return 0
        set before $word
    end
    return 1
end

# Whether none of these options was used. An option whose value is being typed is none that was used.
function __puzzles_unused
    set -l words (commandline -opc)
    contains -- $words[-1] $__puzzles_valued; and set -e words[-1]
    for option in $argv
        string match -q -r -- "^-+$option(=|\$)" $words; and return 1
    end
    return 0
end

# Whether no game was named. The value of an option is none.
function __puzzles_no_game
    set -l before
    for word in (commandline -opc)
        contains -- $word towers unequal; and not contains -- "$before" $__puzzles_valued; and return 1
        set before $word
    end
    return 0
end

for program in puzzles puzzles-json
    complete -c $program -e
    complete -c $program -f
    complete -c $program -n __puzzles_no_game -a 'towers unequal' -d 'the game'
    complete -c $program -n '__puzzles_unused id load' -l id -x -d 'begin with the puzzle of this game ID'
    complete -c $program -n '__puzzles_unused id load' -l load -r -F -d 'begin with the saved game'
    complete -c $program -n '__puzzles_unused save' -l save -r -F -d 'save the game at the end'
    complete -c $program -n '__puzzles_unused help h' -s h -l help -d 'show a help text'
    complete -c $program -n '__puzzles_unused version V' -s V -l version -d 'show the version'
end

complete -c puzzles-play -e
complete -c puzzles-play -n __puzzles_no_game -a 'towers unequal' -d 'the game'
complete -c puzzles-play -n '__puzzles_no_game; and not __puzzles_has learn' -a 'learn' -d 'a course of two minutes'
complete -c puzzles-play -n 'not __puzzles_has learn; and __fish_seen_subcommand_from towers unequal; and not __puzzles_has 3 4 5 6 7 8 9' -a '3 4 5 6 7 8 9' -d 'the size of a new game'
complete -c puzzles-play -n 'not __puzzles_has learn; and __fish_seen_subcommand_from unequal; and not __puzzles_has $__puzzles_grades' -a 'trivial' -d 'the grade of a new game'
complete -c puzzles-play -n 'not __puzzles_has learn; and __fish_seen_subcommand_from towers unequal; and not __puzzles_has $__puzzles_grades' -a 'easy' -d 'the grade of a new game'
complete -c puzzles-play -n 'not __puzzles_has learn; and __fish_seen_subcommand_from towers; and not __puzzles_has 3 $__puzzles_grades' -a 'hard' -d 'the grade of a new game'
complete -c puzzles-play -n 'not __puzzles_has learn; and __fish_seen_subcommand_from unequal; and not __puzzles_has 3 $__puzzles_grades' -a 'tricky' -d 'the grade of a new game'
complete -c puzzles-play -n 'not __puzzles_has learn; and __fish_seen_subcommand_from towers unequal; and not __puzzles_has number today $__puzzles_grades' -a 'extreme' -d 'the grade of a new game'
complete -c puzzles-play -n 'not __puzzles_has learn; and __fish_seen_subcommand_from towers; and not __puzzles_has 9 number today $__puzzles_grades' -a 'unreasonable' -d 'the grade of a new game'
complete -c puzzles-play -n 'not __puzzles_has learn; and __fish_seen_subcommand_from unequal; and not __puzzles_has 9 number today $__puzzles_grades' -a 'recursive' -d 'the grade of a new game'
complete -c puzzles-play -n 'not __puzzles_has learn; and __fish_seen_subcommand_from towers unequal; and not __puzzles_has number today' -a 'number today' -d 'the number of a new game'
complete -c puzzles-play -n '__puzzles_unused lines ids' -l lines -d 'play by lines of text'
complete -c puzzles-play -n '__puzzles_unused lines ids; and not __puzzles_has learn' -l ids -d 'print the IDs of new games'
complete -c puzzles-play -n '__puzzles_unused help h' -s h -l help -d 'show a help text'
complete -c puzzles-play -n '__puzzles_unused version V' -s V -l version -d 'show the version'

complete -c puzzles-page -e
complete -c puzzles-page -f
complete -c puzzles-page -n '__puzzles_unused path' -l path -d 'print where the page lies'
complete -c puzzles-page -n '__puzzles_unused help h' -s h -l help -d 'show a help text'
complete -c puzzles-page -n '__puzzles_unused version V' -s V -l version -d 'show the version'

complete -c puzzles-sheet -e
complete -c puzzles-sheet -f
complete -c puzzles-sheet -n __puzzles_no_game -a 'towers unequal' -d 'the game'
complete -c puzzles-sheet -n '__puzzles_unused size' -l size -x -a '3 4 5 6 7 8 9' -d 'the sizes of the puzzles'
complete -c puzzles-sheet -n '__puzzles_unused grade; and not __fish_seen_subcommand_from unequal' -l grade -x -a 'easy hard' -d 'their grades'
complete -c puzzles-sheet -n '__puzzles_unused grade; and not __fish_seen_subcommand_from towers' -l grade -x -a 'trivial easy tricky' -d 'their grades'
complete -c puzzles-sheet -n '__puzzles_unused series' -l series -x -d 'other puzzles for each number'
complete -c puzzles-sheet -n '__puzzles_unused seed' -l seed -x -d 'the puzzles of an older sheet'
complete -c puzzles-sheet -n '__puzzles_unused count' -l count -x -d 'how many there are'
complete -c puzzles-sheet -n '__puzzles_unused names' -l names -r -F -d 'a sheet for each name'
complete -c puzzles-sheet -n '__puzzles_unused ids' -l ids -r -F -d 'the puzzles of a list'
complete -c puzzles-sheet -n '__puzzles_unused per-page' -l per-page -x -a '1 2 3 4 6 9 12' -d 'how many a page has at most'
complete -c puzzles-sheet -n '__puzzles_unused answers' -l answers -x -a 'end none only' -d 'where the answers are'
complete -c puzzles-sheet -n '__puzzles_unused show-grades' -l show-grades -x -a 'answers all none' -d 'where grades are told'
complete -c puzzles-sheet -n '__puzzles_unused steps' -l steps -d 'tell how each answer goes on'
complete -c puzzles-sheet -n '__puzzles_unused all-steps' -l all-steps -d 'tell all steps of each answer'
complete -c puzzles-sheet -n '__puzzles_unused example' -l example -d 'the cards of the course come first'
complete -c puzzles-sheet -n '__puzzles_unused ids-below' -l ids-below -d 'each puzzle has its ID below it'
complete -c puzzles-sheet -n '__puzzles_unused words' -l words -d 'the foot has the words that make the sheet'
complete -c puzzles-sheet -n '__puzzles_unused title' -l title -x -d 'stands above'
complete -c puzzles-sheet -n '__puzzles_unused paper' -l paper -x -a 'a4 letter' -d 'the size of the paper'
complete -c puzzles-sheet -n '__puzzles_unused large' -l large -d 'one on a page'
complete -c puzzles-sheet -n '__puzzles_unused duplex' -l duplex -d 'each name begins a new sheet of paper'
complete -c puzzles-sheet -n '__puzzles_unused output' -l output -r -F -d 'where the page goes'
complete -c puzzles-sheet -n '__puzzles_unused pdf' -l pdf -r -F -d 'print it to this file'
complete -c puzzles-sheet -n '__puzzles_unused browser' -l browser -r -F -d 'the Chromium that prints'
complete -c puzzles-sheet -n '__puzzles_unused help h' -s h -l help -d 'show a help text'
complete -c puzzles-sheet -n '__puzzles_unused version V' -s V -l version -d 'show the version'

complete -c puzzles-check -e
complete -c puzzles-check -n '__puzzles_unused json' -l json -d 'write an object for each puzzle'
complete -c puzzles-check -n '__puzzles_unused draw' -l draw -d 'write each puzzle as a drawing'
complete -c puzzles-check -n '__puzzles_unused table' -l table -d 'write each as a table with tabs'
complete -c puzzles-check -n '__puzzles_unused solutions' -l solutions -d 'write up to two solutions of each'
complete -c puzzles-check -n '__puzzles_unused quick' -l quick -d "don't count what could be left out"
complete -c puzzles-check -n '__puzzles_unused certificate' -l certificate -r -F -d 'write why, for verify.py'
complete -c puzzles-check -n '__puzzles_unused needed' -l needed -d 'certificates also show that each item is needed'
complete -c puzzles-check -n '__puzzles_unused seconds' -l seconds -x -d 'so long a certificate may take'
complete -c puzzles-check -n '__puzzles_unused megabytes' -l megabytes -x -d 'so long a certificate may be'
complete -c puzzles-check -n '__puzzles_unused help h' -s h -l help -d 'show a help text'
complete -c puzzles-check -n '__puzzles_unused version V' -s V -l version -d 'show the version'
