#compdef puzzles puzzles-json puzzles-play puzzles-page puzzles-sheet puzzles-check
# Zsh completion of puzzles, puzzles-json, puzzles-play, puzzles-page, puzzles-sheet and puzzles-check: games, options that were not used yet, and files where there may be one.

_puzzles_game_or_file() {
    if [[ -n ${words[(r)learn]} ]]; then
        _alternative 'games:game:(towers unequal)'
    else
        _alternative 'games:game:(towers unequal)' 'course:course:(learn)' 'files:save file:_files'
    fi
}

_puzzles_kind_or_file() {
    local -A grades=(towers 'easy hard extreme unreasonable' unequal 'trivial easy tricky extreme recursive')
    if [[ -n ${words[(r)learn]} ]]; then
        if [[ -z ${words[(r)towers|unequal]} ]]; then _puzzles_game_or_file; fi
        return
    fi
    local game=${words[(r)towers|unequal]} size=${words[(r)[3-9]]} number=${words[(r)number|today]}
    local offered=${grades[$game]}
    if [[ $size == 3 ]]; then offered=${${offered/hard /}/tricky /}; fi
    if [[ $size == 9 ]]; then offered=${${offered% unreasonable}% recursive}; fi
    if [[ -n $number ]]; then offered=${offered% extreme*}; fi
    if [[ -z $size ]]; then offered="3 4 5 6 7 8 9 $offered"; fi
    if [[ -z $number ]]; then offered="$offered number today"; fi
    _alternative "kinds:size or grade:($offered)" 'files:save file:_files'
}

_puzzles_sheet_grade() {
    case ${words[(r)towers|unequal]} in
        towers) _values 'grade' easy hard ;;
        unequal) _values 'grade' trivial easy tricky ;;
        *) _values 'grade' trivial easy tricky hard ;;
    esac
}

case $service in
    puzzles-play)
        _arguments -S \
            '(--ids)--lines[play by lines of text]' \
            '(--lines)--ids[print the IDs of new games]' \
            '(- *)'{-h,--help}'[show a help text]' \
            '(- *)'{-V,--version}'[show the version]' \
            '1:game or save file:_puzzles_game_or_file' \
            '*:ID, size or grade, or save file:_puzzles_kind_or_file' ;;
    puzzles-page)
        _arguments -S \
            '(- *)--path[print where the page lies]' \
            '(- *)'{-h,--help}'[show a help text]' \
            '(- *)'{-V,--version}'[show the version]' \
            ;;
    puzzles-check)
        _arguments -S \
            '--json[write an object for each puzzle]' \
            '--draw[write each puzzle as a drawing]' \
            '--table[write each as a table with tabs]' \
            '--solutions[write up to two solutions of each]' \
            "--quick[don't count what could be left out]" \
            '--certificate=[write why, for verify.py]:file:_files' \
            '--needed[certificates also show that each item is needed]' \
            '--seconds=[so long a certificate may take]:seconds:' \
            '--megabytes=[so long a certificate may be]:megabytes:' \
            '(- *)'{-h,--help}'[show a help text]' \
            '(- *)'{-V,--version}'[show the version]' \
            '*:list, drawings or save file:_files' ;;
    puzzles-sheet)
        _arguments -S \
            '--size=[the sizes of the puzzles]:size, as 5-7:(3 4 5 6 7 8 9)' \
            '--grade=[their grades]:grade:_puzzles_sheet_grade' \
            '--series=[other puzzles for each number]:number:' \
            '--seed=[the puzzles of an older sheet]:number:' \
            '--count=[how many there are]:number:' \
            '--names=[a sheet for each name]:list of names:_files' \
            '--ids=[the puzzles of a list]:list of IDs:_files' \
            '--per-page=[how many a page has at most]:number:(1 2 3 4 6 9 12)' \
            '--answers=[where the answers are]:where:(end none only)' \
            '--show-grades=[where grades are told]:where:(answers all none)' \
            '--steps[tell how each answer goes on]' \
            '--all-steps[tell all steps of each answer]' \
            '--example[the cards of the course come first]' \
            '--title=[stands above]:title:' \
            '--ids-below[each puzzle has its ID below it]' \
            '--words[the foot has the words that make the sheet]' \
            '--paper=[the size of the paper]:paper:(a4 letter)' \
            '--large[one on a page]' \
            '--duplex[each name begins a new sheet of paper]' \
            '--output=[where the page goes]:page:_files' \
            '--pdf=[print it to this file]:PDF:_files' \
            '--browser=[the Chromium that prints]:browser:_command_names -e' \
            '(- *)'{-h,--help}'[show a help text]' \
            '(- *)'{-V,--version}'[show the version]' \
            '1:game:(towers unequal)' ;;
    *)
        _arguments -S \
            '(--id --load)--id=[begin with the puzzle of this game ID]:ID:' \
            '(--id --load)--load=[begin with the saved game]:save file:_files' \
            '--save=[save the game at the end]:save file:_files' \
            '(- *)'{-h,--help}'[show a help text]' \
            '(- *)'{-V,--version}'[show the version]' \
            '1:game:(towers unequal)' ;;
esac
