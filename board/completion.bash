# Bash completion of puzzles, puzzles-json, puzzles-play, puzzles-page, puzzles-sheet and puzzles-check: games, options that were not used yet, and files where there may be one.
# shellcheck shell=bash

# The words before the cursor and after it, without the values of these options and what comes after '='.
_puzzles_used() { # OPTION..
    local at word is_value=
    for ((at = 1; at < ${#COMP_WORDS[@]}; at++)); do
        word=${COMP_WORDS[at]}
        # Bash cuts --load=FILE at the '='.
        if [[ $word == = ]]; then is_value=1; continue; fi
        if ((at != COMP_CWORD)) && [[ ! $is_value ]]; then printf ' %s ' "${word%%=*}"; fi
        is_value=
        if [[ " $* " == *" $word "* ]]; then is_value=1; fi
    done
}

# Offers those of these words that begin as the word at the cursor.
_puzzles_offer() { # WORD-AT-CURSOR WORD..
    mapfile -t COMPREPLY < <(compgen -W "${*:2}" -- "$1")
}

_puzzles_offer_files() { # WORD-AT-CURSOR BEFORE-EACH
    compopt -o filenames
    mapfile -t COMPREPLY < <(compgen -P "$2" -f -- "$1")
}

# In its caller's variables: the word after a '=', the option before it, and the prefix that bash wants again before each answer.
_puzzles_cut() {
    if [[ $before == = ]]; then
        before=${COMP_WORDS[COMP_CWORD - 2]}
    elif [[ $word == = ]]; then
        word=''
    elif [[ $word == --*=* ]]; then
        before=${word%%=*} prefix=${word%%=*}= word=${word#*=}
    fi
}

_puzzles() {
    local word=${COMP_WORDS[COMP_CWORD]} before=${COMP_WORDS[COMP_CWORD - 1]} prefix='' used offered=()
    used=$(_puzzles_used --id --load --save)
    COMPREPLY=()
    _puzzles_cut
    case $before in
        --load | --save) _puzzles_offer_files "$word" "$prefix"; return ;;
        --id) return ;;
    esac
    [[ $used == *' towers '* || $used == *' unequal '* ]] || offered+=(towers unequal)
    [[ $used == *' --id '* || $used == *' --load '* ]] || offered+=(--id --load)
    [[ $used == *' --save '* ]] || offered+=(--save)
    [[ $used == *' --help '* || $used == *' -h '* ]] || offered+=(--help)
    [[ $used == *' --version '* || $used == *' -V '* ]] || offered+=(--version)
    _puzzles_offer "$word" "${offered[@]}"
}

# The grades of a game at a size, where that was named; those of games with a number, where one was named.
_puzzles_grades() { # GAME SIZE NUMBER
    local kinds='easy hard extreme unreasonable'
    [[ $1 == towers ]] || kinds='trivial easy tricky extreme recursive'
    if [[ $2 == 3 ]]; then kinds=${kinds/hard /} kinds=${kinds/tricky /}; fi
    if [[ $2 == 9 ]]; then kinds=${kinds% unreasonable} kinds=${kinds% recursive}; fi
    if [[ $3 ]]; then kinds=${kinds% extreme*}; fi
    printf '%s\n' "${kinds// /$'\n'}"
}

_puzzles_play() {
    local word=${COMP_WORDS[COMP_CWORD]} at each before='' used game='' size='' kind='' number='' learn='' offered=()
    used=$(_puzzles_used)
    COMPREPLY=()
    if [[ ${COMP_WORDS[COMP_CWORD - 1]} == number ]]; then return; fi
    for ((at = 1; at < ${#COMP_WORDS[@]}; at++)); do
        if ((at == COMP_CWORD)); then continue; fi
        each=${COMP_WORDS[at]}
        case $before/$each in
            # The number of a game is no size.
            number/*) ;;
            */towers | */unequal) game=$each ;;
            */learn) learn=$each ;;
            */[3-9]) size=$each ;;
            */number | */today) number=$each ;;
            */trivial | */easy | */tricky | */hard | */extreme | */unreasonable | */recursive) kind=$each ;;
        esac
        before=$each
    done
    if [[ $game && ! $learn ]]; then
        [[ $size ]] || offered+=(3 4 5 6 7 8 9)
        [[ $kind ]] || mapfile -t -O "${#offered[@]}" offered < <(_puzzles_grades "$game" "$size" "$number")
        [[ $number ]] || offered+=(number today)
    elif [[ ! $game ]]; then
        offered+=(towers unequal)
        [[ $learn || $used == *' --ids '* ]] || offered+=(learn)
    fi
    [[ $used == *' --lines '* || $used == *' --ids '* ]] || offered+=(--lines)
    [[ $learn || $used == *' --lines '* || $used == *' --ids '* ]] || offered+=(--ids)
    [[ $used == *' --help '* || $used == *' -h '* ]] || offered+=(--help)
    [[ $used == *' --version '* || $used == *' -V '* ]] || offered+=(--version)
    _puzzles_offer "$word" "${offered[@]}"
    if [[ $learn ]]; then return; fi
    local words=("${COMPREPLY[@]}")
    _puzzles_offer_files "$word" ''
    COMPREPLY=("${words[@]}" "${COMPREPLY[@]}")
}

# One word is all that it takes.
_puzzles_page() {
    COMPREPLY=()
    ((COMP_CWORD != 1)) || _puzzles_offer "${COMP_WORDS[1]}" --path --help --version
}

_puzzles_sheet() {
    local word=${COMP_WORDS[COMP_CWORD]} before=${COMP_WORDS[COMP_CWORD - 1]} prefix='' used option offered=()
    used=$(_puzzles_used --size --grade --series --seed --count --names --ids --per-page --answers --show-grades --title --paper --output --pdf --browser)
    COMPREPLY=()
    _puzzles_cut
    case $before in
        --names | --ids | --output | --pdf | --browser) _puzzles_offer_files "$word" "$prefix"; return ;;
        --size) _puzzles_offer "$word" 3 4 5 6 7 8 9; return ;;
        --grade)
            case $used in
                *' towers '*) _puzzles_offer "$word" easy hard ;;
                *' unequal '*) _puzzles_offer "$word" trivial easy tricky ;;
                *) _puzzles_offer "$word" trivial easy tricky hard ;;
            esac
            return ;;
        --per-page) _puzzles_offer "$word" 1 2 3 4 6 9 12; return ;;
        --answers) _puzzles_offer "$word" end none only; return ;;
        --show-grades) _puzzles_offer "$word" answers all none; return ;;
        --paper) _puzzles_offer "$word" a4 letter; return ;;
        --series | --seed | --count | --title) return ;;
    esac
    [[ $used == *' towers '* || $used == *' unequal '* ]] || offered+=(towers unequal)
    for option in --size --grade --series --seed --count --names --ids --per-page --answers --show-grades --steps --all-steps --example --title --ids-below --words --paper --large --duplex --output --pdf --browser --help --version; do
        [[ $used == *" $option "* ]] || offered+=("$option")
    done
    _puzzles_offer "$word" "${offered[@]}"
}

# Files may be named again and again.
_puzzles_check() {
    local word=${COMP_WORDS[COMP_CWORD]} used option offered=()
    used=$(_puzzles_used --certificate --seconds --megabytes)
    COMPREPLY=()
    case ${COMP_WORDS[COMP_CWORD - 1]} in
        --certificate) _puzzles_offer_files "$word" ''; return ;;
        --seconds | --megabytes) return ;;
    esac
    for option in --json --draw --table --solutions --quick --certificate --needed --seconds --megabytes --help --version; do
        [[ $used == *" $option "* ]] || offered+=("$option")
    done
    _puzzles_offer "$word" "${offered[@]}"
    local words=("${COMPREPLY[@]}")
    _puzzles_offer_files "$word" ''
    COMPREPLY=("${words[@]}" "${COMPREPLY[@]}")
}

complete -F _puzzles puzzles puzzles-json
complete -F _puzzles_play puzzles-play
complete -F _puzzles_page puzzles-page
complete -F _puzzles_sheet puzzles-sheet
complete -F _puzzles_check puzzles-check
