# Plays a game to its end by hints: bash hints.bash PROGRAM GAME ID
coproc PUZZLES { exec "$1" "$2" --id "$3"; }
to=${PUZZLES[1]} from=${PUZZLES[0]}

ask() { # LINE, FILTER: what jq takes out of the object
    local object
    printf '%s\n' "$1" >&"$to" && IFS= read -r object <&"$from" || return
    jq -er "if .lost then error(.lost) elif .refused then error(.refused) else $2 end" <<< "$object"
}

size=$(ask board .board.size) || exit
while hint=$(ask hint '.hint | "\(.kind) \(.cell) \(.number)"') || exit
    read -r kind cell number <<< "$hint"
    [[ $kind == follows ]]; do
    ask "move R$((cell % size)),$((cell / size)),$number" .session.position > /dev/null || exit
done
ask show '.reply[]'
ask status .session.status
