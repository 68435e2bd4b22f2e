# Makes the fair games of a block of seeds, once: bash fair.bash PROGRAM GAME SIZE GRADE BLOCK [SEEDS]
set -o pipefail
each=${6:-1000} file=$2-$3d$4-$5
[[ -e $file ]] && exit
seq $(($5 * each)) $(($5 * each + each - 1)) | sed "s/^/fair $3 $4 /" | "$1" "$2" |
    jq -r 'select(.refused == null).session.id' > "$file.new" && mv "$file.new" "$file"
