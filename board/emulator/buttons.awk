# Refuses a file of buttons (docs/GAME.md) that has another line, by its file, line and text:
#
#     FILE=NAME awk -f board/emulator/buttons.awk <NAME
#
# Status 1 then. buttons.lua and the premises read the file, and leave out what isn't so. What
# stands after a # is passed over.
BEGIN {
    split("left right thrust fire hyperspace start_1 start_2 coin_left coin_center coin_right " \
        "slam step test", names)
    for (i in names) is_button[names[i]]
}
{
    text = $0
    sub(/#.*/, "")
    sub(/[ \t\r]+$/, "")
}
NF && !(NF == 3 && $1 ~ /^([0-9]+\.?[0-9]*|\.[0-9]+)$/ && $2 in is_button && $3 ~ /^(down|up)$/) {
    printf "%s line %d: expected TIME BUTTON down or up: %s\n", ENVIRON["FILE"], NR, text \
        >"/dev/stderr"
    exit 1
}
