# Prints what zsh lists at the end of a line that is typed into a zsh of its own: the arguments are
# a folder of completions and the line.
zmodload zsh/zpty || exit 1
zpty shell zsh -f
zpty -w shell "fpath=($1 \$fpath); autoload -Uz compinit && compinit -u -D
LISTMAX=1000 COLUMNS=200 LINES=100
zle-line-init() { echo is \"\"ready }; zle -N zle-line-init"
# The line is typed when the editor of lines has begun: what comes before is lost.
zpty -r -m shell typed '*is ready*'
# After the two tabs the line is thrown away, and the shell says that it has done all of it.
zpty -w -n shell "$2"$'\t\t\C-uecho that is ""all\n'
zpty -r -m shell listed '*that is all*'
print -r -- $listed
