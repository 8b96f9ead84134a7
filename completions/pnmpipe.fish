# Completion for fish of the words of pnmpipe and its helpers, and inside CHAIN's open quote of the tools and their
# options.

# the chain so far, without its quote, and the words that may go on
function __pnmpipe_chain
    set -l typed (commandline -ct | string replace -r '^[\'"]' '')
    set -l last (string match -r '[^ \t|]*$' -- $typed)
    set -l before (string sub -l (math (string length -- "$typed") - (string length -- "$last")) -- "$typed")
    set -l stage (string replace -r '^.*\|' '' -- "$before" | string trim)
    set -l words
    switch (string split -f 1 ' ' -- "$stage")
        # make tables writes tools: case {name}; set words {words}
        case ''; set words pnminvert pamcut pamdepth pamchannel pamenlarge pamflip pnmtile
        case pamcut; set words -left -right -top -bottom -width -height
        case pamdepth; set words 1 255 65535
        case pamchannel; set words 0 1 2 3 -tupletype
        case pamenlarge; set words 2 3 4 -xscale -yscale
        case pamflip; set words -lr -leftright -tb -topbottom -xy -transpose -r90 -r180 -r270 -null
        # up to here
    end
    # a word that alone goes on would close the quote, and a second one that does keeps it open
    if string match -qr '^[\'"]' -- (commandline -ct)
        set -l found (string match -r -- '^'(string escape --style=regex -- "$last")'.*' $words)
        test (count $found) -ne 1; or set words "$found " "$found |"
    end
    string join \n -- $before$words
end

# whether no word but options stands before the one that is typed
function __pnmpipe_at_chain
    set -l count 0
    set -l is_value 0
    for word in (commandline -opc)
        switch $word
            # make tables writes values: case {all}; set is_value 1
            case --lanes; set is_value 1
            case --ring; set is_value 1
            case --jobs --small --machines --start --digits; set is_value 1
            # up to here
            case '-*'
                set is_value 0
            case '*'
                test $is_value -eq 1; or set count (math $count + 1)
                set is_value 0
        end
    end
    test $count -eq 1
end

for name in pnmpipe pnmpipe-explain pnmpipe-files
    complete -c $name -n __pnmpipe_at_chain -f -a '(__pnmpipe_chain)'
end
for name in pnmpipe pnmpipe-explain pnmpipe-files pnmpipe-split pnmpipe-translate
    complete -c $name -s h -l help -d 'a summary'
    complete -c $name -s V -l version -d 'the version'
end
complete -c pnmpipe-translate -s f -r -d 'a script'
# make tables writes options: complete {commands} -l {name}{fish} -d '{what}'
complete -c pnmpipe -c pnmpipe-explain -c pnmpipe-files -l ring -x -a '1 16 64 256 1024' -d 'rows between two tools'
complete -c pnmpipe -c pnmpipe-explain -c pnmpipe-files -l lanes -x -a '1 2 4 8' -d 'threads of a row-wise tool'
complete -c pnmpipe -c pnmpipe-explain -c pnmpipe-files -l plain -d 'write plain images'
complete -c pnmpipe-explain -l brief -d 'one line'
complete -c pnmpipe-explain -l no-input -d 'judge the chain alone'
complete -c pnmpipe-files -l jobs -x -d 'files at a time'
complete -c pnmpipe-files -l small -x -d 'the most bytes of a small file'
complete -c pnmpipe-files -l machines -x -d 'machines that files go to'
complete -c pnmpipe-files -l resume -d 'leave out files that are done'
complete -c pnmpipe-files -l keep-folders -d 'keep the folders of the files'
complete -c pnmpipe-files -l suffix -d 'name results by their kind'
complete -c pnmpipe-files -l bar -d 'show the progress'
complete -c pnmpipe-files -l names -r -d 'a list of files'
complete -c pnmpipe-files -l names0 -r -d 'a list of names that end in a byte 0'
complete -c pnmpipe-split -l start -x -d 'the first number'
complete -c pnmpipe-split -l digits -x -d 'digits of a number'
complete -c pnmpipe-split -l names -r -d 'a list of names'
complete -c pnmpipe-split -l force -d 'replace files'
complete -c pnmpipe-translate -l file -r -d 'a script'
# up to here
