# fish completion for fillcsv: options, their values, sheets, rules, and the names of the sheet's columns

# The names of the columns of the sheet among the words: of the first word that is no option and no value of one
function __fillcsv_columns
    set -l words (commandline -opc)[2..]
    while set -q words[1]
        switch $words[1]
            case @VALUED@
                set -e words[1]
            case '-?*'
            case '*'
                test -f $words[1]; and LC_ALL=C awk '@COLUMNS@' <$words[1] 2>/dev/null
                return
        end
        set -e words[1]
    end
end

complete -c fillcsv -k -x -a '(__fish_complete_suffix .csv)'
@COMPLETES@
