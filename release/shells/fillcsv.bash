# bash completion for fillcsv: options, their values, sheets, rules, and the names of the sheet's columns

# The names of the columns of a sheet, one a line
_fillcsv_columns() {
    LC_ALL=C awk '@COLUMNS@' <"$1" 2>/dev/null
}

# The sheet among the words: the first one that is no option and no value of one
_fillcsv_sheet() {
    local at
    for ((at = 1; at < ${#words[@]}; at++)); do
        [[ $at -ne $cword ]] || continue
        case ${words[at]} in
            @VALUED@) ((at++)) ;;
            -?*) ;;
            *)
                dequote "${words[at]}"
                return
                ;;
        esac
    done
}

_fillcsv() {
    local cur prev words cword split front='' start name sheet
    _init_completion -s -n : || return
    case $prev in
        @COLUMN@)
            sheet=$(_fillcsv_sheet)
            [[ -f $sheet ]] || return 0
            start=${cur#[\"\']}
            start=${start//\\/}
            if [[ $prev == --from ]]; then
                front=${start%"${start##*,}"}
                start=${start##*,}
                compopt -o nospace
            fi
            while IFS= read -r name; do
                [[ $name != "$start"* || $prev == --from && $name == *,* ]] || COMPREPLY+=("$front$name")
            done < <(_fillcsv_columns "$sheet")
            compopt -o filenames -o nosort
            ;;
@CHOICES@
        @RULE@) _filedir rule ;;
        @TABLE@) [[ $cur != *=* ]] || { cur=${cur#*=}; _filedir csv; } ;;
        @OTHER@) ;;
        *)
            if [[ $split == false && $cur == -* ]]; then
                mapfile -t COMPREPLY < <(compgen -W '@OPTIONS@' -- "$cur")
            else
                _filedir csv
            fi
            ;;
    esac
} && complete -F _fillcsv fillcsv
