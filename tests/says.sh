# For tests that hold a page to what they count.

# says PAGE WORDS: the page has these words, wherever its lines end
says() {
    case $(tr -s '\n ' ' ' <"$1") in
    *"$2"*) echo "$1: '$2'" ;;
    *)
        echo "$1 does not say '$2'"
        return 1
        ;;
    esac
}

# rounded COUNT UNIT: to the nearest unit, as the pages write numbers
rounded() {
    local n=$((($1 + $2 / 2) / $2 * $2))
    if [ "$n" -lt 1000 ]; then echo "$n"; else printf '%d,%03d\n' $((n / 1000)) $((n % 1000)); fi
}
