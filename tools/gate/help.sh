# Prints the head of the tool that reads this, and ends it, where its first word is --help or -h.
case ${1-} in
    -h | --help)
        sed -n '2,/^[^#]/s/^# \{0,1\}//p' "$0"
        exit
        ;;
esac
