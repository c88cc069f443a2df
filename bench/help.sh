# Sourced by each script here as its first command: for --help, the comment at its top is written, and nothing is run.
case ${1-} in
    --help | -h)
        sed -n '2,/^[^#]/{/^#/!d;s/^# \{0,1\}//;p}' "$0"
        exit 0
        ;;
esac
