# shellcheck shell=sh
# What the scripts of this folder share: their four settings, which the environment may name, and what has to be so before a
# fragment is answered.

# Each fragment's run would otherwise look again which program is run.
if [ -z "${XCOLS-}" ]; then
    XCOLS=$(./xcols --path) || exit
fi
: "${TABLES:=examples/sales}" "${QUERY:=SELECT COUNT(*) FROM sales}" "${ANSWERS:=answers}"
export XCOLS TABLES QUERY ANSWERS

# Ends with status 1 where the query is refused, which costs one run and is printed once; where the tables aren't loaded; and where
# there are answers that are older than the load: two loads may have the same number, and an answer doesn't say of which it is.
be_ready() {
    "$XCOLS" explain "$TABLES" --query "$QUERY" >/dev/null || exit
    if [ ! -e "$TABLES/cut.xcl" ]; then
        echo "$1: the tables in $TABLES aren't loaded: $XCOLS load $TABLES --load \"\$(date +%s)\" --rows 262144" >&2
        exit 1
    fi
    mkdir -p "$ANSWERS"
    old=$(find "$ANSWERS" -maxdepth 1 -name '*.xg[as]' ! -newer "$TABLES/cut.xcl" -print -quit)
    if [ -n "$old" ]; then
        echo "$1: $old is older than the load in $TABLES: remove the old answers, or name another folder by ANSWERS" >&2
        exit 1
    fi
}

# The numbers of all fragments: the file of the cut has how many there are after its magic and the number of the load.
fragments() { seq 0 $(($(od -An -t u4 -j 12 -N 4 "$TABLES/cut.xcl") - 1)); }
